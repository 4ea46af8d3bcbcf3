/* Pseudo-random images that are good, for the programs that compare and count calls on them. */
#ifndef IMAGES_H
#define IMAGES_H

#include "towanchor.h"

enum { IMAGE = TOWANCHOR_IMAGE_SIZE };
enum { TALLIES_END = 56, LEVELS_C = 58, CONDITIONS = 64, WORD = 68, ENABLES = 69, BUS = 70, DATA = 71, EDITION = 72, UNUSED = 73 };
enum { READING_CONTROL = 3, WRITING = 4, IDLE = 8 };
enum { OLDER, NEWER };

/* Pseudo-random numbers, the same in every run: high bits of a linear congruential sequence. */
static unsigned char random_byte(void)
{
    static unsigned long long sequence = 8255;
    sequence = sequence * 6364136223846793005u + 1442695040888963407u;
    return sequence >> 56;
}

/* The highest condition that the mode word of an image leaves to a channel. */
static unsigned char last_condition(const unsigned char *image, int channel)
{
    int mode_2 = image[WORD] & 0x40, mode_1 = !mode_2 && (image[WORD] & 0x20), input = image[WORD] & 0x10;
    int mode_1_b = image[WORD] & 0x04, input_b = image[WORD] & 0x02;
    switch (channel) {
    case TOWANCHOR_A_IN: return mode_2 || (mode_1 && input) ? 2 : 0;
    case TOWANCHOR_A_OUT: return mode_2 || (mode_1 && !input) ? 1 : 0;
    case TOWANCHOR_B_IN: return mode_1_b && input_b ? 2 : 0;
    default: return mode_1_b && !input_b ? 1 : 0;
    }
}

/* Any good image. Half the bytes of its tallies are FF, so that some tallies go on to 0. */
static void make_good(unsigned char *image)
{
    int i;
    for (i = 0; i < IMAGE; i++)
        image[i] = i < TALLIES_END && random_byte() & 1 ? 0xff : random_byte();
    image[WORD] |= 0x80;
    for (i = 0; i < 4; i++)
        image[CONDITIONS + i] %= last_condition(image, i) + 1;
    image[ENABLES] &= 0x54;
    image[BUS] %= IDLE + 1;
    image[EDITION] %= NEWER + 1;
    if (image[BUS] == READING_CONTROL && image[EDITION] == OLDER)
        image[BUS] = IDLE;
    if (image[BUS] < WRITING || image[BUS] == IDLE)
        image[DATA] = 0;
    for (i = UNUSED; i < IMAGE; i++)
        image[i] = 0;
}

#endif
