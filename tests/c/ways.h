/* A chip, and the four ways by which strobed bytes go through it. */
#ifndef TESTS_WAYS_H
#define TESTS_WAYS_H

#include "towanchor.h"

extern unsigned char image[TOWANCHOR_IMAGE_SIZE];

/* The mode word that strobes a channel, its port, and its STB or ACK. */
struct way {
    unsigned char word, port, pin;
};

/* By the number of the channel. */
extern const struct way ways[];

int is_input(unsigned char channel);

/* An event and a whole write, which the chip must accept. */
void event(unsigned char kind, unsigned char first, unsigned char second);
void write_byte(unsigned char address, unsigned char byte);

unsigned int tally(unsigned char channel, unsigned char which);

#endif
