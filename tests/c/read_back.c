/* Control, read back. Of an 82C55A: in every image of the family, and after every word, a reset and a power-up, what the read answers and
 * that nothing but the bus is another for it, in the cycle and after; while a cycle runs it is refused by number 4. An 8255A always refuses
 * it by number 3. */
#include "checks.h"
#include "family.h"
#include "layout.h"
#include "shown.h"
#include "towanchor.h"
#include "ways.h"

#include <stdio.h>
#include <string.h>

#define SIZE TOWANCHOR_IMAGE_SIZE

/* The mode word that a power-up and a reset leave. */
#define FIRST_WORD 0x9B

/* What an accepted read answers. */
#define READ_BACK(byte) (256u * (byte) + TOWANCHOR_ACCEPTED)

/* How many images had an idle bus, and how many a cycle. */
static unsigned long idle, running;

static unsigned int begin(void)
{
    return towanchor_step(image, SIZE, TOWANCHOR_BEGIN_READ, TOWANCHOR_CONTROL, 0);
}

/* A read that is refused, by the number, and writes nothing. */
static void refused(unsigned int number, const char *what)
{
    unsigned char before[SIZE];

    memcpy(before, image, SIZE);
    check(begin() == number, what, image[MODE_WORD]);
    check(memcmp(image, before, SIZE) == 0, "a refused read of control wrote, under mode word", image[MODE_WORD]);
}

/* A whole read of an image with an idle bus. It leaves all as it was; in the cycle, all but the bus. */
static void answered(unsigned char byte)
{
    unsigned char before[SIZE], expected[SIZE];
    struct shown was, is;

    memcpy(before, image, SIZE);
    memcpy(expected, image, SIZE);
    expected[BUS] = READS + TOWANCHOR_CONTROL;
    show(image, &was);
    check(begin() == READ_BACK(byte), "a read of control, under mode word", image[MODE_WORD]);
    check(memcmp(image, expected, SIZE) == 0, "the image while control is read, under mode word", image[MODE_WORD]);
    show(image, &is);
    check(show_the_same(&was, &is), "what is shown while control is read, under mode word", image[MODE_WORD]);
    check(towanchor_step(image, SIZE, TOWANCHOR_END_CYCLE, 0, 0) == TOWANCHOR_ACCEPTED, "the end of the read, under mode word",
          image[MODE_WORD]);
    check(memcmp(image, before, SIZE) == 0, "the image after the read of control, under mode word", image[MODE_WORD]);
}

/* A reset drops the read: what it leaves is what it makes of the image with an idle bus. */
static void dropped(void)
{
    unsigned char before[SIZE], idle_one[SIZE];

    memcpy(before, image, SIZE);
    memcpy(idle_one, image, SIZE);
    idle_one[BUS] = IDLE;
    event(TOWANCHOR_RESET, 0, 0);
    towanchor_step(idle_one, SIZE, TOWANCHOR_RESET, 0, 0);
    check(memcmp(image, idle_one, SIZE) == 0, "a reset while control is read, under mode word", before[MODE_WORD]);
    check(towanchor_step(image, SIZE, TOWANCHOR_END_CYCLE, 0, 0) == TOWANCHOR_NO_CYCLE_RUNS, "an end after the reset, under mode word",
          before[MODE_WORD]);
    memcpy(image, before, SIZE);
}

/* Each image as an 8255A's, where it is one of those, and as an 82C55A's. */
static void of_both_editions(void)
{
    unsigned char edition = image[EDITION];
    int reads_control = image[BUS] == READS + TOWANCHOR_CONTROL;

    image[EDITION] = TOWANCHOR_8255A;
    if (!reads_control)
        refused(TOWANCHOR_NOT_READABLE, "a read of control of an 8255A, under mode word");
    image[EDITION] = TOWANCHOR_82C55A;
    if (image[BUS] == IDLE) {
        idle++;
        answered(image[MODE_WORD]);
    } else {
        running++;
        refused(TOWANCHOR_CYCLE_RUNS, "a read of control while a cycle runs, under mode word");
    }
    if (reads_control)
        dropped();
    image[EDITION] = edition;
}

/* Reads control after what was written there, as the edition does it. */
static void read_control(unsigned char edition, unsigned char byte)
{
    if (edition == TOWANCHOR_82C55A)
        answered(byte);
    else
        refused(TOWANCHOR_NOT_READABLE, "a read of control of an 8255A, after mode word");
}

/* Every mode word, and after each every bit set/reset word; then a reset. The byte of a write does not act before the write has ended. */
static void after_words(unsigned char edition)
{
    unsigned int word, bit_word;

    check(towanchor_power_up_as(image, SIZE, edition, 0x5A, 0xA5, 0x3C) == TOWANCHOR_ACCEPTED, "power-up as an edition", edition);
    read_control(edition, FIRST_WORD);
    for (word = 0x80; word <= 0xFF; word++) {
        write_byte(TOWANCHOR_CONTROL, (unsigned char)word);
        read_control(edition, (unsigned char)word);
        for (bit_word = 0; bit_word < 0x80; bit_word++) {
            write_byte(TOWANCHOR_CONTROL, (unsigned char)bit_word);
            read_control(edition, (unsigned char)word);
        }
        event(TOWANCHOR_BEGIN_WRITE, TOWANCHOR_CONTROL, (unsigned char)(word ^ 0x7F));
        event(TOWANCHOR_RESET, 0, 0);
        read_control(edition, FIRST_WORD);
    }
}

int main(void)
{
    each_image(of_both_editions);
    check(idle == FAMILY / PHASES && running == FAMILY - idle, "the images of the family", (unsigned int)(idle + running));
    printf("%lu images, in %lu of them a cycle running\n", idle + running, running);
    after_words(TOWANCHOR_8255A);
    after_words(TOWANCHOR_82C55A);
    return checked();
}
