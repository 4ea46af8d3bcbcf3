/* Power-up, without levels and with, as either edition: what each port shows, that to name levels is to put them there, that a machine which
 * was saved before has the levels that it had, and that an STB or ACK which is low from the start moves no byte until it has been raised and
 * falls. */
#include "checks.h"
#include "towanchor.h"
#include "ways.h"

#include <string.h>

/* A machine that was saved after power-up when the default was every line high, and an image was shorter: the bytes that were written then. */
static const unsigned char saved_before[TOWANCHOR_OLDER_IMAGE_SIZE] = {
    0, 0, 0, 0, 0,    0, 0, 0, 0,    0,    0,    0, 0, 0, 0, 0,
    0, 0, 0, 0, 0,    0, 0, 0, 0,    0,    0,    0, 0, 0, 0, 0,
    0, 0, 0, 0, 0,    0, 0, 0, 0xFF, 0xFF, 0xFF, 0, 0, 0, 0, 0,
    0, 0, 0, 0, 0x9B, 0, 0, 0, 0,    0,    0,    0, 0, 0, 0, 0,
};

/* Names the levels, and the edition where it is not the one that is made without. */
static void named(unsigned char edition, unsigned char a, unsigned char b, unsigned char c)
{
    unsigned int answer = edition == TOWANCHOR_8255A ? towanchor_power_up_with_levels(image, sizeof image, a, b, c)
                                                     : towanchor_power_up_as(image, sizeof image, edition, a, b, c);

    check(answer == TOWANCHOR_ACCEPTED, "power-up with levels of A", a);
}

static void shows(unsigned char port, unsigned char levels)
{
    unsigned int view = towanchor_pins(image, sizeof image, port);

    check(TOWANCHOR_LEVELS(view) == levels, "the levels that a port shows", port);
    check(TOWANCHOR_DRIVEN(view) == 0, "the pins that a port drives", port);
}

/* Each port has its own levels, and the image is the one that events would have made of that with every line low. */
static void as_put(unsigned char edition, unsigned char a, unsigned char b, unsigned char c)
{
    unsigned char by_name[TOWANCHOR_IMAGE_SIZE];

    named(edition, a, b, c);
    shows(TOWANCHOR_A, a);
    shows(TOWANCHOR_B, b);
    shows(TOWANCHOR_C, c);
    memcpy(by_name, image, sizeof image);
    named(edition, 0, 0, 0);
    event(TOWANCHOR_OUTSIDE_LEVELS, TOWANCHOR_A, a);
    event(TOWANCHOR_OUTSIDE_LEVELS, TOWANCHOR_B, b);
    event(TOWANCHOR_OUTSIDE_LEVELS, TOWANCHOR_C, c);
    check(memcmp(image, by_name, sizeof image) == 0, "levels named and levels put, on A", a);
}

/* Checks how many falls of the channel's line have counted, and gives an output its next byte. */
static void counted(unsigned char channel, unsigned int falls, const char *when)
{
    check(tally(channel, is_input(channel) ? TOWANCHOR_OFFERED : TOWANCHOR_HANDED_OVER) == falls, when, channel);
    if (!is_input(channel))
        write_byte(ways[channel].port, 0x55);
}

static void only_falls(unsigned char edition, unsigned char channel, unsigned char levels)
{
    unsigned int high = (levels & TOWANCHOR_PIN(ways[channel].pin)) != 0;

    named(edition, 0, 0, levels);
    write_byte(TOWANCHOR_CONTROL, ways[channel].word);
    counted(channel, 0, "falls at the mode word, of channel");
    event(TOWANCHOR_OUTSIDE_LEVELS, TOWANCHOR_C, 0);
    counted(channel, high, "falls when the line is put low, of channel");
    event(TOWANCHOR_OUTSIDE_LEVELS, TOWANCHOR_C, 0);
    counted(channel, high, "falls when the line stays low, of channel");
    event(TOWANCHOR_OUTSIDE_LEVELS, TOWANCHOR_C, (unsigned char)TOWANCHOR_PIN(ways[channel].pin));
    counted(channel, high, "falls when the line is raised, of channel");
    event(TOWANCHOR_OUTSIDE_LEVELS, TOWANCHOR_C, 0);
    counted(channel, high + 1, "falls when the raised line is put low, of channel");
}

static void each_level(unsigned char edition)
{
    unsigned char channel;
    unsigned int value;

    for (value = 0; value < 256; value++) {
        as_put(edition, (unsigned char)value, (unsigned char)(value ^ 0x5A), (unsigned char)(value + 0x33));
        for (channel = TOWANCHOR_A_IN; channel <= TOWANCHOR_B_OUT; channel++)
            only_falls(edition, channel, (unsigned char)value);
    }
}

int main(void)
{
    unsigned char by_default[TOWANCHOR_IMAGE_SIZE], brought_over[TOWANCHOR_IMAGE_SIZE];

    check(towanchor_power_up(by_default, sizeof by_default) == TOWANCHOR_ACCEPTED, "power-up", 0);
    named(TOWANCHOR_8255A, 0, 0, 0);
    check(memcmp(image, by_default, sizeof image) == 0, "the default is every line low", 0);
    named(TOWANCHOR_8255A, 0xFF, 0xFF, 0xFF);
    check(towanchor_convert(saved_before, sizeof saved_before, brought_over, sizeof brought_over) == TOWANCHOR_ACCEPTED,
          "the machine that was saved before", 0);
    check(memcmp(image, brought_over, sizeof image) == 0, "every line high is the image of the machine that was saved before", 0);
    memcpy(image, brought_over, sizeof image);
    shows(TOWANCHOR_A, 0xFF);
    shows(TOWANCHOR_B, 0xFF);
    shows(TOWANCHOR_C, 0xFF);
    each_level(TOWANCHOR_8255A);
    each_level(TOWANCHOR_82C55A);
    return checked();
}
