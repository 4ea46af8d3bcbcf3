/* The four ways, and what is done to the chip. */
#include "ways.h"

#include "checks.h"

unsigned char image[TOWANCHOR_IMAGE_SIZE];

const struct way ways[] = {
    {0xB0, TOWANCHOR_A, TOWANCHOR_STB_A},
    {0xA0, TOWANCHOR_A, TOWANCHOR_ACK_A},
    {0x86, TOWANCHOR_B, TOWANCHOR_STB_B},
    {0x84, TOWANCHOR_B, TOWANCHOR_ACK_B},
};

int is_input(unsigned char channel)
{
    return channel == TOWANCHOR_A_IN || channel == TOWANCHOR_B_IN;
}

void event(unsigned char kind, unsigned char first, unsigned char second)
{
    unsigned int number = TOWANCHOR_NUMBER(towanchor_step(image, sizeof image, kind, first, second));

    if (number != TOWANCHOR_ACCEPTED)
        check(0, "an event was refused", number);
}

void write_byte(unsigned char address, unsigned char byte)
{
    event(TOWANCHOR_BEGIN_WRITE, address, byte);
    event(TOWANCHOR_END_CYCLE, 0, 0);
}

unsigned int tally(unsigned char channel, unsigned char which)
{
    return TOWANCHOR_TALLY(towanchor_tally(image, sizeof image, channel, which));
}
