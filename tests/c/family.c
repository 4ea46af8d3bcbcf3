/* The images of the family, one after the other. */
#include "family.h"

#include "judgement.h"
#include "layout.h"
#include "towanchor.h"
#include "ways.h"

#include <stddef.h>

#define CHANNELS 4

static void each_phase(void (*judge)(void))
{
    static const unsigned char phases[PHASES] = {IDLE,
                                                 READS + TOWANCHOR_A,
                                                 READS + TOWANCHOR_B,
                                                 READS + TOWANCHOR_C,
                                                 READS + TOWANCHOR_CONTROL,
                                                 WRITES + TOWANCHOR_A,
                                                 WRITES + TOWANCHOR_B,
                                                 WRITES + TOWANCHOR_C,
                                                 WRITES + TOWANCHOR_CONTROL};
    size_t each;

    for (each = 0; each < PHASES; each++) {
        image[BUS] = phases[each];
        image[BUS_BYTE] = image[BUS] >= WRITES && image[BUS] < IDLE ? image[0] : 0;
        image[EDITION] = image[BUS] == READS + TOWANCHOR_CONTROL ? TOWANCHOR_82C55A : image[1] % 2;
        judge();
    }
}

/* Puts anything into tallies, levels and latches: bytes of a shift register with a fixed beginning. */
static void scribble(void)
{
    static unsigned int state = 0x8255A;
    int byte;

    for (byte = 0; byte < CONDITION_A_IN; byte++) {
        state ^= state << 13;
        state ^= state >> 17;
        state ^= state << 5;
        image[byte] = (unsigned char)state;
    }
}

unsigned int on_pins(unsigned int combination)
{
    return (combination & 1) << 2 | (combination & 2) << 3 | (combination & 4) << 4;
}

static void each_enable_and_level(void (*judge)(void))
{
    unsigned int enables, levels;

    for (enables = 0; enables < 8; enables++) {
        for (levels = 0; levels < 8; levels++) {
            scribble();
            image[LEVELS_C] = (unsigned char)((image[LEVELS_C] & ~on_pins(7)) | on_pins(levels));
            image[ENABLES] = (unsigned char)on_pins(enables);
            each_phase(judge);
        }
    }
}

/* Of all combinations of conditions those that make the image one of a state. */
static void each_condition(void (*judge)(void))
{
    unsigned int combination, rest, channel;

    for (combination = 0; combination < 3 * 3 * 3 * 3; combination++) {
        rest = combination;
        for (channel = 0; channel < CHANNELS; channel++) {
            image[CONDITION_A_IN + channel] = (unsigned char)(rest % 3);
            rest /= 3;
        }
        if (is_image(image))
            each_enable_and_level(judge);
    }
}

void each_image(void (*judge)(void))
{
    unsigned int word;

    for (word = 0x80; word <= 0xFF; word++) {
        image[MODE_WORD] = (unsigned char)word;
        each_condition(judge);
    }
}
