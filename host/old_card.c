/* Last season's card is this card with its one fault put back: IBF falls when a read begins, as it should when the read ends. */
#include "old_card.h"

#include "towanchor.h"

#include <string.h>

/* Where an image says what runs on the bus; while a read does, its port stands there: docs/IMAGE.md. */
#define BUS 70

unsigned int old_card_pins(const unsigned char *image, size_t length, unsigned char port)
{
    unsigned int ibf = port == TOWANCHOR_C ? TOWANCHOR_PIN(TOWANCHOR_IBF_A) << 8 : 0;
    unsigned char ended[TOWANCHOR_IMAGE_SIZE];

    /* The fault: while a read runs, IBF is shown as a copy of the card has it after the end. The end of a write is no part of it: a mode
     * word would show before its time. */
    memcpy(ended, image, sizeof ended);
    if (ended[BUS] <= TOWANCHOR_C)
        towanchor_step(ended, sizeof ended, TOWANCHOR_END_CYCLE, 0, 0);
    return (towanchor_pins(image, length, port) & ~ibf) | (towanchor_pins(ended, sizeof ended, port) & ibf);
}
