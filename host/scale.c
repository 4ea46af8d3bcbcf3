/* The scale minds IBF, as the sheet tells it to: it can lose a digit only where IBF is not true. */
#include "scale.h"

/* What stands on the lines for a moment before a digit has settled. */
#define UNSETTLED(digit) ((unsigned char)((digit) ^ 0x05))

static void send(enum scale_kind kind, struct bus *bus, unsigned char digit)
{
    if (kind == SCALE_STEADY)
        bus_put_levels(bus, TOWANCHOR_A, digit);
    bus_put_pin(bus, TOWANCHOR_STB_A, 0);
    if (kind == SCALE_HASTY) {
        bus_put_levels(bus, TOWANCHOR_A, UNSETTLED(digit));
        bus_put_levels(bus, TOWANCHOR_A, digit);
    }
    bus_put_pin(bus, TOWANCHOR_STB_A, 1);
}

void scale_turn(struct scale *scale, struct bus *bus)
{
    if (*scale->digits == '\0') {
        bus_put_pin(bus, SCALE_SENDS, 0);
    } else if (!bus_pin(bus, TOWANCHOR_IBF_A)) {
        send(scale->kind, bus, (unsigned char)*scale->digits++);
    }
}
