/* The pins of every port, every tally, and the INTR of both groups. */
#include "shown.h"

#include "towanchor.h"

#include <string.h>

#define SIZE TOWANCHOR_IMAGE_SIZE

void show(const unsigned char *image, struct shown *shown)
{
    unsigned char each, tally;

    for (each = 0; each < PORTS; each++)
        shown->pins[each] = towanchor_pins(image, SIZE, each);
    for (each = 0; each < GROUPS; each++)
        shown->explained[each] = towanchor_explain(image, SIZE, each);
    for (each = 0; each < CHANNELS; each++)
        for (tally = 0; tally < TALLIES; tally++)
            shown->tallies[each][tally] = towanchor_tally(image, SIZE, each, tally);
}

int show_the_same(const struct shown *one, const struct shown *other)
{
    return memcmp(one, other, sizeof *one) == 0;
}
