/* The scale: it sends the digits of a weight to port A, one at a time, and strobes each. */
#ifndef HOST_SCALE_H
#define HOST_SCALE_H

#include "bus.h"

/* A pin of port C that no handshake uses: high until the scale has sent its last digit. */
#define SCALE_SENDS 7

/* A steady scale puts its digit on the lines before it lowers STB. A hasty one lowers STB first, and the digit settles while it is low. */
enum scale_kind { SCALE_STEADY, SCALE_HASTY };

struct scale {
    enum scale_kind kind;
    const char *digits; /* those that it has not sent yet */
};

/* Gives the scale a moment: it sends the next digit, where there is one and IBF says that there is room. */
void scale_turn(struct scale *scale, struct bus *bus);

#endif
