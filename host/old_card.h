/* Last season's card, which lost digits of a bale. */
#ifndef HOST_OLD_CARD_H
#define HOST_OLD_CARD_H

#include <stddef.h>

/* Its pins: a view for the bus. */
unsigned int old_card_pins(const unsigned char *image, size_t length, unsigned char port);

#endif
