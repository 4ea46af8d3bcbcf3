/* The bus of the store's computer: one card on it, and the ways to reach the card from the processor and from outside. */
#ifndef HOST_BUS_H
#define HOST_BUS_H

#include "journal.h"

/* How a card shows the pins of a port: towanchor_pins, or the view of a card that differs. */
typedef unsigned int (*pin_view)(const unsigned char *image, size_t length, unsigned char port);

struct bus {
    unsigned char image[TOWANCHOR_IMAGE_SIZE]; /* the whole card */
    unsigned char outside_c;                   /* the levels that the outside puts on port C: its own, not the card's */
    pin_view view;
    struct journal journal;                    /* what the card was told since its power-up */
};

/* What a read gets that the card refuses: nothing drives the data lines then, and on this backplane idle lines are high. */
#define BUS_FLOATING 0xFF

/* Powers the card up, with every line high. 'edition' is the part that it carries. */
void bus_power_up(struct bus *bus, unsigned char edition, pin_view view);

/* The processor's side. A cycle takes time: between its beginning and its end the outside goes on. A beginning answers whether the cycle
 * runs. Where the card refuses what the guest began, none does, and none is ended: a read has BUS_FLOATING, and a written byte is lost. */
int bus_begin_read(struct bus *bus, unsigned char address, unsigned char *byte);
int bus_begin_write(struct bus *bus, unsigned char address, unsigned char byte);
void bus_end_cycle(struct bus *bus);

/* The outside: puts levels on the pins of a port, or a level on one pin of port C, whose other lines keep theirs. */
void bus_put_levels(struct bus *bus, unsigned char port, unsigned char levels);
void bus_put_pin(struct bus *bus, unsigned char pin, int high);

/* What both sides see: the levels of a port's pins, and whether one pin of port C is high. */
unsigned char bus_levels(const struct bus *bus, unsigned char port);
int bus_pin(const struct bus *bus, unsigned char pin);

#endif
