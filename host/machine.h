/* The machine: the bus with the scale and the printer at the card's pins. */
#ifndef HOST_MACHINE_H
#define HOST_MACHINE_H

#include "printer.h"
#include "scale.h"

struct machine {
    struct bus bus;
    struct scale scale;
    struct printer printer;
};

/* Switches the machine on, with a bale on the scale and no text on the paper. 'edition' is the part that its card carries. */
void machine_start(struct machine *machine, unsigned char edition, pin_view view, enum scale_kind kind, const char *digits);

/* Gives the outside a moment: the scale and the printer. */
void machine_outside(struct machine *machine);

/* A whole cycle of the processor, at any address; the outside has a moment before it ends. The processor goes on also where the card
 * refuses it: a read then gets BUS_FLOATING. */
unsigned char machine_read(struct machine *machine, unsigned char address);
void machine_write(struct machine *machine, unsigned char address, unsigned char byte);

#endif
