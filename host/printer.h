/* The printer: it takes characters from port B, acknowledges each, and keeps them as the text of the ticket. */
#ifndef HOST_PRINTER_H
#define HOST_PRINTER_H

#include "bus.h"

#define PRINTER_WIDTH 40

struct printer {
    char text[PRINTER_WIDTH + 1];
    size_t length;
};

/* Gives the printer a moment: it takes a character, where OBF says that one waits. */
void printer_turn(struct printer *printer, struct bus *bus);

#endif
