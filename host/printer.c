/* The printer takes what is on the pins of port B while it holds ACK low. Beyond the paper's edge it prints nothing. */
#include "printer.h"

void printer_turn(struct printer *printer, struct bus *bus)
{
    if (!bus_pin(bus, TOWANCHOR_OBF_B)) {
        bus_put_pin(bus, TOWANCHOR_ACK_B, 0);
        if (printer->length < PRINTER_WIDTH) {
            printer->text[printer->length++] = (char)bus_levels(bus, TOWANCHOR_B);
            printer->text[printer->length] = '\0';
        }
        bus_put_pin(bus, TOWANCHOR_ACK_B, 1);
    }
}
