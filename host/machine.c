/* The machine: nothing stands still while the processor reads or writes. */
#include "machine.h"

void machine_start(struct machine *machine, unsigned char edition, pin_view view, enum scale_kind kind, const char *digits)
{
    bus_power_up(&machine->bus, edition, view);
    machine->scale.kind = kind;
    machine->scale.digits = digits;
    machine->printer.text[0] = '\0';
    machine->printer.length = 0;
}

void machine_outside(struct machine *machine)
{
    scale_turn(&machine->scale, &machine->bus);
    printer_turn(&machine->printer, &machine->bus);
}

unsigned char machine_read(struct machine *machine, unsigned char address)
{
    unsigned char byte;
    int runs = bus_begin_read(&machine->bus, address, &byte);

    machine_outside(machine);
    if (runs)
        bus_end_cycle(&machine->bus);
    return byte;
}

void machine_write(struct machine *machine, unsigned char address, unsigned char byte)
{
    int runs = bus_begin_write(&machine->bus, address, byte);

    machine_outside(machine);
    if (runs)
        bus_end_cycle(&machine->bus);
}
