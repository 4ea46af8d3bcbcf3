/* The bus: every cycle and every change of a level is an event of the model, and is logged. */
#include "bus.h"

#include <stdio.h>
#include <stdlib.h>

/* For calls that no guest can get refused. Where one is refused, this emulator is at fault: it stops where it would go on with a wrong
 * machine. */
static unsigned int accepted(unsigned int answer)
{
    if (TOWANCHOR_NUMBER(answer) != TOWANCHOR_ACCEPTED) {
        fprintf(stderr, "store: the card refused with number %u\n", TOWANCHOR_NUMBER(answer));
        exit(EXIT_FAILURE);
    }
    return answer;
}

/* Whether a cycle runs that the guest began. The card may have refused it: it has no such address, or it carries an 8255A, whose control is
 * not read.
 * That is the guest's own affair, and the machine goes on. Any other refusal is this emulator's fault. */
static int runs(unsigned int answer)
{
    unsigned int number = TOWANCHOR_NUMBER(answer);

    if (number == TOWANCHOR_OUT_OF_RANGE || number == TOWANCHOR_NOT_READABLE)
        return 0;
    accepted(answer);
    return 1;
}

static unsigned int event(struct bus *bus, unsigned char kind, unsigned char first, unsigned char second)
{
    journal_log(&bus->journal, kind, first, second);
    return towanchor_step(bus->image, sizeof bus->image, kind, first, second);
}

static unsigned int view(const struct bus *bus, unsigned char port)
{
    return accepted(bus->view(bus->image, sizeof bus->image, port));
}

void bus_power_up(struct bus *bus, unsigned char edition, pin_view its_view)
{
    /* On the store's old backplane idle lines are high, and scale and printer count on that: their STB and ACK are high before the
     * first byte, and so is the line by which the scale says that it still sends. The card's default is low, so the levels are named. */
    const unsigned char high = 0xFF;

    bus->view = its_view;
    bus->outside_c = high;
    accepted(towanchor_power_up_as(bus->image, sizeof bus->image, edition, high, high, high));
    journal_begin(&bus->journal, edition, high, high, high);
}

int bus_begin_read(struct bus *bus, unsigned char address, unsigned char *byte)
{
    unsigned int answer = event(bus, TOWANCHOR_BEGIN_READ, address, 0);
    int it_runs = runs(answer);

    *byte = it_runs ? (unsigned char)TOWANCHOR_BYTE(answer) : BUS_FLOATING;
    return it_runs;
}

int bus_begin_write(struct bus *bus, unsigned char address, unsigned char byte)
{
    return runs(event(bus, TOWANCHOR_BEGIN_WRITE, address, byte));
}

void bus_end_cycle(struct bus *bus)
{
    accepted(event(bus, TOWANCHOR_END_CYCLE, 0, 0));
}

void bus_put_levels(struct bus *bus, unsigned char port, unsigned char levels)
{
    accepted(event(bus, TOWANCHOR_OUTSIDE_LEVELS, port, levels));
    if (port == TOWANCHOR_C)
        bus->outside_c = levels;
}

void bus_put_pin(struct bus *bus, unsigned char pin, int high)
{
    /* The card is told all eight levels. Its pins cannot be asked for the other seven: those that it drives show its own level, and the
     * outside's counts again when they become inputs. */
    unsigned int levels = bus->outside_c;

    levels = high ? levels | TOWANCHOR_PIN(pin) : levels & ~TOWANCHOR_PIN(pin);
    bus_put_levels(bus, TOWANCHOR_C, (unsigned char)levels);
}

unsigned char bus_levels(const struct bus *bus, unsigned char port)
{
    return (unsigned char)TOWANCHOR_LEVELS(view(bus, port));
}

int bus_pin(const struct bus *bus, unsigned char pin)
{
    return (bus_levels(bus, TOWANCHOR_C) & TOWANCHOR_PIN(pin)) != 0;
}
