/* The machine of host/: what the outside puts on the lines of port C stays while the card drives the pins, and a guest may do what the card
 * refuses, and goes on; with an 82C55A it reads control. Its journal leads to its card, also where many more events came than there is room
 * for, and says so where it does not any more. */
#include "../../host/machine.h"
#include "checks.h"

#include <string.h>

/* Mode words: every port an output, and every port an input. In mode 0 no line acts on the card. */
#define ALL_OUT 0x80
#define ALL_IN 0x9B

static struct machine machine;

static void write_byte(unsigned char address, unsigned char byte)
{
    bus_begin_write(&machine.bus, address, byte);
    bus_end_cycle(&machine.bus);
}

/* Lines that are idle at some levels, of which one is put while the card drives them all: when it lets them go they show it, and the other
 * seven are as they were. */
static void put_while_driven(unsigned char idle, unsigned char pin, int high)
{
    unsigned int due = high ? idle | TOWANCHOR_PIN(pin) : idle & ~TOWANCHOR_PIN(pin);

    bus_power_up(&machine.bus, TOWANCHOR_8255A, towanchor_pins);
    bus_put_levels(&machine.bus, TOWANCHOR_C, idle);
    bus_put_levels(&machine.bus, TOWANCHOR_A, (unsigned char)~idle);
    bus_put_levels(&machine.bus, TOWANCHOR_B, (unsigned char)~idle);
    write_byte(TOWANCHOR_CONTROL, ALL_OUT);
    bus_put_pin(&machine.bus, pin, high);
    check(bus_levels(&machine.bus, TOWANCHOR_C) == 0, "the card drives port C, whose lines are idle at", idle);
    write_byte(TOWANCHOR_CONTROL, ALL_IN);
    check(bus_levels(&machine.bus, TOWANCHOR_C) == due, "one pin put while port C was driven, the lines idle at", idle);
}

/* From power-up, whose levels the bus names itself. */
static void put_after_power_up(unsigned char pin)
{
    bus_power_up(&machine.bus, TOWANCHOR_8255A, towanchor_pins);
    bus_put_pin(&machine.bus, pin, 0);
    check(bus_levels(&machine.bus, TOWANCHOR_C) == (0xFF & ~TOWANCHOR_PIN(pin)), "one pin put low after power-up", pin);
}

/* The beginnings that the card refuses: none has a cycle, and none changes the card. */
static void refused(unsigned char address)
{
    unsigned char before[TOWANCHOR_IMAGE_SIZE], byte = 0x55;

    memcpy(before, machine.bus.image, sizeof before);
    check(!bus_begin_read(&machine.bus, address, &byte) && byte == BUS_FLOATING, "a read that the card refuses, at", address);
    if (address != TOWANCHOR_CONTROL)
        check(!bus_begin_write(&machine.bus, address, ALL_OUT), "a write that the card refuses, at", address);
    check(memcmp(before, machine.bus.image, sizeof before) == 0, "what the card refused changed it, at", address);
}

/* The processor's whole cycles there, and one after them that the card takes. */
static void goes_on(unsigned char address)
{
    check(machine_read(&machine, address) == BUS_FLOATING, "the machine reads what the card refuses, at", address);
    if (address != TOWANCHOR_CONTROL)
        machine_write(&machine, address, ALL_OUT);
    bus_put_levels(&machine.bus, TOWANCHOR_A, address);
    check(machine_read(&machine, TOWANCHOR_A) == address, "the machine reads port A after it read", address);
}

/* The guest of a card that carries the edition, at every address from the first that it cannot read on. */
static void guest(unsigned char edition, unsigned char first_refused)
{
    unsigned int address;

    machine_start(&machine, edition, towanchor_pins, SCALE_STEADY, "");
    for (address = first_refused; address < 256; address++) {
        refused((unsigned char)address);
        goes_on((unsigned char)address);
    }
}

/* The control word, read back by the processor. */
static void read_back(unsigned char word)
{
    write_byte(TOWANCHOR_CONTROL, word);
    check(machine_read(&machine, TOWANCHOR_CONTROL) == word, "the machine reads control after mode word", word);
}

/* The journal has missed nothing, and leads to the card, before it is trimmed and after. */
static void replays(const char *when)
{
    struct journal *journal = &machine.bus.journal;
    unsigned char image[TOWANCHOR_IMAGE_SIZE];
    unsigned long logged = journal->logged;

    check(journal->missed == 0, when, 0);
    journal_replay(journal, image);
    check(memcmp(image, machine.bus.image, sizeof image) == 0, when, 1);
    journal_trim(journal);
    check(journal->count < logged && journal->logged == logged, when, 2);
    journal_replay(journal, image);
    check(memcmp(image, machine.bus.image, sizeof image) == 0, when, 3);
}

/* Lines that stay as they are, many times as often as a journal has words, and a cycle of two events now and then. */
static void stays_short(void)
{
    unsigned int each, cycles = 0;

    bus_power_up(&machine.bus, TOWANCHOR_8255A, towanchor_pins);
    for (each = 0; each < 5 * TOWANCHOR_MOST_WORDS; each++) {
        bus_put_levels(&machine.bus, TOWANCHOR_A, 0xFF);
        if (each % 1000 == 0) {
            write_byte(TOWANCHOR_CONTROL, ALL_IN);
            cycles++;
        }
    }
    replays("the journal of idle lines");
    check(machine.bus.journal.count == 2 * cycles, "what is kept of idle lines", (unsigned int)machine.bus.journal.count);
}

/* Cycles that fill it: of what comes then nothing is logged, and the machine goes on. */
static void fills_up(void)
{
    const struct journal *journal = &machine.bus.journal;
    unsigned int each;

    bus_power_up(&machine.bus, TOWANCHOR_8255A, towanchor_pins);
    for (each = 0; each < TOWANCHOR_MOST_WORDS / 2; each++)
        write_byte(TOWANCHOR_CONTROL, ALL_IN);
    check(journal->missed == 0, "a journal that is just full has missed", (unsigned int)journal->missed);
    write_byte(TOWANCHOR_CONTROL, ALL_OUT);
    check(journal->missed == 2 && journal->count == TOWANCHOR_MOST_WORDS, "a full journal has missed", (unsigned int)journal->missed);
    check(bus_levels(&machine.bus, TOWANCHOR_C) == 0, "the card goes on when the journal is full", 0);
}

int main(void)
{
    unsigned int value;
    unsigned char pin;

    for (pin = 0; pin < 8; pin++) {
        put_after_power_up(pin);
        for (value = 0; value < 256; value++) {
            put_while_driven((unsigned char)value, pin, 0);
            put_while_driven((unsigned char)value, pin, 1);
        }
    }

    guest(TOWANCHOR_8255A, TOWANCHOR_CONTROL);
    replays("the journal of a guest of an 8255A");
    guest(TOWANCHOR_82C55A, TOWANCHOR_CONTROL + 1);
    for (value = 0x80; value < 256; value++)
        read_back((unsigned char)value);
    replays("the journal of a guest of an 82C55A");
    stays_short();
    fills_up();
    return checked();
}
