/* Every number that a call can be refused with, in either edition, and which comes first where two would apply; a refusal writes nothing. */
#include "checks.h"
#include "towanchor.h"

#include <string.h>

#define SIZE TOWANCHOR_IMAGE_SIZE

static unsigned char image[SIZE];

static void event(unsigned char kind, unsigned char first, unsigned char second, unsigned int number, const char *what)
{
    unsigned char before[SIZE];
    unsigned int answer;

    memcpy(before, image, SIZE);
    answer = towanchor_step(image, SIZE, kind, first, second);
    if (number == TOWANCHOR_ACCEPTED) {
        check(TOWANCHOR_NUMBER(answer) == number, what, answer);
    } else {
        check(answer == number, what, answer);
        check(memcmp(before, image, SIZE) == 0, "a refused event wrote", number);
    }
}

/* The refusals that hold whether or not a cycle runs. */
static void always(unsigned char edition)
{
    unsigned int value;

    for (value = TOWANCHOR_OUTSIDE_LEVELS + 1; value < 256; value++)
        event((unsigned char)value, 9, 9, TOWANCHOR_NO_SUCH_KIND, "a kind above 5");
    for (value = 0; value < 65536; value++)
        event(4, (unsigned char)(value >> 8), (unsigned char)value, TOWANCHOR_NO_SUCH_KIND, "kind 4, with any operands");
    for (value = 4; value < 256; value++) {
        event(TOWANCHOR_BEGIN_READ, (unsigned char)value, 0, TOWANCHOR_OUT_OF_RANGE, "a read at an address above 3");
        event(TOWANCHOR_BEGIN_WRITE, (unsigned char)value, 0, TOWANCHOR_OUT_OF_RANGE, "a write at an address above 3");
    }
    for (value = 3; value < 256; value++)
        event(TOWANCHOR_OUTSIDE_LEVELS, (unsigned char)value, 0, TOWANCHOR_OUT_OF_RANGE, "levels on a port above 2");
    if (edition == TOWANCHOR_8255A)
        event(TOWANCHOR_BEGIN_READ, TOWANCHOR_CONTROL, 0, TOWANCHOR_NOT_READABLE, "a read of control");
}

/* The refusals while a cycle runs. */
static void meanwhile(unsigned char edition)
{
    unsigned char address, last_read = edition == TOWANCHOR_82C55A ? TOWANCHOR_CONTROL : TOWANCHOR_C;

    always(edition);
    for (address = TOWANCHOR_A; address <= last_read; address++)
        event(TOWANCHOR_BEGIN_READ, address, 0, TOWANCHOR_CYCLE_RUNS, "a read while a cycle runs");
    for (address = TOWANCHOR_A; address <= TOWANCHOR_CONTROL; address++)
        event(TOWANCHOR_BEGIN_WRITE, address, 0, TOWANCHOR_CYCLE_RUNS, "a write while a cycle runs");
}

/* A view, a tally or an INTR is shown where its operands are in range, and else refused by number 2 alone. */
static void shown(unsigned int answer, int in_range, const char *what, unsigned int value)
{
    if (in_range)
        check(TOWANCHOR_NUMBER(answer) == TOWANCHOR_ACCEPTED, what, value);
    else
        check(answer == TOWANCHOR_OUT_OF_RANGE, what, value);
}

static void views(void)
{
    unsigned char before[SIZE];
    unsigned int value;

    memcpy(before, image, SIZE);
    for (value = 0; value < 256; value++) {
        unsigned char operand = (unsigned char)value;

        shown(towanchor_pins(image, SIZE, operand), value <= TOWANCHOR_C, "the pins of a port", value);
        shown(towanchor_tally(image, SIZE, operand, TOWANCHOR_STRUCK), value <= TOWANCHOR_B_OUT, "a tally of a channel", value);
        shown(towanchor_tally(image, SIZE, TOWANCHOR_B_OUT, operand), value <= TOWANCHOR_STRUCK, "a channel's tally", value);
        shown(towanchor_explain(image, SIZE, operand), value <= TOWANCHOR_GROUP_B, "the INTR of a group", value);
    }
    check(memcmp(before, image, SIZE) == 0, "what is shown or refused wrote", 0);
}

/* The refusals in a cycle, and after its end. */
static void cycle(unsigned char edition, unsigned char kind, unsigned char address, unsigned char byte)
{
    event(kind, address, byte, TOWANCHOR_ACCEPTED, "the beginning of a cycle");
    meanwhile(edition);
    event(TOWANCHOR_END_CYCLE, 9, 9, TOWANCHOR_ACCEPTED, "the end of the cycle, operands ignored");
    event(TOWANCHOR_END_CYCLE, 9, 9, TOWANCHOR_NO_CYCLE_RUNS, "a second end of the cycle");
}

static void refused_by(unsigned char edition)
{
    check(towanchor_power_up_as(image, SIZE, edition, 0, 0, 0) == TOWANCHOR_ACCEPTED, "power-up as an edition", edition);
    always(edition);
    event(TOWANCHOR_END_CYCLE, 0, 0, TOWANCHOR_NO_CYCLE_RUNS, "an end before any beginning");
    views();

    cycle(edition, TOWANCHOR_BEGIN_READ, TOWANCHOR_A, 0);
    cycle(edition, TOWANCHOR_BEGIN_WRITE, TOWANCHOR_CONTROL, 0x80);
    if (edition == TOWANCHOR_82C55A)
        cycle(edition, TOWANCHOR_BEGIN_READ, TOWANCHOR_CONTROL, 0);

    image[SIZE - 1] = 1;
    event(TOWANCHOR_RESET, 0, 0, TOWANCHOR_NO_STATE, "the image of no state");
    event(9, 9, 9, TOWANCHOR_NO_STATE, "the image of no state comes first");
    image[SIZE - 1] = 0;
    event(TOWANCHOR_RESET, 9, 9, TOWANCHOR_ACCEPTED, "a reset, operands ignored");
}

/* What towanchor.h warns of: C cuts a number above 0xFF before a function sees it, so that the event is another one, and no refusal comes. */
static void cut(void)
{
    unsigned int address = 0x100 + TOWANCHOR_A, kind = 0x100 + TOWANCHOR_END_CYCLE;

    check(towanchor_power_up(image, SIZE) == TOWANCHOR_ACCEPTED, "power-up", 0);
    check(TOWANCHOR_NUMBER(towanchor_step(image, SIZE, TOWANCHOR_BEGIN_READ, address, 0)) == TOWANCHOR_ACCEPTED, "address 0x100 is cut", address);
    check(TOWANCHOR_NUMBER(towanchor_step(image, SIZE, kind, 0, 0)) == TOWANCHOR_ACCEPTED, "kind 0x102 is cut", kind);
}

int main(void)
{
    refused_by(TOWANCHOR_8255A);
    refused_by(TOWANCHOR_82C55A);
    cut();
    return checked();
}
