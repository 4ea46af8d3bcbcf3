/* The two editions: which one each power-up makes, that there is no third, and long pseudo-random histories of two chips, one of each. Under
 * the same events they answer the same, and their images are the same but for the edition. A read of control, which the 8255A refuses,
 * changes none of that. */
#include "checks.h"
#include "drawn.h"
#include "guarded.h"
#include "judgement.h"
#include "layout.h"
#include "shown.h"
#include "towanchor.h"

#include <stdio.h>
#include <string.h>

#define SIZE TOWANCHOR_IMAGE_SIZE
#define EVENTS 200000ul /* of a history */

/* The two chips, and whether the 82C55A alone has a cycle, a read of control. */
static unsigned char older[SIZE], newer[SIZE];
static int reads_control;

/* How many events came to both, and how many by the number that they answered; how often control was read, and refused in a cycle. */
static unsigned long events, numbers[TOWANCHOR_NO_STATE + 1], control_read, control_busy;

/* The images are the same but for the edition, and for the bus while control is read; and all that they show is the same. */
static void alike(const char *when, unsigned int which)
{
    unsigned char expected[SIZE];
    struct shown by_older, by_newer;

    memcpy(expected, older, SIZE);
    expected[EDITION] = TOWANCHOR_82C55A;
    if (reads_control)
        expected[BUS] = READS + TOWANCHOR_CONTROL;
    check(older[EDITION] == TOWANCHOR_8255A && memcmp(newer, expected, SIZE) == 0, when, which);
    show(older, &by_older);
    show(newer, &by_newer);
    check(show_the_same(&by_older, &by_newer), "both editions show the same", which);
}

static void made(unsigned char a, unsigned char b, unsigned char c)
{
    unsigned char as_older[SIZE];

    check(towanchor_power_up_with_levels(older, SIZE, a, b, c) == TOWANCHOR_ACCEPTED, "power-up without an edition, levels of A", a);
    check(towanchor_power_up_as(as_older, SIZE, TOWANCHOR_8255A, a, b, c) == TOWANCHOR_ACCEPTED, "power-up as an 8255A, levels of A", a);
    check(memcmp(older, as_older, SIZE) == 0, "power-up without an edition makes an 8255A, levels of A", a);
    check(towanchor_power_up_as(newer, SIZE, TOWANCHOR_82C55A, a, b, c) == TOWANCHOR_ACCEPTED, "power-up as an 82C55A, levels of A", a);
    alike("both editions at power-up, levels of A", a);
}

/* An edition that there is not: whatever stands there stays. */
static void unknown(const unsigned char *bytes)
{
    static struct guarded guarded;
    unsigned int edition;

    for (edition = TOWANCHOR_82C55A + 1; edition < 256; edition++) {
        unsigned char *put = guarded_put(&guarded, bytes, SIZE);

        check(towanchor_power_up_as(put, SIZE, (unsigned char)edition, 1, 2, 3) == TOWANCHOR_NO_STATE, "power-up as edition", edition);
        check(guarded_untouched(&guarded), "something was written for edition", edition);
    }
}

static void at_power_up(void)
{
    unsigned char by_default[SIZE], scribbled[SIZE];
    unsigned int value;

    check(towanchor_power_up(by_default, SIZE) == TOWANCHOR_ACCEPTED, "power-up", 0);
    made(0, 0, 0);
    check(memcmp(by_default, older, SIZE) == 0, "power-up without levels makes an 8255A", 0);
    unknown(older);
    unknown(newer);
    for (value = 0; value < 256; value++)
        made((unsigned char)value, (unsigned char)(value ^ 0x5A), (unsigned char)(value + 0x33));
    for (value = 0; value < SIZE; value++)
        scribbled[value] = any_byte();
    unknown(scribbled);
}

/* An event that comes to both chips. */
static void to_both(unsigned char kind, unsigned char first, unsigned char second)
{
    unsigned int answer = towanchor_step(older, SIZE, kind, first, second);

    events++;
    numbers[TOWANCHOR_NUMBER(answer)]++;
    check(towanchor_step(newer, SIZE, kind, first, second) == answer, "both editions answer the same to kind", kind);
    alike("both editions after kind", kind);
}

/* A beginning of a read of control, which is refused. */
static void refused(unsigned char *image, unsigned int number)
{
    unsigned char before[SIZE];

    memcpy(before, image, SIZE);
    check(towanchor_step(image, SIZE, TOWANCHOR_BEGIN_READ, TOWANCHOR_CONTROL, 0) == number, "a read of control, with number", number);
    check(memcmp(image, before, SIZE) == 0, "a refused read of control wrote, with number", number);
}

/* Control is read: by the 82C55A, where no cycle runs. Meanwhile levels come to both, and then its end, or a reset. */
static void read_control(void)
{
    unsigned int levels = any(4);

    refused(older, TOWANCHOR_NOT_READABLE);
    if (cycle_runs(newer)) {
        refused(newer, TOWANCHOR_CYCLE_RUNS);
        control_busy++;
        return;
    }
    check(towanchor_step(newer, SIZE, TOWANCHOR_BEGIN_READ, TOWANCHOR_CONTROL, 0) == 256u * older[MODE_WORD],
          "a read of control answers the mode word", older[MODE_WORD]);
    control_read++;
    reads_control = 1;
    alike("both editions while control is read, under mode word", older[MODE_WORD]);
    while (levels-- > 0) {
        unsigned char port = (unsigned char)any(PORTS);

        to_both(TOWANCHOR_OUTSIDE_LEVELS, port, any_byte());
    }
    reads_control = 0;
    if (any(512) == 0)
        to_both(TOWANCHOR_RESET, 0, 0);
    else
        check(towanchor_step(newer, SIZE, TOWANCHOR_END_CYCLE, 0, 0) == TOWANCHOR_ACCEPTED, "the end of a read of control", 0);
    alike("both editions after control was read, under mode word", older[MODE_WORD]);
}

/* A word for control: bit set/reset, or now and then a mode word, which empties every channel. */
static unsigned char control_word(void)
{
    unsigned char word = any_byte();

    return any(8) == 0 ? word | 0x80 : word & 0x7F;
}

/* An event that is no read of control. What it is, is drawn in a fixed order: that of operands in a call would be the compiler's. */
static void happen(void)
{
    unsigned char what = (unsigned char)any(8), place = (unsigned char)any(5), byte = any_byte();

    switch (what) {
    case 0:
    case 1:
        to_both(TOWANCHOR_BEGIN_READ, place == TOWANCHOR_CONTROL ? TOWANCHOR_A : place, byte);
        break;
    case 2:
        to_both(TOWANCHOR_BEGIN_WRITE, place, place == TOWANCHOR_CONTROL ? control_word() : byte);
        break;
    case 3:
    case 4:
        to_both(TOWANCHOR_END_CYCLE, place, byte);
        break;
    case 5:
        to_both(any(512) == 0 ? TOWANCHOR_RESET : TOWANCHOR_OUTSIDE_LEVELS + 1, place, byte);
        break;
    default:
        to_both(TOWANCHOR_OUTSIDE_LEVELS, place, byte);
    }
}

/* From a power-up on, with reads of control among the events or without. */
static void history(int with_control)
{
    unsigned long event;

    made(0x5A, 0xA5, 0xC3);
    for (event = 0; event < EVENTS; event++) {
        if (with_control && any(4) == 0)
            read_control();
        happen();
    }
}

/* Each number but 3 was answered, every channel had bytes in each tally that it has, and control was read, and refused in a cycle. */
static void all_happened(void)
{
    struct shown at_the_end;
    unsigned int each, tally;

    for (each = TOWANCHOR_ACCEPTED; each <= TOWANCHOR_NO_CYCLE_RUNS; each++)
        check((numbers[each] > 0) == (each != TOWANCHOR_NOT_READABLE), "how often both answered number", each);
    show(older, &at_the_end);
    for (each = 0; each < CHANNELS; each++)
        for (tally = 0; tally < TALLIES; tally++)
            check((at_the_end.tallies[each][tally] > 0) == (tally != TOWANCHOR_SWALLOWED || each % 2 == 0), "a tally of channel", each);
    check(control_read > 0 && control_busy > 0, "control was read, and refused while a cycle runs", 0);
    printf("%lu events to both editions; control read %lu times, and refused in %lu cycles\n", events, control_read, control_busy);
}

int main(void)
{
    at_power_up();
    history(0);
    history(1);
    all_happened();
    return checked();
}
