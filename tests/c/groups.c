/* The two groups, kept apart: to every image of the family whose bus is idle comes what is done on one group, and of the other all that
 * belongs to it is compared, in the middle of a cycle and after. So that nothing passes because nothing happens, each event must be accepted,
 * and what is done on a group must change that group somewhere; and so must what counts as no group's doing. */
#include "family.h"
#include "layout.h"
#include "towanchor.h"
#include "ways.h"

#include <stdio.h>
#include <stdlib.h>
#include <string.h>

#define SIZE TOWANCHOR_IMAGE_SIZE
#define MOST_PRINTED 10

#define GROUPS 2
#define CHANNELS_OF_A_GROUP 2

/* In each image of the family with an idle bus group A is compared 27 times, and group B 32 times: after two bytes of levels on the other port;
 * after levels on port C that differ at each pin on which the other group acts, at all of them and at none; and twice in each cycle, which are
 * a read and a write of the other port, bit reset and bit set of each of those pins, a read of port C, and one of control, in an 82C55A. */
#define COMPARED (FAMILY / PHASES * (27 + 32))

/* What is done: on a group, a read of port C and one of control, and what is no group's. */
enum doing { PORT_LEVELS, LINE_LEVELS, READ, WRITE, BIT, STATUS_READ, CONTROL_READ, MODE_WORD_WRITE, RESET, PORT_C_WRITE, BIT_3, LINE_3, DOINGS };

/* Its name, and whether it must change group A and group B somewhere: pin 3 is a pin of group A. */
static const struct {
    const char *name;
    int changes[GROUPS];
} doings[DOINGS] = {{"levels on the port", {1, 1}},
                    {"levels on port C", {1, 1}},
                    {"a read", {1, 1}},
                    {"a write", {1, 1}},
                    {"bit set/reset", {1, 1}},
                    {"a read of port C", {0, 0}},
                    {"a read of control", {0, 0}},
                    {"a mode word", {1, 1}},
                    {"a reset", {1, 1}},
                    {"a write to port C", {1, 1}},
                    {"bit set/reset of pin 3", {1, 0}},
                    {"levels on pin 3", {1, 0}}};

/* All that belongs to a group. While a cycle runs no read can begin, and what the last one gave stands there. */
struct belongings {
    unsigned char tallies[CHANNELS_OF_A_GROUP * TALLY_BYTES], latches[CHANNELS_OF_A_GROUP], conditions[CHANNELS_OF_A_GROUP];
    unsigned char enables, levels, latch_of_c, levels_of_c;
    unsigned char shown, driven, answered, shown_of_c, driven_of_c, told_of_c;
    unsigned int explained;
};

/* By the number of a group: the pins of port C that belong to it, those on which it acts, and its enables. */
static const unsigned char its_pins[GROUPS] = {0xF8, 0x07};
static const unsigned char acts_on[GROUPS] = {0xF0, 0x07};
static const unsigned char its_enables[GROUPS] = {INTE_IN_A | INTE_OUT_A, INTE_B};

/* What belonged to each group before anything was done. */
static struct belongings was[GROUPS];

static unsigned long compared, wrong;

/* How often what was done on a group, or on none, changed that group. */
static unsigned long changed[DOINGS][GROUPS];

static void tell(const char *what, enum doing by)
{
    if (wrong++ < MOST_PRINTED)
        printf("wrong: %s, %s, under mode word %02X\n", what, doings[by].name, image[MODE_WORD]);
}

/* The byte that a read gives, of a copy: the image stays as it is. */
static unsigned char read_of(unsigned char port, unsigned char last)
{
    unsigned char copy[SIZE];

    if (image[BUS] != IDLE)
        return last;
    memcpy(copy, image, SIZE);
    return (unsigned char)TOWANCHOR_BYTE(towanchor_step(copy, SIZE, TOWANCHOR_BEGIN_READ, port, 0));
}

static void look(int group, struct belongings *its)
{
    unsigned int port = towanchor_pins(image, SIZE, (unsigned char)group);
    unsigned int lines = towanchor_pins(image, SIZE, TOWANCHOR_C);

    memcpy(its->tallies, image + CHANNELS_OF_A_GROUP * TALLY_BYTES * group, sizeof its->tallies);
    memcpy(its->latches, image + LATCH_A_IN + CHANNELS_OF_A_GROUP * group, sizeof its->latches);
    memcpy(its->conditions, image + CONDITION_A_IN + CHANNELS_OF_A_GROUP * group, sizeof its->conditions);
    its->enables = image[ENABLES] & its_enables[group];
    its->levels = image[LEVELS_A + group];
    its->latch_of_c = image[LATCH_C] & its_pins[group];
    its->levels_of_c = image[LEVELS_C] & its_pins[group];
    its->shown = (unsigned char)TOWANCHOR_LEVELS(port);
    its->driven = (unsigned char)TOWANCHOR_DRIVEN(port);
    its->answered = read_of((unsigned char)group, its->answered);
    its->shown_of_c = (unsigned char)TOWANCHOR_LEVELS(lines) & its_pins[group];
    its->driven_of_c = (unsigned char)TOWANCHOR_DRIVEN(lines) & its_pins[group];
    its->told_of_c = read_of(TOWANCHOR_C, its->told_of_c) & its_pins[group];
    its->explained = towanchor_explain(image, SIZE, (unsigned char)group);
}

/* Whether the group is another than it was. It is copied before it is looked at, so that the bytes between the fields are the same. */
static int is_other(int group)
{
    struct belongings is;

    memcpy(&is, &was[group], sizeof is);
    look(group, &is);
    return memcmp(&is, &was[group], sizeof is) != 0;
}

/* Judges what was done on a group: the other one is as it was. */
static void judge(enum doing by, int group)
{
    compared++;
    if (is_other(1 - group))
        tell(group == 0 ? "group B is another, on group A" : "group A is another, on group B", by);
    changed[by][group] += (unsigned long)is_other(group);
}

static void happens(enum doing by, unsigned char kind, unsigned int first, unsigned int second)
{
    if (TOWANCHOR_NUMBER(towanchor_step(image, SIZE, kind, (unsigned char)first, (unsigned char)second)) != TOWANCHOR_ACCEPTED)
        tell("an event was refused", by);
}

/* Levels, and a whole cycle; the image is then what it was. */
static void levels_come(enum doing by, int group, unsigned int port, unsigned int levels)
{
    unsigned char before[SIZE];

    memcpy(before, image, SIZE);
    happens(by, TOWANCHOR_OUTSIDE_LEVELS, port, levels);
    judge(by, group);
    memcpy(image, before, SIZE);
}

static void cycle_goes(enum doing by, int group, unsigned char kind, unsigned int address, unsigned int byte)
{
    unsigned char before[SIZE];

    memcpy(before, image, SIZE);
    happens(by, kind, address, byte);
    judge(by, group);
    happens(by, TOWANCHOR_END_CYCLE, 0, 0);
    judge(by, group);
    memcpy(image, before, SIZE);
}

/* A word for control that sets or resets a pin; its bits 6 to 4 may be any. */
static unsigned int bit_word(int pin, int set)
{
    return (image[4] & 0x70u) | (unsigned int)(2 * pin + set);
}

/* A read of control, of the same chip as an 82C55A, which alone gives one. */
static void control_is_read(int group)
{
    unsigned char edition = image[EDITION];

    image[EDITION] = TOWANCHOR_82C55A;
    cycle_goes(CONTROL_READ, group, TOWANCHOR_BEGIN_READ, TOWANCHOR_CONTROL, 0);
    image[EDITION] = edition;
}

/* All that is done on a group. */
static void do_on(int group)
{
    unsigned int port = (unsigned int)group, lines = image[LEVELS_C];
    int pin;

    levels_come(PORT_LEVELS, group, port, image[0]);
    levels_come(PORT_LEVELS, group, port, ~(unsigned int)image[LEVELS_A + group]);
    levels_come(LINE_LEVELS, group, TOWANCHOR_C, lines);
    levels_come(LINE_LEVELS, group, TOWANCHOR_C, lines ^ acts_on[group]);
    cycle_goes(READ, group, TOWANCHOR_BEGIN_READ, port, 0);
    cycle_goes(WRITE, group, TOWANCHOR_BEGIN_WRITE, port, image[1]);
    cycle_goes(STATUS_READ, group, TOWANCHOR_BEGIN_READ, TOWANCHOR_C, 0);
    control_is_read(group);
    for (pin = 0; pin < 8; pin++)
        if (acts_on[group] & TOWANCHOR_PIN(pin)) {
            levels_come(LINE_LEVELS, group, TOWANCHOR_C, lines ^ TOWANCHOR_PIN(pin));
            cycle_goes(BIT, group, TOWANCHOR_BEGIN_WRITE, TOWANCHOR_CONTROL, bit_word(pin, 0));
            cycle_goes(BIT, group, TOWANCHOR_BEGIN_WRITE, TOWANCHOR_CONTROL, bit_word(pin, 1));
        }
}

/* What is no group's doing, to its end: counts where it changes a group. */
static void count_changes(enum doing by, unsigned char kind, unsigned int first, unsigned int second)
{
    unsigned char before[SIZE];
    int group;

    memcpy(before, image, SIZE);
    happens(by, kind, first, second);
    if (image[BUS] != IDLE)
        happens(by, TOWANCHOR_END_CYCLE, 0, 0);
    for (group = 0; group < GROUPS; group++)
        changed[by][group] += (unsigned long)is_other(group);
    memcpy(image, before, SIZE);
}

static void on_each_image(void)
{
    int group;

    if (image[BUS] != IDLE)
        return;
    memset(was, 0, sizeof was);
    for (group = 0; group < GROUPS; group++)
        look(group, &was[group]);
    for (group = 0; group < GROUPS; group++)
        do_on(group);
    count_changes(MODE_WORD_WRITE, TOWANCHOR_BEGIN_WRITE, TOWANCHOR_CONTROL, image[MODE_WORD]);
    count_changes(RESET, TOWANCHOR_RESET, 0, 0);
    count_changes(PORT_C_WRITE, TOWANCHOR_BEGIN_WRITE, TOWANCHOR_C, image[2]);
    count_changes(BIT_3, TOWANCHOR_BEGIN_WRITE, TOWANCHOR_CONTROL, bit_word(3, image[3] & 1));
    count_changes(LINE_3, TOWANCHOR_OUTSIDE_LEVELS, TOWANCHOR_C, image[LEVELS_C] ^ TOWANCHOR_PIN(3));
}

/* Whether all was compared, and each group changed by what must change it, and by nothing else. */
static int all_done(void)
{
    int by, group, complete = compared == COMPARED;

    for (by = 0; by < DOINGS; by++)
        for (group = 0; group < GROUPS; group++)
            if ((changed[by][group] > 0) != doings[by].changes[group]) {
                printf("group %c was changed %lu times by %s\n", "AB"[group], changed[by][group], doings[by].name);
                complete = 0;
            }
    return complete;
}

int main(void)
{
    int complete;

    each_image(on_each_image);
    complete = all_done();
    printf("%lu times what belongs to a group was compared, %lu wrong\n", compared, wrong);
    return complete && wrong == 0 ? EXIT_SUCCESS : EXIT_FAILURE;
}
