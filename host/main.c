/* One bale is weighed five times: on this card, on this card with its image saved and restored at every turn, on this card by a scale that
 * strobes too early, on last season's card, and on a new one, which carries an 82C55A. Printer and program are the same. Then the journal of
 * the first machine is trimmed, and replayed on another card. */
#include "old_card.h"
#include "program.h"

#include <stdio.h>
#include <string.h>

#define WEIGHT "187"

/* A machine whose printer does not come to an end is stopped; what it has printed is its ticket. */
#define MOST_TURNS 1000

/* How often a machine was restored, and how often the card was refused while it was scribbled over. */
struct restorations {
    unsigned int made;
    unsigned int refused;
};

/* Saves the card, scribbles over it, and restores it: its image is all that there is to save. */
static void save_and_restore(struct bus *bus, struct restorations *restorations)
{
    unsigned char saved[TOWANCHOR_IMAGE_SIZE];

    memcpy(saved, bus->image, sizeof saved);
    memset(bus->image, 0xA5, sizeof bus->image);
    if (TOWANCHOR_NUMBER(towanchor_pins(bus->image, sizeof bus->image, TOWANCHOR_A)) == TOWANCHOR_NO_STATE)
        restorations->refused++;
    memcpy(bus->image, saved, sizeof saved);
    restorations->made++;
}

/* Weighs the bale and prints its ticket; on the way the card is saved and restored, unless 'restorations' is NULL. */
static void weigh(struct machine *machine, unsigned char edition, pin_view view, enum scale_kind kind, struct restorations *restorations)
{
    struct program program;
    int turn;

    machine_start(machine, edition, view, kind, WEIGHT);
    program_start(&program, machine);
    for (turn = 0; turn < MOST_TURNS && !program_done(&program, machine); turn++) {
        if (restorations != NULL)
            save_and_restore(&machine->bus, restorations);
        machine_outside(machine);
        program_turn(&program, machine);
    }
}

static unsigned int tally(const struct machine *machine, unsigned char which)
{
    return TOWANCHOR_TALLY(towanchor_tally(machine->bus.image, sizeof machine->bus.image, TOWANCHOR_A_IN, which));
}

static void report(const char *name, const struct machine *machine)
{
    printf("%s: %s\n", name, machine->printer.text);
    printf("    digits offered by the scale: %u, handed over: %u, swallowed: %u\n", tally(machine, TOWANCHOR_OFFERED),
           tally(machine, TOWANCHOR_HANDED_OVER), tally(machine, TOWANCHOR_SWALLOWED));
}

static const char *compared(const struct machine *machine, const struct machine *other)
{
    return strcmp(machine->printer.text, other->printer.text) == 0 ? "equal" : "different";
}

/* Trims a machine's journal, and lets what is kept of it happen to another card. */
static void replay(struct machine *machine)
{
    struct journal *journal = &machine->bus.journal;
    unsigned char image[TOWANCHOR_IMAGE_SIZE];

    journal_trim(journal);
    printf("the first card's journal: %lu events logged, %lu kept\n", journal->logged, (unsigned long)journal->count);
    journal_replay(journal, image);
    printf("    the image of a card on which these are replayed, and the first card's: %s\n",
           memcmp(image, machine->bus.image, sizeof image) == 0 ? "equal" : "different");
    journal_trim(journal);
    printf("    kept when it is trimmed again: %lu\n", (unsigned long)journal->count);
}

int main(void)
{
    static struct machine plain, restored, hasty, old, renewed;
    struct restorations restorations = {0, 0};

    weigh(&plain, TOWANCHOR_8255A, towanchor_pins, SCALE_STEADY, NULL);
    weigh(&restored, TOWANCHOR_8255A, towanchor_pins, SCALE_STEADY, &restorations);
    weigh(&hasty, TOWANCHOR_8255A, towanchor_pins, SCALE_HASTY, NULL);
    weigh(&old, TOWANCHOR_8255A, old_card_pins, SCALE_STEADY, NULL);
    weigh(&renewed, TOWANCHOR_82C55A, towanchor_pins, SCALE_STEADY, NULL);

    printf("the scale sends: %s\n", WEIGHT);
    report("this card", &plain);
    report("this card, saved and restored", &restored);
    printf("    restored %u times; refused while scribbled over: %u times\n", restorations.made, restorations.refused);
    printf("    its ticket and the first: %s\n", compared(&plain, &restored));
    report("this card, a scale that lowers STB before its digit has settled", &hasty);
    printf("    its ticket and the first: %s\n", compared(&plain, &hasty));
    report("last season's card", &old);
    printf("    its ticket and the first: %s\n", compared(&plain, &old));
    report("a new card, which carries an 82C55A", &renewed);
    printf("    its ticket and the first: %s\n", compared(&plain, &renewed));
    printf("    control is read back as %02X, and as %02X on the first card, which refuses that\n",
           machine_read(&renewed, TOWANCHOR_CONTROL), machine_read(&plain, TOWANCHOR_CONTROL));
    replay(&plain);
    return 0;
}
