/* replay 8255a|82c55a stay|move ANSWERS TALLIES SCRIPT..: answers scripts by the C functions, as one edition or the other, each from a
 * power-up with every line high, as the program does. The answers go to one file, a line for each line as the program writes it, and the
 * tallies at the end of each script to another, a line for each channel. With 'move' the image is saved after every line, its place scribbled
 * over, and the image restored at another address; and a chip of the other edition takes events between, so that nothing may be kept from
 * one call to the next. */
#include "script.h"
#include "towanchor.h"

#include <stdio.h>
#include <stdlib.h>
#include <string.h>

#define ROOM 512
#define STRIDE 101 /* odd, so that the image comes to lie at every alignment, and longer than the image */

struct place {
    unsigned char room[ROOM];
    size_t offset;
};

static unsigned char *image(struct place *place)
{
    return place->room + place->offset;
}

static void move(struct place *place)
{
    unsigned char saved[TOWANCHOR_IMAGE_SIZE];

    memcpy(saved, image(place), sizeof saved);
    memset(place->room, 0xA5, sizeof place->room);
    place->offset = (place->offset + STRIDE) % (ROOM - TOWANCHOR_IMAGE_SIZE);
    memcpy(image(place), saved, sizeof saved);
}

/* Lets the event of a line happen to another chip, with other bytes. */
static void disturb(unsigned char *other, const struct line *line)
{
    if (line->is_frame)
        towanchor_step(other, TOWANCHOR_IMAGE_SIZE, line->kind, line->first, (unsigned char)(line->second ^ 0x5B));
}

static unsigned int levels(struct place *place, unsigned char port)
{
    return TOWANCHOR_LEVELS(towanchor_pins(image(place), TOWANCHOR_IMAGE_SIZE, port));
}

static void answer(struct place *place, const struct line *line, FILE *answers)
{
    unsigned int answered = TOWANCHOR_NO_SUCH_KIND;

    if (line->is_frame)
        answered = towanchor_step(image(place), TOWANCHOR_IMAGE_SIZE, line->kind, line->first, line->second);
    fprintf(answers, "%02X%02X%02X%02X%02X\n", TOWANCHOR_NUMBER(answered), TOWANCHOR_BYTE(answered), levels(place, TOWANCHOR_A),
            levels(place, TOWANCHOR_B), levels(place, TOWANCHOR_C));
}

static void write_tallies(struct place *place, FILE *tallies)
{
    unsigned char channel, tally;

    for (channel = TOWANCHOR_A_IN; channel <= TOWANCHOR_B_OUT; channel++) {
        fprintf(tallies, "%u", channel);
        for (tally = TOWANCHOR_OFFERED; tally <= TOWANCHOR_STRUCK; tally++)
            fprintf(tallies, " %u", TOWANCHOR_TALLY(towanchor_tally(image(place), TOWANCHOR_IMAGE_SIZE, channel, tally)));
        fprintf(tallies, "\n");
    }
}

static void replay(const char *file, unsigned char edition, int moves, FILE *answers, FILE *tallies)
{
    static struct script script;
    struct place place;
    unsigned char other[TOWANCHOR_IMAGE_SIZE];
    struct line line;

    script_load(&script, file);
    place.offset = 0;
    towanchor_power_up_as(image(&place), TOWANCHOR_IMAGE_SIZE, edition, 0xFF, 0xFF, 0xFF);
    towanchor_power_up_as(other, sizeof other, edition == TOWANCHOR_8255A ? TOWANCHOR_82C55A : TOWANCHOR_8255A, 0, 0, 0);
    while (script_take(&script, &line)) {
        answer(&place, &line, answers);
        if (moves) {
            move(&place);
            disturb(other, &line);
        }
    }
    write_tallies(&place, tallies);
}

int main(int count, char **words)
{
    FILE *answers, *tallies;
    unsigned char edition;
    int each;

    if (count < 6)
        return EXIT_FAILURE;
    edition = strcmp(words[1], "82c55a") == 0 ? TOWANCHOR_82C55A : TOWANCHOR_8255A;
    answers = fopen(words[3], "wb");
    tallies = fopen(words[4], "wb");
    if (answers == NULL || tallies == NULL)
        return EXIT_FAILURE;
    for (each = 5; each < count; each++)
        replay(words[each], edition, strcmp(words[2], "move") == 0, answers, tallies);
    return fclose(answers) == 0 && fclose(tallies) == 0 ? EXIT_SUCCESS : EXIT_FAILURE;
}
