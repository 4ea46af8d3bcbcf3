/* damage SCRIPT..: an image from somewhere in each script, of one edition or the other, with every byte changed to every other value, and
 * with several changed at once. A changed image that is of no state is refused by number 8, before every other number; one that is of a state
 * is not; neither is written to. */
#include "drawn.h"
#include "guarded.h"
#include "judgement.h"
#include "layout.h"
#include "script.h"
#include "towanchor.h"

#include <stdio.h>
#include <stdlib.h>
#include <string.h>

#define SIZE TOWANCHOR_IMAGE_SIZE

/* How often several bytes of an image are changed at once. */
#define SEVERAL 2000

struct counts {
    unsigned long images, newer, running, reading_control, waiting, fetching; /* of the images before damage */
    unsigned long damaged, refused, accepted, faults;
};

static int control_is_read(const unsigned char *image)
{
    return image[BUS] == READS + TOWANCHOR_CONTROL;
}

/* Images of five sorts are looked for in turn: one with a cycle running, with control being read, with a byte waiting, with one being
 * fetched, and any. */
static int is_wanted(const unsigned char *image, unsigned int which)
{
    switch (which % 5) {
    case 0:
        return cycle_runs(image);
    case 1:
        return control_is_read(image);
    case 2:
        return has_condition(image, WAITING);
    case 3:
        return has_condition(image, FETCHING);
    default:
        return 1;
    }
}

/* Every second image is an 82C55A's, and each in which control is to be read. */
static unsigned char edition_of(unsigned int which)
{
    return which % 5 == 1 || which % 2 == 0 ? TOWANCHOR_82C55A : TOWANCHOR_8255A;
}

/* Reaches an image: from some line of the script on, another one in each script, the first of the wanted sort, or the last. */
static void reach(unsigned char *image, const char *file, unsigned int which)
{
    static struct script script;
    struct line line;
    unsigned int lines = 0, rest;

    script_load(&script, file);
    while (script_take(&script, &line))
        lines++;
    rest = which * 37 % (lines + 1);
    script.next = 0;
    towanchor_power_up_as(image, SIZE, edition_of(which), 0xFF, 0xFF, 0xFF);
    while ((rest > 0 || !is_wanted(image, which)) && script_take(&script, &line)) {
        if (line.is_frame)
            towanchor_step(image, SIZE, line.kind, line.first, line.second);
        if (rest > 0)
            rest--;
    }
}

/* Whether a bad image is refused by 8 alone, with good operands and with bad ones, and nothing is written. */
static int is_refused(const unsigned char *bad, unsigned char kind)
{
    static struct guarded guarded;
    unsigned char *image = guarded_put(&guarded, bad, SIZE);

    return towanchor_step(image, SIZE, kind, 0, 0) == TOWANCHOR_NO_STATE &&
           towanchor_step(image, SIZE, 9, 0, 0) == TOWANCHOR_NO_STATE &&
           towanchor_step(image, SIZE, TOWANCHOR_BEGIN_READ, 9, 0) == TOWANCHOR_NO_STATE &&
           towanchor_pins(image, SIZE, TOWANCHOR_A) == TOWANCHOR_NO_STATE &&
           towanchor_pins(image, SIZE, 9) == TOWANCHOR_NO_STATE &&
           towanchor_tally(image, SIZE, TOWANCHOR_A_IN, TOWANCHOR_OFFERED) == TOWANCHOR_NO_STATE &&
           towanchor_tally(image, SIZE, 9, 9) == TOWANCHOR_NO_STATE &&
           towanchor_explain(image, SIZE, TOWANCHOR_GROUP_A) == TOWANCHOR_NO_STATE &&
           towanchor_explain(image, SIZE, 9) == TOWANCHOR_NO_STATE && guarded_untouched(&guarded);
}

/* Whether a good image is taken as such: what is refused gets its own number and writes nothing, views, tallies and INTR are shown,
 * and what an event leaves is the image of a state again, with nothing written beside it. */
static int is_taken(const unsigned char *good, unsigned char kind)
{
    static struct guarded guarded;
    unsigned char *image = guarded_put(&guarded, good, SIZE);

    return towanchor_step(image, SIZE, 9, 0, 0) == TOWANCHOR_NO_SUCH_KIND &&
           TOWANCHOR_NUMBER(towanchor_pins(image, SIZE, TOWANCHOR_C)) == TOWANCHOR_ACCEPTED &&
           TOWANCHOR_NUMBER(towanchor_tally(image, SIZE, TOWANCHOR_B_OUT, TOWANCHOR_STRUCK)) == TOWANCHOR_ACCEPTED &&
           TOWANCHOR_NUMBER(towanchor_explain(image, SIZE, TOWANCHOR_GROUP_B)) == TOWANCHOR_ACCEPTED &&
           towanchor_explain(image, SIZE, 9) == TOWANCHOR_OUT_OF_RANGE && guarded_untouched(&guarded) &&
           TOWANCHOR_NUMBER(towanchor_step(image, SIZE, kind, 0, 0)) != TOWANCHOR_NO_STATE && is_image(image) &&
           guarded_kept_beyond(&guarded, SIZE);
}

/* Judges a changed image, and holds the functions to that. 'byte' is the last one that was changed. */
static void judge(const unsigned char *image, unsigned int byte, struct counts *counts)
{
    static const unsigned char kinds[] = {TOWANCHOR_RESET, TOWANCHOR_BEGIN_READ, TOWANCHOR_END_CYCLE, TOWANCHOR_BEGIN_WRITE,
                                          TOWANCHOR_OUTSIDE_LEVELS};
    unsigned char kind = kinds[(image[byte] + counts->images) % sizeof kinds];
    int good = is_image(image), held = good ? is_taken(image, kind) : is_refused(image, kind);

    counts->damaged++;
    if (!held) {
        if (counts->faults++ == 0)
            printf("byte %u of image %lu as %02X, which is %s, was not answered so\n", byte, counts->images, image[byte],
                   good ? "good" : "bad");
    } else if (good) {
        counts->accepted++;
    } else {
        counts->refused++;
    }
}

static void change_each(const unsigned char *reached, struct counts *counts)
{
    unsigned char image[SIZE];
    unsigned int byte, value;

    for (byte = 0; byte < SIZE; byte++) {
        for (value = 0; value < 256; value++) {
            if (value == reached[byte])
                continue;
            memcpy(image, reached, SIZE);
            image[byte] = (unsigned char)value;
            judge(image, byte, counts);
        }
    }
}

/* Two to five bytes from the conditions on, most of them those of the bus and the edition, which are judged together. Small values are
 * likelier, so that some images are good. */
static void change_several(const unsigned char *reached, struct counts *counts)
{
    unsigned char image[SIZE];
    unsigned int time, rest, byte = 0;

    for (time = 0; time < SEVERAL; time++) {
        memcpy(image, reached, SIZE);
        for (rest = 2 + any(4); rest > 0; rest--) {
            byte = any(4) == 0 ? CONDITION_A_IN + any(SIZE - CONDITION_A_IN) : BUS + any(UNUSED - BUS);
            image[byte] = (unsigned char)any(any(8) == 0 ? 256 : IDLE + 2);
        }
        judge(image, byte, counts);
    }
}

static void count_sorts(const unsigned char *image, struct counts *counts)
{
    counts->images++;
    counts->newer += image[EDITION] == TOWANCHOR_82C55A ? 1 : 0;
    counts->running += cycle_runs(image) ? 1 : 0;
    counts->reading_control += control_is_read(image) ? 1 : 0;
    counts->waiting += has_condition(image, WAITING) ? 1 : 0;
    counts->fetching += has_condition(image, FETCHING) ? 1 : 0;
}

/* Whether there were images of every sort, and damage of both. */
static int all_sorts(const struct counts *counts)
{
    return counts->refused > 0 && counts->accepted > 0 && counts->newer > 0 && counts->newer < counts->images && counts->running > 0 &&
           counts->reading_control > 0 && counts->waiting > 0 && counts->fetching > 0;
}

int main(int count, char **words)
{
    struct counts counts = {0, 0, 0, 0, 0, 0, 0, 0, 0, 0};
    unsigned char image[SIZE];
    int each;

    for (each = 1; each < count; each++) {
        reach(image, words[each], (unsigned int)each);
        count_sorts(image, &counts);
        if (!is_image(image) || !is_taken(image, TOWANCHOR_RESET)) {
            printf("image %lu is a reached one, and was not taken\n", counts.images);
            counts.faults++;
        }
        change_each(image, &counts);
        change_several(image, &counts);
    }
    printf("%lu images, %lu of an 82C55A; a cycle running in %lu, control read in %lu, a byte waiting in %lu, one being fetched in %lu\n",
           counts.images, counts.newer, counts.running, counts.reading_control, counts.waiting, counts.fetching);
    printf("%lu damaged: %lu refused, %lu accepted, %lu wrong\n", counts.damaged, counts.refused, counts.accepted, counts.faults);
    return counts.faults == 0 && all_sorts(&counts) ? EXIT_SUCCESS : EXIT_FAILURE;
}
