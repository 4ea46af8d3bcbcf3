/* Which of all images are good. Tallies (0 to 55), outside levels and latches (56 to 63) may have any value; the rest is judged. */
#include "judgement.h"

#include "layout.h"
#include "mode_words.h"
#include "towanchor.h"

static int good_channels(const unsigned char *image)
{
    unsigned char word = image[MODE_WORD];

    return image[CONDITION_A_IN] <= (strobes(word, TOWANCHOR_A_IN) ? FETCHING : EMPTY) &&
           image[CONDITION_A_OUT] <= (strobes(word, TOWANCHOR_A_OUT) ? WAITING : EMPTY) &&
           image[CONDITION_B_IN] <= (strobes(word, TOWANCHOR_B_IN) ? FETCHING : EMPTY) &&
           image[CONDITION_B_OUT] <= (strobes(word, TOWANCHOR_B_OUT) ? WAITING : EMPTY);
}

static int good_settings(const unsigned char *image)
{
    return (image[MODE_WORD] & 0x80) != 0 && (image[ENABLES] & ~(INTE_IN_A | INTE_OUT_A | INTE_B)) == 0;
}

static int good_bus(const unsigned char *image)
{
    switch (image[BUS]) {
    case READS + TOWANCHOR_A:
    case READS + TOWANCHOR_B:
    case READS + TOWANCHOR_C:
    case IDLE:
        return image[BUS_BYTE] == 0;
    case READS + TOWANCHOR_CONTROL:
        return image[BUS_BYTE] == 0 && image[EDITION] == TOWANCHOR_82C55A;
    case WRITES + TOWANCHOR_A:
    case WRITES + TOWANCHOR_B:
    case WRITES + TOWANCHOR_C:
    case WRITES + TOWANCHOR_CONTROL:
        return 1;
    default:
        return 0;
    }
}

static int good_edition(const unsigned char *image)
{
    return image[EDITION] == TOWANCHOR_8255A || image[EDITION] == TOWANCHOR_82C55A;
}

static int good_rest(const unsigned char *image)
{
    int each;

    for (each = UNUSED; each < END; each++)
        if (image[each] != 0)
            return 0;
    return 1;
}

int is_image(const unsigned char *image)
{
    return good_channels(image) && good_settings(image) && good_bus(image) && good_edition(image) && good_rest(image);
}

int cycle_runs(const unsigned char *image)
{
    return image[BUS] != IDLE;
}

int has_condition(const unsigned char *image, unsigned char condition)
{
    return image[CONDITION_A_IN] == condition || image[CONDITION_A_OUT] == condition || image[CONDITION_B_IN] == condition ||
           image[CONDITION_B_OUT] == condition;
}
