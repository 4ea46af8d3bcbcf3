/* Texts mended as they were by hand, and captured scripts, pseudo-random, as by a second mender: the answers and every byte of both buffers
 * must be the same. Nothing is written beyond them or into the text, nor by a refused call. A clean script stays as it is. */
#include "by_hand.h"
#include "captured.h"
#include "drawn.h"
#include "fenced.h"
#include "mender.h"
#include "towanchor.h"

#include <stdio.h>
#include <stdlib.h>
#include <string.h>

/* How many scripts are captured, and that one in so many is long. */
#define SCRIPTS 20000
#define ONE_LONG_IN 8

/* More than any text needs, and 0 where it is cut to sixteen bits. */
#define AMPLE_ROOM 65536

/* What stands in the buffers before: no digit, no line feed and no sign. */
#define UNWRITTEN 0x5A

/* The units of an answer, here in plain numbers. */
#define CLEAN_UNIT 256ul
#define LINES_UNIT 4294967296ul

/* The rooms that are drawn for a buffer, and how many sorts there are. */
enum { EXACT, PROMISED, AMPLE, ONE_SHORT, NONE, ROOMS };

/* The outcomes of a call: what of it is too long is told apart. */
enum { ACCEPTED, TEXT_TOO_LONG, CLEAN_TOO_LONG, NO_ROOM, OUTCOMES };

static const char signs[] = {TOWANCHOR_SIGN_KEPT, TOWANCHOR_SIGN_MENDED, TOWANCHOR_SIGN_BLANK, TOWANCHOR_SIGN_UNFIT};
#define SIGNS (sizeof signs)

/* Of the captured scripts: lines by their signs, calls by their outcomes, buffers by their rooms. Of all: texts, and faults. */
static unsigned long lines_with[SIGNS], calls_with[OUTCOMES], rooms_drawn[ROOMS], texts, faults;

/* What is lent to the function. */
static struct fenced text, clean, report;

/* Says where the first fault was, and counts all. It is said on standard error: what waits to be printed is lost where a page that may not be
 * touched ends the program. */
static void hold(int holds, const char *what)
{
    if (!holds && faults++ == 0)
        fprintf(stderr, "text %lu: %s\n", texts, what);
}

/* Mends by both, and compares. Answers what towanchor_mend did, and leaves in 'clean' and 'report' what it wrote. */
static unsigned long compare(const unsigned char *bytes, size_t length, size_t clean_room, size_t report_room, int side)
{
    static unsigned char second_clean[AMPLE_ROOM], second_report[AMPLE_ROOM];
    unsigned long answer, expected;

    memset(second_clean, UNWRITTEN, clean_room);
    memset(second_report, UNWRITTEN, report_room);
    fenced_lend(&text, bytes, length, side);
    fenced_lend(&clean, second_clean, clean_room, side);
    fenced_lend(&report, second_report, report_room, side);
    expected = second_mend(text.lent, length, second_clean, clean_room, second_report, report_room);
    answer = towanchor_mend(text.lent, length, clean.lent, clean_room, report.lent, report_room);
    hold(answer == expected, "the answer is another");
    hold(memcmp(clean.lent, second_clean, clean_room) == 0, "the clean buffer is another");
    hold(memcmp(report.lent, second_report, report_room) == 0, "the report buffer is another");
    hold(fenced_kept_beyond(&clean, clean_room) && fenced_kept_beyond(&report, report_room), "something was written beyond");
    hold(fenced_untouched(&text), "the text was written to");
    if (TOWANCHOR_NUMBER(answer) != TOWANCHOR_ACCEPTED)
        hold(fenced_untouched(&clean) && fenced_untouched(&report), "a refused call wrote something");
    return answer;
}

/* A text is refused with a number, on either side of the pages. */
static void refused(const struct by_hand *hand, size_t clean_room, size_t report_room, unsigned long number)
{
    int side;

    for (side = 0; side < SIDES; side++)
        hold(compare((const unsigned char *)hand->text, hand->text_length, clean_room, report_room, side) == number,
             "it is not refused as by hand");
}

/* A text is made what it was by hand, on either side of the pages. */
static void mended(const struct by_hand *hand, size_t clean_room, size_t report_room)
{
    int side;

    for (side = 0; side < SIDES; side++) {
        hold(compare((const unsigned char *)hand->text, hand->text_length, clean_room, report_room, side) ==
                 CLEAN_UNIT * hand->clean_length + LINES_UNIT * hand->lines,
             "the answer is not that by hand");
        hold(memcmp(clean.lent, hand->clean, hand->clean_length) == 0, "the clean text is not that by hand");
        hold(memcmp(report.lent, hand->signs, hand->lines) == 0, "the signs are not those by hand");
        hold(fenced_kept_beyond(&clean, hand->clean_length) && fenced_kept_beyond(&report, hand->lines), "something was written behind");
    }
}

/* A text that may be mended, under many rooms: exact, one byte less in either buffer, none, what the header promises to be enough, ample. */
static void by_rooms(const struct by_hand *hand)
{
    size_t needed = hand->clean_length, signs_needed = hand->lines;

    texts++;
    mended(hand, needed, signs_needed);
    mended(hand, needed + 1, signs_needed + 1);
    mended(hand, hand->text_length + 1, hand->text_length);
    mended(hand, AMPLE_ROOM, AMPLE_ROOM);
    if (needed > 0) {
        refused(hand, needed - 1, signs_needed, TOWANCHOR_NO_ROOM);
        refused(hand, 0, AMPLE_ROOM, TOWANCHOR_NO_ROOM);
    }
    if (signs_needed > 0) {
        refused(hand, needed, signs_needed - 1, TOWANCHOR_NO_ROOM);
        refused(hand, AMPLE_ROOM, 0, TOWANCHOR_NO_ROOM);
        refused(hand, 0, 0, TOWANCHOR_NO_ROOM);
    }
    if (needed > 0 && signs_needed > 0)
        refused(hand, needed - 1, signs_needed - 1, TOWANCHOR_NO_ROOM);
}

/* A text that is too long: there may be room or none. */
static void too_long(const struct by_hand *hand)
{
    texts++;
    refused(hand, AMPLE_ROOM, AMPLE_ROOM, TOWANCHOR_TOO_LONG);
    refused(hand, TOWANCHOR_LONGEST_SCRIPT, TOWANCHOR_LONGEST_SCRIPT, TOWANCHOR_TOO_LONG);
    refused(hand, 0, 0, TOWANCHOR_TOO_LONG);
}

/* Puts a piece down so many times, and the tail; answers how many bytes that are. */
static size_t repeat(char *bytes, const char *piece, size_t times, const char *tail)
{
    size_t length = 0, each;

    for (each = 0; each < times; each++) {
        memcpy(bytes + length, piece, strlen(piece));
        length += strlen(piece);
    }
    memcpy(bytes + length, tail, strlen(tail));
    return length + strlen(tail);
}

static void repeated_text(const struct repeated *repeated)
{
    static char whole[FENCED_MOST], whole_clean[FENCED_MOST], whole_signs[FENCED_MOST];
    struct by_hand hand;

    hand.text = whole;
    hand.text_length = repeat(whole, repeated->piece, repeated->times, repeated->tail);
    hold(hand.text_length == repeated->text_length, "it is not as long as was counted by hand");
    if (repeated->number == TOWANCHOR_TOO_LONG) {
        too_long(&hand);
        return;
    }
    hand.clean = whole_clean;
    hand.clean_length = repeat(whole_clean, repeated->clean_piece, repeated->times, repeated->clean_tail);
    hand.signs = whole_signs;
    hand.lines = repeat(whole_signs, repeated->piece_signs, repeated->times, repeated->tail_signs);
    hold(hand.clean_length == repeated->clean_length && hand.lines == repeated->lines, "its lengths are not those by hand");
    by_rooms(&hand);
}

static void texts_by_hand(void)
{
    size_t each;

    for (each = 0; each < short_count; each++) {
        const struct by_hand *hand = &short_texts[each];

        by_rooms(hand);
        hold(strlen(hand->clean) == hand->clean_length && strlen(hand->signs) == hand->lines, "its lengths are not those by hand");
    }
    for (each = 0; each < long_count; each++)
        repeated_text(&long_texts[each]);
}

/* A room for a buffer into which 'needed' bytes come, and for which 'promised' are said to be enough. */
static size_t a_room(size_t needed, size_t promised)
{
    static const unsigned char sorts[] = {EXACT, EXACT, EXACT, EXACT, PROMISED, PROMISED, PROMISED, AMPLE, AMPLE, ONE_SHORT, NONE};
    unsigned char sort = sorts[any(sizeof sorts)];

    if (sort == ONE_SHORT && needed == 0)
        sort = EXACT;
    rooms_drawn[sort]++;
    switch (sort) {
    case EXACT:
        return needed;
    case PROMISED:
        return promised;
    case AMPLE:
        return promised + 1 + any(64);
    case ONE_SHORT:
        return needed - 1;
    default:
        return 0;
    }
}

/* Counts the signs of a report; answers how many of its lines are in the clean text. */
static size_t count_signs(const unsigned char *counted, size_t lines)
{
    size_t fit = 0, each, which;

    for (each = 0; each < lines; each++) {
        for (which = 0; which < SIGNS; which++)
            lines_with[which] += counted[each] == signs[which];
        fit += counted[each] == TOWANCHOR_SIGN_KEPT || counted[each] == TOWANCHOR_SIGN_MENDED;
    }
    return fit;
}

/* Mends a clean text of so many lines once more: all of it is kept. */
static void again(size_t length, size_t lines, int side)
{
    static unsigned char once[TOWANCHOR_LONGEST_SCRIPT];
    unsigned long answer;
    size_t each;

    memcpy(once, clean.lent, length);
    answer = compare(once, length, length, lines, side);
    hold(answer == CLEAN_UNIT * length + LINES_UNIT * lines, "mended again it has another answer");
    hold(memcmp(clean.lent, once, length) == 0, "mended again it is another");
    for (each = 0; each < lines; each++)
        hold(report.lent[each] == TOWANCHOR_SIGN_KEPT, "mended again a line is not kept");
}

static unsigned int outcome_of(unsigned long answer, size_t length)
{
    switch (TOWANCHOR_NUMBER(answer)) {
    case TOWANCHOR_ACCEPTED:
        return ACCEPTED;
    case TOWANCHOR_TOO_LONG:
        return length > TOWANCHOR_LONGEST_SCRIPT ? TEXT_TOO_LONG : CLEAN_TOO_LONG;
    default:
        return NO_ROOM;
    }
}

/* A captured script, with rooms by what the second mender makes of it; where that is refused the lengths are 0. */
static void captured_script(int is_long)
{
    static unsigned char script[CAPTURED_MOST], second_clean[CAPTURED_MOST], second_report[CAPTURED_MOST];
    size_t length = capture(script, is_long), clean_room, report_room;
    unsigned long needed = second_mend(script, length, second_clean, sizeof second_clean, second_report, sizeof second_report), answer;
    int side = (int)any(SIDES);

    texts++;
    clean_room = a_room(TOWANCHOR_CLEAN(needed), length + 1);
    report_room = a_room(TOWANCHOR_SIGNS(needed), length);
    answer = compare(script, length, clean_room, report_room, side);
    calls_with[outcome_of(answer, length)]++;
    if (TOWANCHOR_NUMBER(needed) == TOWANCHOR_ACCEPTED && answer == needed)
        again(TOWANCHOR_CLEAN(answer), count_signs(report.lent, TOWANCHOR_SIGNS(answer)), side);
}

/* Whether each of so many things has happened. */
static int all_happened(const unsigned long *counts, size_t count)
{
    size_t each;

    for (each = 0; each < count; each++)
        if (counts[each] == 0)
            return 0;
    return 1;
}

static void summary(unsigned long by_hand)
{
    unsigned int each;

    printf("%lu texts by hand, %lu scripts captured; lines kept: %lu, mended: %lu, blank: %lu, unfit: %lu; calls accepted: %lu, ", by_hand,
           texts - by_hand, lines_with[0], lines_with[1], lines_with[2], lines_with[3], calls_with[ACCEPTED]);
    printf("refused with 6 for the text: %lu, for the clean form: %lu, with 7: %lu; damage", calls_with[TEXT_TOO_LONG],
           calls_with[CLEAN_TOO_LONG], calls_with[NO_ROOM]);
    for (each = 0; each < DAMAGES; each++)
        printf(" %s: %lu%s", damage_names[each], damage_done[each], each < DAMAGES - 1 ? "," : ";");
    printf(" rooms exact: %lu, promised: %lu, ample: %lu, one short: %lu, none: %lu; %lu wrong\n", rooms_drawn[EXACT], rooms_drawn[PROMISED],
           rooms_drawn[AMPLE], rooms_drawn[ONE_SHORT], rooms_drawn[NONE], faults);
}

int main(void)
{
    unsigned long by_hand, each;

    texts_by_hand();
    by_hand = texts;
    for (each = 0; each < SCRIPTS; each++)
        captured_script(each % ONE_LONG_IN == 0);
    summary(by_hand);
    return faults == 0 && all_happened(lines_with, SIGNS) && all_happened(calls_with, OUTCOMES) && all_happened(damage_done, DAMAGES) &&
                   all_happened(rooms_drawn, ROOMS)
               ? EXIT_SUCCESS
               : EXIT_FAILURE;
}
