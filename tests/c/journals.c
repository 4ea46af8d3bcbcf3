/* Journals, chosen and pseudo-random, of lengths from none to more than there may be, of frames and of words that are none, trimmed beside a
 * second trimmer: the answers and every word must be the same, and nothing is written beyond. A refused journal stays as it is. */
#include "drawn.h"
#include "lent.h"
#include "towanchor.h"
#include "trimmer.h"

#include <stdio.h>
#include <stdlib.h>
#include <string.h>

/* How many are drawn. */
#define JOURNALS 6000

/* The sorts of words that are no frames, and how many there are. */
enum {
    KIND_4,
    KIND_ABOVE,
    KIND_BEYOND_A_BYTE,
    RESET_WITH_FIRST,
    RESET_WITH_SECOND,
    READ_WITH_SECOND,
    END_WITH_FIRST,
    END_WITH_SECOND,
    SORTS
};

static const unsigned char kinds[] = {TOWANCHOR_RESET, TOWANCHOR_BEGIN_READ, TOWANCHOR_END_CYCLE, TOWANCHOR_BEGIN_WRITE,
                                      TOWANCHOR_OUTSIDE_LEVELS};

/* What became of words, by the second trimmer; journals, the empty ones, and those refused, by number and by the sort of the word. */
static struct sifted sifted;
static unsigned long journals, empty, refused[TOWANCHOR_NO_STATE + 1], no_frames[SORTS], faults;

static int one_in(unsigned int chances)
{
    return any(chances) == 0;
}

static unsigned char above_zero(void)
{
    return (unsigned char)(1 + any(255));
}

/* An address or a port: one that there is more often than not. */
static unsigned char a_place(void)
{
    return one_in(16) ? any_byte() : (unsigned char)any(4);
}

/* A word for control: a mode word, most often of mode 1 or 2, or a bit set/reset. */
static unsigned char control_word(void)
{
    unsigned char word = any_byte();

    return one_in(2) ? word & 0x7F : one_in(4) ? word | 0x80 : word | 0xA4;
}

/* Levels out of few, so that they come again, and STB and ACK fall and rise. */
static unsigned char few_levels(void)
{
    static const unsigned char few[] = {0x00, 0x41, 0xEF, 0xEB, 0xBF, 0xFF};

    return one_in(16) ? any_byte() : few[any(sizeof few)];
}

/* A frame. What it has is drawn in a fixed order: that of operands in a call would be the compiler's. */
static unsigned int a_frame(void)
{
    unsigned char what = (unsigned char)any(16), place = a_place(), byte = few_levels();

    switch (what) {
    case 0:
    case 1:
    case 2:
        return TOWANCHOR_WORD(TOWANCHOR_BEGIN_READ, place, 0);
    case 3:
    case 4:
    case 5:
        return TOWANCHOR_WORD(TOWANCHOR_BEGIN_WRITE, place, place == TOWANCHOR_CONTROL ? control_word() : byte);
    case 6:
    case 7:
    case 8:
    case 9:
        return TOWANCHOR_WORD(TOWANCHOR_END_CYCLE, 0, 0);
    case 10:
        return one_in(8) ? TOWANCHOR_WORD(TOWANCHOR_RESET, 0, 0) : TOWANCHOR_WORD(TOWANCHOR_END_CYCLE, 0, 0);
    default:
        return TOWANCHOR_WORD(TOWANCHOR_OUTSIDE_LEVELS, place, byte);
    }
}

/* A word of a sort that is no frame. */
static unsigned int no_frame(unsigned int sort)
{
    unsigned int frame = a_frame(), operands = frame & 0xFFFF;
    unsigned char operand = above_zero();

    switch (sort) {
    case KIND_4:
        return 0x00040000u | operands;
    case KIND_ABOVE:
        return (6 + any(250)) << 16 | operands;
    case KIND_BEYOND_A_BYTE:
        return frame | (unsigned int)operand << 24;
    case RESET_WITH_FIRST:
        return TOWANCHOR_WORD(TOWANCHOR_RESET, operand, 0);
    case RESET_WITH_SECOND:
        return TOWANCHOR_WORD(TOWANCHOR_RESET, 0, operand);
    case READ_WITH_SECOND:
        return TOWANCHOR_WORD(TOWANCHOR_BEGIN_READ, any(4), operand);
    case END_WITH_FIRST:
        return TOWANCHOR_WORD(TOWANCHOR_END_CYCLE, operand, 0);
    default:
        return TOWANCHOR_WORD(TOWANCHOR_END_CYCLE, 0, operand);
    }
}

/* Says where the first fault was, and counts all. */
static void hold(int holds, const char *what)
{
    if (!holds && faults++ == 0)
        printf("journal %lu: %s\n", journals, what);
}

/* Trims the first 'count' words by both, and compares. Answers what towanchor_trim did. */
static unsigned int compare(struct lent *lent, size_t count, unsigned char edition, unsigned char a, unsigned char b, unsigned char c)
{
    static unsigned int second[LENT_MOST];
    unsigned int *words = lent_words(lent), expected, answer;

    journals++;
    memcpy(second, words, count * sizeof *second);
    expected = second_trim(second, count, edition, a, b, c, &sifted);
    lent_guard(lent, count);
    answer = towanchor_trim(words, count, edition, a, b, c);
    hold(answer == expected, "the answer is another");
    hold(memcmp(words, second, count * sizeof *second) == 0, "the words are others");
    hold(lent_kept_beyond(lent), "something was written beyond");
    if (TOWANCHOR_NUMBER(answer) != TOWANCHOR_ACCEPTED) {
        hold(answer <= TOWANCHOR_NO_STATE, "a refusal with something above its number");
        hold(lent_untouched(lent), "a refused journal was written to");
        refused[TOWANCHOR_NUMBER(expected)]++;
    } else if (count == 0) {
        empty++;
    }
    return answer;
}

/* Around the limit now and then, and else short, so that there can be many. */
static size_t a_length(unsigned int number)
{
    if (number % 128 == 0)
        return TOWANCHOR_MOST_WORDS - 1 + number / 128 % 3;
    return any(number % 16 == 1 ? 1000 : 48);
}

static unsigned char an_edition(void)
{
    static const unsigned char unknown[] = {2, 3, 128, 255};
    unsigned char known = (unsigned char)any(2);

    return one_in(8) ? unknown[any(sizeof unknown)] : known;
}

/* A journal of frames, under some levels, into which one time in four a word is put that is none: first, last or anywhere. */
static void drawn_journal(struct lent *lent, unsigned int number)
{
    unsigned int *words = lent_words(lent), sort = any(SORTS), answer;
    size_t count = a_length(number), each;
    unsigned char edition = an_edition(), a = few_levels(), b = few_levels(), c = few_levels();
    int spoilt = one_in(4) && count > 0;

    for (each = 0; each < count; each++)
        words[each] = a_frame();
    if (spoilt) {
        size_t where = one_in(3) ? 0 : one_in(2) ? count - 1 : any((unsigned int)count);

        words[where] = no_frame(sort);
        hold(!is_frame(words[where]), "a word is no frame, and taken for one here");
    }
    answer = compare(lent, count, edition, a, b, c);
    if (spoilt && answer == TOWANCHOR_NO_FRAME)
        no_frames[sort]++;
}

/* One word alone, of each kind that sixteen bits have, with operands and without. */
static void each_kind(struct lent *lent)
{
    static const unsigned int operands[] = {0x0000, 0x0100, 0x0001, 0xFFFF};
    unsigned int kind, each;

    for (kind = 0; kind < 0x10000; kind++)
        for (each = 0; each < sizeof operands / sizeof *operands; each++) {
            lent_words(lent)[0] = kind << 16 | operands[each];
            compare(lent, 1, (unsigned char)(kind % 2), 0xFF, 0xFF, 0xFF);
        }
}

/* Every combination of what a journal can be refused for, a word that is no frame being the first, the last or one between. */
static void each_combination(struct lent *lent)
{
    enum { IN_A_WORD = 1, IN_THE_LENGTH = 2, IN_THE_EDITION = 4, COMBINATIONS = 8 };
    static const unsigned int numbers[COMBINATIONS] = {TOWANCHOR_ACCEPTED, TOWANCHOR_NO_FRAME, TOWANCHOR_TOO_LONG, TOWANCHOR_TOO_LONG,
                                                       TOWANCHOR_NO_STATE, TOWANCHOR_NO_STATE, TOWANCHOR_NO_STATE, TOWANCHOR_NO_STATE};
    unsigned int combination, place, *words = lent_words(lent);
    size_t each;

    for (combination = 0; combination < COMBINATIONS; combination++)
        for (place = 0; place < 3; place++) {
            size_t count = combination & IN_THE_LENGTH ? TOWANCHOR_MOST_WORDS + 1 : TOWANCHOR_MOST_WORDS;
            unsigned char edition = combination & IN_THE_EDITION ? 2 : TOWANCHOR_82C55A;
            unsigned int answer;

            for (each = 0; each < count; each++)
                words[each] = a_frame();
            if (combination & IN_A_WORD)
                words[place * (count - 1) / 2] = no_frame(any(SORTS));
            answer = compare(lent, count, edition, 0, 0, 0);
            hold(TOWANCHOR_NUMBER(answer) == numbers[combination], "another refusal comes first");
        }
}

/* A full journal of which all is kept, cycles, and one of which nothing is, resets. */
static void all_or_nothing(struct lent *lent)
{
    unsigned int *words = lent_words(lent);
    size_t each;

    for (each = 0; each < TOWANCHOR_MOST_WORDS; each++)
        words[each] = each % 2 == 0 ? TOWANCHOR_WORD(TOWANCHOR_BEGIN_READ, TOWANCHOR_A, 0) : TOWANCHOR_WORD(TOWANCHOR_END_CYCLE, 0, 0);
    hold(compare(lent, TOWANCHOR_MOST_WORDS, TOWANCHOR_8255A, 0, 0, 0) == 256u * TOWANCHOR_MOST_WORDS, "not all of a full journal was kept");
    hold(lent_untouched(lent), "a journal of which all is kept was written to");
    memset(words, 0, TOWANCHOR_MOST_WORDS * sizeof *words);
    hold(compare(lent, TOWANCHOR_MOST_WORDS, TOWANCHOR_8255A, 0, 0, 0) == 0, "something of a journal of resets was kept");
}

/* Begins the counts anew. */
static void count_anew(void)
{
    memset(&sifted, 0, sizeof sifted);
    memset(refused, 0, sizeof refused);
    journals = empty = 0;
}

/* Whether all that is counted has happened. */
static int all_happened(void)
{
    unsigned int each;

    for (each = 0; each < SORTS; each++)
        if (no_frames[each] == 0)
            return 0;
    for (each = 0; each < sizeof kinds; each++)
        if (sifted.kept[kinds[each]] == 0 || sifted.dropped[kinds[each]] == 0)
            return 0;
    for (each = TOWANCHOR_OUT_OF_RANGE; each <= TOWANCHOR_NO_CYCLE_RUNS; each++)
        if (sifted.answered[each] == 0)
            return 0;
    /* Resets are always accepted, and of the levels that were dropped some must have been. */
    return sifted.answered[TOWANCHOR_ACCEPTED] > sifted.dropped[TOWANCHOR_RESET] && sifted.kept_for_a_latch > 0 && empty > 0 &&
           refused[TOWANCHOR_NO_FRAME] > 0 && refused[TOWANCHOR_TOO_LONG] > 0 && refused[TOWANCHOR_NO_STATE] > 0;
}

static void report(unsigned long chosen)
{
    unsigned int each;

    printf("%lu journals chosen, %lu drawn, %lu of these empty; refused with 8: %lu, 6: %lu, 1: %lu, by sorts", chosen, journals, empty,
           refused[TOWANCHOR_NO_STATE], refused[TOWANCHOR_TOO_LONG], refused[TOWANCHOR_NO_FRAME]);
    for (each = 0; each < SORTS; each++)
        printf(" %lu", no_frames[each]);
    printf("; kept and dropped of kind");
    for (each = 0; each < sizeof kinds; each++)
        printf(" %u: %lu and %lu,", kinds[each], sifted.kept[kinds[each]], sifted.dropped[kinds[each]]);
    printf(" kept for a latch: %lu, dropped with number", sifted.kept_for_a_latch);
    for (each = 0; each < NUMBERS; each++)
        if (each != TOWANCHOR_NO_SUCH_KIND)
            printf(" %u: %lu%s", each, sifted.answered[each], each < NUMBERS - 1 ? "," : "");
    printf("; %lu wrong\n", faults);
}

int main(void)
{
    static struct lent lent;
    unsigned int number;
    unsigned long chosen;

    each_kind(&lent);
    each_combination(&lent);
    all_or_nothing(&lent);
    chosen = journals;
    count_anew();
    for (number = 0; number < JOURNALS; number++)
        drawn_journal(&lent, number);
    report(chosen);
    return faults == 0 && all_happened() ? EXIT_SUCCESS : EXIT_FAILURE;
}
