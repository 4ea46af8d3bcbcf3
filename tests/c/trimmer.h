/* A second trimmer of journals, written anew from the rules over the plain model of bench/, for the test that compares. */
#ifndef TESTS_TRIMMER_H
#define TESTS_TRIMMER_H

#include <stddef.h>

/* Kinds go from 0 to 5, with none at 4, and so do the numbers of an event. */
#define KINDS 6
#define NUMBERS 6

/* What became of words, by their kinds; with what numbers the dropped ones were answered; and how many of those kept were levels that were
 * there already. */
struct sifted {
    unsigned long kept[KINDS], dropped[KINDS], answered[NUMBERS], kept_for_a_latch;
};

/* Whether a word is a frame. */
int is_frame(unsigned int word);

/* Trims as towanchor_trim does, with the same answers, and counts what becomes of the words. */
unsigned int second_trim(unsigned int *words, size_t count, unsigned char edition, unsigned char levels_a, unsigned char levels_b,
                         unsigned char levels_c, struct sifted *sifted);

#endif
