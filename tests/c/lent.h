/* A buffer for journals with guard words on both sides of what is lent, and a copy that tells whether anything was written. */
#ifndef TESTS_LENT_H
#define TESTS_LENT_H

#include "towanchor.h"

#define LENT_GUARD 32
#define LENT_MOST (TOWANCHOR_MOST_WORDS + 1)

struct lent {
    unsigned int words[LENT_GUARD + LENT_MOST + LENT_GUARD];
    unsigned int before[LENT_GUARD + LENT_MOST + LENT_GUARD];
    size_t count; /* how many are lent */
};

/* Where the words that are lent begin. */
unsigned int *lent_words(struct lent *lent);

/* Lends the first 'count' words: puts guards around them, and remembers all. */
void lent_guard(struct lent *lent, size_t count);

/* Whether all is as lent_guard left it, and whether the guards are. */
int lent_untouched(const struct lent *lent);
int lent_kept_beyond(const struct lent *lent);

#endif
