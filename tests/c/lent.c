/* The guarded words. A guard is no frame: what reads beyond the words that are lent is likely to refuse them. */
#include "lent.h"

#include <string.h>

#define GUARD_WORD 0xA5A5A5A5u

unsigned int *lent_words(struct lent *lent)
{
    return lent->words + LENT_GUARD;
}

void lent_guard(struct lent *lent, size_t count)
{
    size_t each;

    for (each = 0; each < LENT_GUARD; each++)
        lent->words[each] = lent->words[LENT_GUARD + count + each] = GUARD_WORD;
    lent->count = count;
    memcpy(lent->before, lent->words, (LENT_GUARD + count + LENT_GUARD) * sizeof *lent->words);
}

int lent_untouched(const struct lent *lent)
{
    return memcmp(lent->words, lent->before, (LENT_GUARD + lent->count + LENT_GUARD) * sizeof *lent->words) == 0;
}

int lent_kept_beyond(const struct lent *lent)
{
    size_t after = LENT_GUARD + lent->count;

    return memcmp(lent->words, lent->before, LENT_GUARD * sizeof *lent->words) == 0 &&
           memcmp(lent->words + after, lent->before + after, LENT_GUARD * sizeof *lent->words) == 0;
}
