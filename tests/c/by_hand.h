/* Texts that were mended by hand, from the rules. */
#ifndef TESTS_BY_HAND_H
#define TESTS_BY_HAND_H

#include <stddef.h>

/* A text, and what is made of it where there is room. */
struct by_hand {
    const char *text;
    size_t text_length;
    const char *clean;
    size_t clean_length;
    const char *signs;
    size_t lines;
};

/* A long text: a piece, as many times as is said, and a tail. The clean text and the signs are put together in the same way. Where the number
 * is not 0 the text is refused with it, and what follows says nothing. */
struct repeated {
    const char *piece;
    size_t times;
    const char *tail;
    size_t text_length;
    unsigned long number;
    const char *clean_piece, *clean_tail;
    size_t clean_length;
    const char *piece_signs, *tail_signs;
    size_t lines;
};

extern const struct by_hand short_texts[];
extern const size_t short_count;

extern const struct repeated long_texts[];
extern const size_t long_count;

#endif
