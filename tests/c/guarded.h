/* A buffer for images with guard bytes on both sides, and a copy that tells whether anything was written. */
#ifndef TESTS_GUARDED_H
#define TESTS_GUARDED_H

#include <stddef.h>

#define GUARD 32
#define GUARDED_MOST 128

struct guarded {
    unsigned char bytes[GUARD + GUARDED_MOST + GUARD];
    unsigned char before[GUARD + GUARDED_MOST + GUARD];
};

/* Fills guards and buffer, puts an image at the buffer's start, and gives it back. */
unsigned char *guarded_put(struct guarded *guarded, const unsigned char *image, size_t length);

/* Whether all is as guarded_put left it, and whether all is but for the first 'length' bytes of the buffer. */
int guarded_untouched(const struct guarded *guarded);
int guarded_kept_beyond(const struct guarded *guarded, size_t length);

#endif
