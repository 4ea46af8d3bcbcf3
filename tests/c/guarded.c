/* The guarded buffer. Its filling is no part of an image: what reads beyond an image that is put there is likely to refuse it. */
#include "guarded.h"

#include <string.h>

unsigned char *guarded_put(struct guarded *guarded, const unsigned char *image, size_t length)
{
    memset(guarded->bytes, 0xA5, sizeof guarded->bytes);
    memcpy(guarded->bytes + GUARD, image, length);
    memcpy(guarded->before, guarded->bytes, sizeof guarded->before);
    return guarded->bytes + GUARD;
}

int guarded_untouched(const struct guarded *guarded)
{
    return memcmp(guarded->bytes, guarded->before, sizeof guarded->bytes) == 0;
}

int guarded_kept_beyond(const struct guarded *guarded, size_t length)
{
    size_t after = GUARD + length;

    return memcmp(guarded->bytes, guarded->before, GUARD) == 0 &&
           memcmp(guarded->bytes + after, guarded->before + after, sizeof guarded->bytes - after) == 0;
}
