/* The fenced bytes. The guards are no digits and no ends of lines: what reads them into a script makes its lines unfit. */
#include "fenced.h"

#include <stdio.h>
#include <stdlib.h>
#include <string.h>
#include <sys/mman.h>

#define GUARD_BYTE 0xA5

/* A multiple of each size that pages have, on whichever machine this runs. FENCED_FIELD is one too. */
#define FENCE 65536

static unsigned char *open_field(void)
{
    unsigned char *pages = mmap(NULL, FENCE + FENCED_FIELD + FENCE, PROT_NONE, MAP_PRIVATE | MAP_ANONYMOUS, -1, 0);

    if (pages == MAP_FAILED || mprotect(pages + FENCE, FENCED_FIELD, PROT_READ | PROT_WRITE) != 0) {
        fprintf(stderr, "there are no pages to lend\n");
        exit(EXIT_FAILURE);
    }
    return pages + FENCE;
}

unsigned char *fenced_lend(struct fenced *fenced, const unsigned char *bytes, size_t length, int side)
{
    size_t all = length + FENCED_GUARD;

    if (fenced->field == NULL)
        fenced->field = open_field();
    fenced->guarded = side == AT_THE_FRONT ? fenced->field : fenced->field + FENCED_FIELD - all;
    fenced->lent = side == AT_THE_FRONT ? fenced->guarded : fenced->guarded + FENCED_GUARD;
    fenced->length = length;
    memset(fenced->guarded, GUARD_BYTE, all);
    memcpy(fenced->lent, bytes, length);
    memcpy(fenced->before, fenced->guarded, all);
    return fenced->lent;
}

int fenced_untouched(const struct fenced *fenced)
{
    return memcmp(fenced->guarded, fenced->before, fenced->length + FENCED_GUARD) == 0;
}

int fenced_kept_beyond(const struct fenced *fenced, size_t length)
{
    size_t before = (size_t)(fenced->lent - fenced->guarded), after = before + length;

    return memcmp(fenced->guarded, fenced->before, before) == 0 &&
           memcmp(fenced->guarded + after, fenced->before + after, fenced->length + FENCED_GUARD - after) == 0;
}
