/* Bytes lent between two pages that may not be touched: what reads or writes there ends the program. The bytes begin just behind the first or
 * end just before the second; on their free side are guard bytes, and a copy tells whether anything was written. */
#ifndef TESTS_FENCED_H
#define TESTS_FENCED_H

#include <stddef.h>

#define FENCED_FIELD 131072 /* the bytes between the two pages */
#define FENCED_GUARD 64
#define FENCED_MOST (FENCED_FIELD - FENCED_GUARD)

/* The sides: just behind the first page, and just before the second. */
enum { AT_THE_FRONT, AT_THE_BACK, SIDES };

/* All zero before the first lending. */
struct fenced {
    unsigned char *field;   /* where the bytes between the pages begin */
    unsigned char *guarded; /* where what is lent begins together with its guards */
    unsigned char *lent;
    size_t length;
    unsigned char before[FENCED_FIELD];
};

/* Lends a copy of 'length' bytes at a side, and remembers all. Ends the program where the pages cannot be had. */
unsigned char *fenced_lend(struct fenced *fenced, const unsigned char *bytes, size_t length, int side);

/* Whether all is as fenced_lend left it, and whether all is but for the first 'length' bytes that are lent. */
int fenced_untouched(const struct fenced *fenced);
int fenced_kept_beyond(const struct fenced *fenced, size_t length);

#endif
