/* Where an image has what, and the values that it has there, for the tests that look inside; docs/IMAGE.md says the same. Tallies,
 * levels and latches come before the conditions. */
#ifndef TESTS_LAYOUT_H
#define TESTS_LAYOUT_H

#define TALLY_BYTES 14 /* of a channel */
#define LEVELS_A 56
#define LEVELS_C 58
#define LATCH_C 59
#define LATCH_A_IN 60
#define CONDITION_A_IN 64
#define CONDITION_A_OUT 65
#define CONDITION_B_IN 66
#define CONDITION_B_OUT 67
#define MODE_WORD 68
#define ENABLES 69
#define BUS 70
#define BUS_BYTE 71
#define EDITION 72 /* as the header numbers the editions */
#define UNUSED 73  /* the first of those that are 0 */
#define END 96

/* The conditions of a channel. */
#define EMPTY 0
#define WAITING 1
#define FETCHING 2

/* The enables, as bits. */
#define INTE_IN_A 0x10
#define INTE_OUT_A 0x40
#define INTE_B 0x04

/* What the bus does: a read at READS and its address, a write at WRITES and its address, nothing. A read of control is an 82C55A's alone. */
#define READS 0
#define WRITES 4
#define IDLE 8

#endif
