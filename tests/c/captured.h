/* Scripts as they are captured: pseudo-random frames with pseudo-random damage, the same in every run. */
#ifndef TESTS_CAPTURED_H
#define TESTS_CAPTURED_H

#include <stddef.h>

/* Some scripts are longer than there may be, and a line may reach beyond what was to be drawn. */
#define CAPTURED_MOST 4128

/* The kinds of damage, and how many there are. */
enum { LOWERED, CHANGED, BLANK_PUT_IN, TORN, LF_LOST, CR_PUT, CR_DOUBLED, CUT, DAMAGES };

/* How often each kind of damage was done, over all scripts. */
extern unsigned long damage_done[DAMAGES];
extern const char *const damage_names[DAMAGES];

/* Draws a script; answers its length. One that is long is cut near the limit of 4,096 bytes. */
size_t capture(unsigned char *text, int is_long);

#endif
