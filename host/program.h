/* The store's program, as the processor runs it: it collects the digits of a weight, and writes a ticket. */
#ifndef HOST_PROGRAM_H
#define HOST_PROGRAM_H

#include "machine.h"

#define PROGRAM_DIGITS 8

struct program {
    char weight[PROGRAM_DIGITS + 1]; /* the digits that came, as a text */
    size_t collected;                /* how many */
    char ticket[PRINTER_WIDTH + 1];
    const char *unwritten;           /* the rest of the ticket; NULL while the bale is being weighed */
};

/* Sets up the card and the program. */
void program_start(struct program *program, struct machine *machine);

/* Serves an interrupt, where there is one; else sees whether the scale is ready. */
void program_turn(struct program *program, struct machine *machine);

/* Whether the ticket is written, and the printer has taken its last character. */
int program_done(const struct program *program, const struct machine *machine);

#endif
