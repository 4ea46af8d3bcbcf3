/* Scripts: the text of a file, line by line, and what a line says. */
#ifndef TESTS_SCRIPT_H
#define TESTS_SCRIPT_H

#include <stddef.h>

#define SCRIPT_MOST 4096

struct script {
    char text[SCRIPT_MOST];
    size_t length;
    size_t next; /* where the next line begins */
};

/* An operand that the kind lacks holds something that changes from line to line: the functions must ignore it. */
struct line {
    int is_frame; /* else it is malformed, and the rest says nothing */
    unsigned char kind, first, second;
};

/* Reads a file into 'script', at its beginning. Ends the program where the file cannot be read or is too long. */
void script_load(struct script *script, const char *file);

/* Takes the next line; 0 where there is none. A rest without a line feed is a malformed line. */
int script_take(struct script *script, struct line *line);

#endif
