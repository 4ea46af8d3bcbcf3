/* A second mender of scripts, written anew from the rules, for the test that compares. */
#ifndef TESTS_MENDER_H
#define TESTS_MENDER_H

#include <stddef.h>

/* Mends as towanchor_mend does, with the same answers. */
unsigned long second_mend(const unsigned char *text, size_t text_length, unsigned char *clean, size_t clean_room, unsigned char *report,
                          size_t report_room);

#endif
