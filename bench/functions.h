/* The types of the four functions, which are those of towanchor.h, and the functions of both C models, which answer as these do. */
#ifndef FUNCTIONS_H
#define FUNCTIONS_H

#include <stddef.h>

typedef unsigned int step_function(unsigned char *image, size_t length, unsigned char kind, unsigned char first, unsigned char second);
typedef unsigned int pins_function(const unsigned char *image, size_t length, unsigned char port);
typedef unsigned int tally_function(const unsigned char *image, size_t length, unsigned char channel, unsigned char tally);
typedef unsigned int explain_function(const unsigned char *image, size_t length, unsigned char group);

step_function plain_step, quick_step;
pins_function plain_pins, quick_pins;
tally_function plain_tally, quick_tally;
explain_function plain_explain, quick_explain;

#endif
