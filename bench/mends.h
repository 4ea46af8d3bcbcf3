/* The mending of a script: the type of towanchor_mend, and the plain C that answers as it does. */
#ifndef MENDS_H
#define MENDS_H

#include <stddef.h>

typedef unsigned long mend_function(const unsigned char *text, size_t text_length, unsigned char *clean, size_t clean_room,
                                    unsigned char *report, size_t report_room);

mend_function plain_mend;

#endif
