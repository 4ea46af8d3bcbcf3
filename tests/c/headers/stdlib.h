/* What the C files use of <stdlib.h>. */
#ifndef HEADERS_STDLIB_H
#define HEADERS_STDLIB_H

#define EXIT_SUCCESS 0
#define EXIT_FAILURE 1

void exit(int status);
int atoi(const char *text);

#endif
