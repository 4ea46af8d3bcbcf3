/* What the C files use of <string.h>. */
#ifndef HEADERS_STRING_H
#define HEADERS_STRING_H

#include <stddef.h>

void *memcpy(void *to, const void *from, size_t count);
void *memset(void *to, int byte, size_t count);
int memcmp(const void *bytes, const void *others, size_t count);
int strcmp(const char *text, const char *other);
size_t strlen(const char *text);

#endif
