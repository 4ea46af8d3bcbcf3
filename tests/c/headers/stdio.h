/* What the C files use of <stdio.h>. */
#ifndef HEADERS_STDIO_H
#define HEADERS_STDIO_H

#include <stddef.h>

typedef struct the_library_knows FILE;

extern FILE *stderr;

FILE *fopen(const char *name, const char *mode);
int fclose(FILE *file);
size_t fread(void *bytes, size_t size, size_t count, FILE *file);
size_t fwrite(const void *bytes, size_t size, size_t count, FILE *file);
int printf(const char *format, ...);
int fprintf(FILE *file, const char *format, ...);
int sprintf(char *text, const char *format, ...);

#endif
