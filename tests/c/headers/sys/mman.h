/* What the C files use of <sys/mman.h>, with the values that x86-64 Linux gives the names. */
#ifndef HEADERS_SYS_MMAN_H
#define HEADERS_SYS_MMAN_H

#include <stddef.h>

#define PROT_NONE 0
#define PROT_READ 1
#define PROT_WRITE 2
#define MAP_PRIVATE 0x02
#define MAP_ANONYMOUS 0x20
#define MAP_FAILED ((void *)-1)

void *mmap(void *where, size_t length, int protection, int flags, int file, long offset);
int mprotect(void *pages, size_t length, int protection);

#endif
