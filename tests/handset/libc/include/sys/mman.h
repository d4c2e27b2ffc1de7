/* Pages, and who may touch them. */
#ifndef SYS_MMAN_H
#define SYS_MMAN_H

#include <stddef.h>

#define PROT_NONE 0
#define PROT_READ 1
#define PROT_WRITE 2
#define MAP_PRIVATE 0x02
#define MAP_ANONYMOUS 0x20
#define MAP_FAILED ((void *)-1)

void *mmap(void *place, size_t length, int allowed, int flags, int descriptor, long offset);
int mprotect(void *place, size_t length, int allowed);
int munmap(void *place, size_t length);

#endif
