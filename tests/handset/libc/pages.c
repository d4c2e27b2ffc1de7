/* Pages of the machine's own. */
#include "system.h"

#include <sys/mman.h>

void *mmap(void *place, size_t length, int allowed, int flags, int descriptor, long offset)
{
    return (void *)system_call(MMAP, (long)place, (long)length, allowed, flags, descriptor, offset);
}

int mprotect(void *place, size_t length, int allowed)
{
    return (int)system_call(MPROTECT, (long)place, (long)length, allowed, 0, 0, 0);
}

int munmap(void *place, size_t length)
{
    return (int)system_call(MUNMAP, (long)place, (long)length, 0, 0, 0, 0);
}
