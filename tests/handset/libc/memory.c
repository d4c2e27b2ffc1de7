/*
 * Every allocation has pages of its own between two that may not be touched, and ends exactly where the second begins: one byte
 * too far is at fault. Where the library is built with AT_FRONT it starts exactly where the first ends instead: then one byte too
 * early is. Nothing is rounded up, so that a place is aligned as far as its size is; an object that fills it needs no more.
 * The size of the whole stands in a page in front of all. What is given back may not be touched either.
 */
#include <stdint.h>
#include <stdlib.h>
#include <sys/mman.h>

#ifndef AT_FRONT
#define AT_FRONT 0
#endif

enum { PAGE = 4096, BEFORE = 2 * PAGE };

static int allowed(uint8_t *pages, size_t length)
{
    return length == 0 || mprotect(pages, length, PROT_READ | PROT_WRITE) == 0;
}

void *malloc(size_t size)
{
    if (size > SIZE_MAX - 4 * PAGE) {
        return NULL;
    }
    size_t body = (size + PAGE - 1) & -(size_t)PAGE, whole = BEFORE + body + PAGE;
    uint8_t *pages = mmap(NULL, whole, PROT_NONE, MAP_PRIVATE | MAP_ANONYMOUS, -1, 0);
    if (pages == MAP_FAILED || !allowed(pages, PAGE) || !allowed(pages + BEFORE, body)) {
        return NULL;
    }
    *(size_t *)(void *)pages = whole;
    return pages + BEFORE + (AT_FRONT ? 0 : body - size);
}

/* New pages are all zeros. */
void *calloc(size_t count, size_t size)
{
    return size != 0 && count > SIZE_MAX / size ? NULL : malloc(count * size);
}

/* A place is always in the page behind the first forbidden one. */
void free(void *place)
{
    if (place != NULL) {
        size_t *pages = (size_t *)(((uintptr_t)place & -(uintptr_t)PAGE) - BEFORE);
        munmap(pages, *pages);
    }
}
