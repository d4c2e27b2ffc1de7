/*
 * Bytes in memory. The tests have files of 64 MiB, so these go by words of 8 bytes where both places are aligned alike, and
 * byte by byte where they are not. Nothing outside the given bytes is touched: the next page may be forbidden.
 */
#include <stdint.h>
#include <string.h>

typedef uint64_t __attribute__((may_alias)) word;

enum { WORD = sizeof(word) };

/* How many bytes lie in front of the first whole word, at most `size`. */
static size_t unaligned(const void *place, size_t size)
{
    size_t count = -(uintptr_t)place % WORD;
    return count < size ? count : size;
}

static int alike(const void *first, const void *second)
{
    return ((uintptr_t)first - (uintptr_t)second) % WORD == 0;
}

static void copy_up(uint8_t *to, const uint8_t *from, size_t size)
{
    size_t i = 0, head = unaligned(to, size);
    if (alike(to, from)) {
        for (; i < head; i++) {
            to[i] = from[i];
        }
        for (; size - i >= WORD; i += WORD) {
            *(word *)(to + i) = *(const word *)(from + i);
        }
    }
    for (; i < size; i++) {
        to[i] = from[i];
    }
}

static void copy_down(uint8_t *to, const uint8_t *from, size_t size)
{
    size_t head = unaligned(to, size);
    if (alike(to, from)) {
        for (; (size - head) % WORD != 0; size--) {
            to[size - 1] = from[size - 1];
        }
        for (; size > head; size -= WORD) {
            *(word *)(to + size - WORD) = *(const word *)(from + size - WORD);
        }
    }
    for (; size > 0; size--) {
        to[size - 1] = from[size - 1];
    }
}

void *memcpy(void *to, const void *from, size_t size)
{
    copy_up(to, from, size);
    return to;
}

/* From the end, where the other way would write over what is still to be read. */
void *memmove(void *to, const void *from, size_t size)
{
    if ((uintptr_t)to - (uintptr_t)from < size) {
        copy_down(to, from, size);
    } else {
        copy_up(to, from, size);
    }
    return to;
}

void *memset(void *to, int byte, size_t size)
{
    uint8_t *bytes = to;
    size_t i = 0, head = unaligned(to, size);
    word eight = (uint8_t)byte;
    eight |= eight << 8;
    eight |= eight << 16;
    eight |= eight << 32;
    for (; i < head; i++) {
        bytes[i] = (uint8_t)byte;
    }
    for (; size - i >= WORD; i += WORD) {
        *(word *)(bytes + i) = eight;
    }
    for (; i < size; i++) {
        bytes[i] = (uint8_t)byte;
    }
    return to;
}

/* Words are passed over as long as they are the same; the bytes of the first other one tell. */
int memcmp(const void *first, const void *second, size_t size)
{
    const uint8_t *a = first, *b = second;
    size_t i = 0, head = unaligned(a, size);
    if (alike(a, b)) {
        for (; i < head && a[i] == b[i]; i++) {
        }
        for (; i >= head && size - i >= WORD && *(const word *)(a + i) == *(const word *)(b + i); i += WORD) {
        }
    }
    for (; i < size; i++) {
        if (a[i] != b[i]) {
            return a[i] - b[i];
        }
    }
    return 0;
}

void *memchr(const void *bytes, int byte, size_t size)
{
    const uint8_t *next = bytes;
    for (; size > 0; size--, next++) {
        if (*next == (uint8_t)byte) {
            return (void *)next;
        }
    }
    return NULL;
}
