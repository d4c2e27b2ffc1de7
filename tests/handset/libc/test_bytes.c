/* Copying, filling and comparing at every alignment, from the start and up to the end of a page between two forbidden ones. */
#include "test.h"

#include "check.h"

#include <string.h>
#include <sys/mman.h>

enum { PAGE = 4096, ALIGNMENTS = 8, PLACES = 2 * ALIGNMENTS, LENGTHS = 34 };

/* Byte i of a page before anything is written. */
static uint8_t original(size_t i)
{
    return (uint8_t)(i * 7 + (i >> 8));
}

static uint8_t *page_alone(void)
{
    uint8_t *pages = mmap(NULL, 3 * PAGE, PROT_NONE, MAP_PRIVATE | MAP_ANONYMOUS, -1, 0), *page = pages + PAGE;
    CHECK(pages != MAP_FAILED && mprotect(page, PAGE, PROT_READ | PROT_WRITE) == 0);
    CHECK(forbidden(page - 1) && !forbidden(page) && forbidden(page + PAGE));
    for (size_t i = 0; i < PAGE; i++) {
        page[i] = original(i);
    }
    return page;
}

/* Place i for so many bytes: from the page's start on, then up to its end. */
static size_t place(size_t i, size_t length)
{
    return i < ALIGNMENTS ? i : PAGE - length - (i - ALIGNMENTS);
}

/* Whether a page has at `to` what stood at `from`, and around it what it had. From then on it has that everywhere. */
static int has(uint8_t *page, size_t to, size_t from, size_t length)
{
    size_t around = 16, right = 1;
    for (size_t i = to < around ? 0 : to - around; i < PAGE && i < to + length + around; i++) {
        right &= page[i] == original(i - to < length ? i - to + from : i);
        page[i] = original(i);
    }
    return (int)right;
}

/* Whether a byte that differs is found wherever it is, and not where it is behind the end. */
static int differ(uint8_t *first, const uint8_t *second, size_t length)
{
    int right = memcmp(first, second, length) == 0;
    for (size_t i = 0; i < length; i++) {
        first[i] ^= 0x80;
        int answer = memcmp(first, second, length);
        right &= first[i] > second[i] ? answer > 0 : answer < 0;
        right &= memcmp(first, second, i) == 0;
        first[i] ^= 0x80;
    }
    return right;
}

static void at_places(uint8_t *page, uint8_t *other, size_t to, size_t from, size_t length)
{
    CHECK(memmove(page + to, page + from, length) == page + to && has(page, to, from, length));
    CHECK(memcpy(page + to, other + from, length) == page + to && differ(page + to, other + from, length));
    CHECK(has(page, to, from, length));
    CHECK(memset(page + to, 0x700 + PATTERN, length) == page + to);
    for (size_t i = 0; i < length; i++) {
        CHECK(page[to + i] == PATTERN);
        page[to + i] = original(to + i);
    }
    CHECK(has(page, to, to, length));
}

void bytes(void)
{
    begin("bytes at every alignment between forbidden pages");
    uint8_t *page = page_alone(), *other = page_alone();
    for (size_t length = 0; length < LENGTHS; length++) {
        about = length;
        for (size_t i = 0; i < PLACES * PLACES; i++) {
            at_places(page, other, place(i / PLACES, length), place(i % PLACES, length), length);
        }
    }
    CHECK(munmap(page - PAGE, 3 * PAGE) == 0 && forbidden(page) && munmap(other - PAGE, 3 * PAGE) == 0);
    end();
}
