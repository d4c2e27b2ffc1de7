#include "check.h"

#include <stdio.h>
#include <stdlib.h>
#include <string.h>

size_t about;

static const char *current;
static int faults;
static int passed;
static int failed;

void begin(const char *name)
{
    current = name;
    faults = 0;
    about = 0;
}

void end(void)
{
    if (faults == 0) {
        passed++;
    } else {
        failed++;
        printf("FAILED: %s, %d checks\n", current, faults);
    }
}

int report(void)
{
    printf("%d passed, %d failed\n", passed, failed);
    return failed == 0 ? 0 : 1;
}

void check(int holds, const char *what, const char *source, int line)
{
    if (!holds) {
        faults++;
        printf("%s:%d: %s (%zu): not so: %s\n", source, line, current, about, what);
    }
}

void *unwritten(size_t size)
{
    void *bytes = malloc(size);
    if (bytes == NULL) {
        printf("no memory for %zu bytes\n", size);
        exit(2);
    }
    return bytes;
}

uint8_t *exactly(const uint8_t *bytes, size_t length)
{
    return memcpy(unwritten(length), bytes, length);
}

void *patterned(size_t size)
{
    return memset(unwritten(size), PATTERN, size);
}

int all_pattern(const void *bytes, size_t size)
{
    const uint8_t *from = bytes;
    return size == 0 || (from[0] == PATTERN && memcmp(from, from + 1, size - 1) == 0);
}

void put(made *file, const char *bytes, size_t length)
{
    if (length > sizeof file->bytes - file->length) {
        printf("%s is longer than its room\n", current);
        exit(2);
    }
    memcpy(file->bytes + file->length, bytes, length);
    file->length += length;
}

void put_number(made *file, uint64_t value, size_t width)
{
    char bytes[8];
    for (size_t i = 0; i < width; i++) {
        bytes[file->order ? width - 1 - i : i] = (char)(value >> (8 * i));
    }
    put(file, bytes, width);
}

void fill_to(made *file, size_t length)
{
    while (file->length < length) {
        PUT(file, "\0");
    }
}
