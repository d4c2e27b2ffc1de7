/*
 * Prints every answer about the files of a collection (tests/rust/examples/made.rs says how it is written), for the same
 * text to come from every processor. A file has an allocation of exactly its length, and so has each output. Each file is
 * asked about as a trace with every settings, alone and with the file before it, and as a trace.dat file.
 *
 *     answers COLLECTION
 */
#include "check.h"
#include "settings.h"
#include "tell.h"

#include <stdio.h>
#include <stdlib.h>

static asked current, before;

static void tell_with(tfk_settings settings)
{
    current.settings = before.settings = settings;
    tell_trace(current);
    tell_pair(current, current);
    tell_pair(before, current);
}

static void tell_file(size_t number)
{
    printf("== file %zu, %zu bytes\n", number, current.length);
    with_all_settings(tell_with);
    tell_with(settings_of(2, SIXTEEN));
    tell_with(settings_of(0, 0));
    tell_dat(current.file, current.length);
}

/* The next file's length; 0 at the collection's end, and `more` says whether there is a file. */
static size_t next_length(FILE *stream, int *more)
{
    uint8_t bytes[4];
    *more = fread(bytes, 1, sizeof bytes, stream) == sizeof bytes;
    return *more ? bytes[0] | (size_t)bytes[1] << 8 | (size_t)bytes[2] << 16 | (size_t)bytes[3] << 24 : 0;
}

static void read_next(FILE *stream, size_t length)
{
    free(before.file);
    before = current;
    current.file = unwritten(length);
    current.length = length;
    if (fread(current.file, 1, length, stream) != length) {
        printf("the collection ends within a file\n");
        exit(2);
    }
}

int main(int argc, char **argv)
{
    FILE *stream = argc == 2 ? fopen(argv[1], "rb") : NULL;
    if (stream == NULL) {
        fprintf(stderr, "usage: %s COLLECTION\n", argv[0]);
        return 2;
    }
    int more;
    size_t length = next_length(stream, &more), number = 0;
    before.file = unwritten(0);
    current.file = unwritten(0);
    for (; more; length = next_length(stream, &more)) {
        read_next(stream, length);
        tell_file(number++);
    }
    fclose(stream);
    printf("%zu files\n", number);
    return 0;
}
