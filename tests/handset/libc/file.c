/* Files: those that are read, and the two that are printed to. */
#include "file.h"

#include "system.h"

#include <stdint.h>
#include <stdlib.h>

enum { IN_THIS_FOLDER = -100 };

static FILE output = {.descriptor = 1}, errors = {.descriptor = 2};
FILE *const stdout = &output;
FILE *const stderr = &errors;

FILE *fopen(const char *name, const char *mode)
{
    if (mode[0] != 'r') {
        return NULL;
    }
    long descriptor = system_call(OPENAT, IN_THIS_FOLDER, (long)name, 0, 0, 0, 0);
    FILE *file = descriptor < 0 ? NULL : calloc(1, sizeof *file);
    if (file != NULL) {
        file->descriptor = (int)descriptor;
    }
    return file;
}

int fclose(FILE *file)
{
    long failed = system_call(CLOSE, file->descriptor, 0, 0, 0, 0, 0);
    free(file);
    return (int)failed;
}

int fseek(FILE *file, long place, int from)
{
    return system_call(LSEEK, file->descriptor, place, from, 0, 0, 0) < 0 ? -1 : 0;
}

long ftell(FILE *file)
{
    return system_call(LSEEK, file->descriptor, 0, SEEK_CUR, 0, 0, 0);
}

void rewind(FILE *file)
{
    fseek(file, 0, SEEK_SET);
}

/* Read at once into their place; the answer is how many are whole. */
size_t fread(void *to, size_t size, size_t count, FILE *file)
{
    size_t whole = size * count, got = 0;
    while (got < whole) {
        long more = system_call(READ, file->descriptor, (long)((uint8_t *)to + got), (long)(whole - got), 0, 0, 0);
        if (more <= 0) {
            break;
        }
        got += (size_t)more;
    }
    return got == whole ? count : got / size;
}

int fflush(FILE *file)
{
    size_t done = 0;
    while (done < file->used) {
        long more = system_call(WRITE, file->descriptor, (long)(file->kept + done), (long)(file->used - done), 0, 0, 0);
        if (more < 0) {
            return EOF;
        }
        done += (size_t)more;
    }
    file->used = 0;
    return 0;
}

void put_byte(FILE *file, char byte)
{
    if (file->used == sizeof file->kept && fflush(file) != 0) {
        file->used = 0;
    }
    file->kept[file->used++] = byte;
    file->printed++;
}

void exit(int status)
{
    fflush(stdout);
    for (;;) {
        system_call(EXIT_GROUP, status, 0, 0, 0, 0, 0);
    }
}
