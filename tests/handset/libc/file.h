/* What a file is. */
#ifndef FILE_H
#define FILE_H

#include <stdio.h>

/* How many bytes were printed to it in all, and those that are not written yet. A file that is read keeps nothing. */
struct file {
    int descriptor;
    int printed;
    size_t used;
    char kept[4096];
};

void put_byte(FILE *file, char byte);

#endif
