/* Memory, and the end of a program. */
#ifndef STDLIB_H
#define STDLIB_H

#include <stddef.h>

void *malloc(size_t size);
void *calloc(size_t count, size_t size);
void free(void *place);
void exit(int status) __attribute__((noreturn));

#endif
