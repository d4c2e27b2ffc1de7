/* Files that are read, and what is printed. */
#ifndef STDIO_H
#define STDIO_H

#include <stddef.h>

#define SEEK_SET 0
#define SEEK_CUR 1
#define SEEK_END 2
#define EOF (-1)

typedef struct file FILE;
extern FILE *const stdout;
extern FILE *const stderr;

FILE *fopen(const char *name, const char *mode);
int fclose(FILE *file);
int fseek(FILE *file, long place, int from);
long ftell(FILE *file);
void rewind(FILE *file);
size_t fread(void *to, size_t size, size_t count, FILE *file);
int fflush(FILE *file);

int printf(const char *form, ...) __attribute__((format(printf, 1, 2)));
int fprintf(FILE *file, const char *form, ...) __attribute__((format(printf, 2, 3)));
void perror(const char *what);

#endif
