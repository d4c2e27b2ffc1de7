/*
 * The number of frames by several libraries in turn, on the same files: compare LENGTH ROUNDS BEFORE.so.. AFTER.so..
 * The first half of the libraries is one archive at several placements of its code, the second half another at the same placements.
 * Of each library the least time of all rounds counts, of an archive the mean of its placements.
 */
#define _POSIX_C_SOURCE 200809L
#include <dlfcn.h>
#include <stdio.h>
#include <stdlib.h>
#include <string.h>
#include <time.h>

#include "tufakpeni.h"

typedef tfk_count frame_count(tfk_settings settings, const uint8_t *file, size_t file_length);

typedef struct {
    frame_count *call;
    double best;
} library;

/* What each frame holds: registers where `registers` is true, then so many blocks, the letters of `blocks` in turn. `size` is that of the R line, -1
 * where there is none. With `spread` the number of blocks differs from frame to frame by at most so many. */
typedef struct {
    const char *label;
    int size;
    int registers;
    const char *blocks;
    int count;
    int spread;
} kind;

static const kind KINDS[] = {
    {"a variable (19 bytes)", 776, 0, "V", 1, 0},
    {"four memory blocks of 16 (114 bytes)", 776, 0, "L", 4, 0},
    {"registers of 776, a variable (796 bytes)", 776, 1, "V", 1, 0},
    {"registers of 2, a variable", 2, 1, "V", 1, 0},
    {"registers of 2, 4 memory blocks of 4", 2, 1, "M", 4, 0},
    {"registers of 2, 8 memory blocks of 4", 2, 1, "M", 8, 0},
    {"registers of 2, 16 memory blocks of 4", 2, 1, "M", 16, 0},
    {"registers of 2, 60 memory blocks of 4", 2, 1, "M", 60, 0},
    {"registers of 2, 120 memory blocks of 4", 2, 1, "M", 120, 0},
    {"registers of 2, 20 to 100 memory blocks of 4", 2, 1, "M", 60, 40},
    {"registers of 2, 8 variables", 2, 1, "V", 8, 0},
    {"registers of 2, 60 variables", 2, 1, "V", 60, 0},
    {"registers of 2, 20 to 100 variables", 2, 1, "V", 60, 40},
    {"registers of 2, 30 times memory and a variable", 2, 1, "MV", 60, 0},
    {"60 memory blocks of 4, R line", 776, 0, "M", 60, 0},
    {"60 variables, R line", 776, 0, "V", 60, 0},
    {"a variable (19 bytes), no R line", -1, 0, "V", 1, 0},
    {"four memory blocks of 16, no R line", -1, 0, "L", 4, 0},
    {"60 memory blocks of 4, no R line", -1, 0, "M", 60, 0},
    {"60 variables, no R line", -1, 0, "V", 60, 0},
};

typedef struct {
    uint8_t *bytes;
    size_t length;
    int big;
} trace;

static void put(trace *t, uint64_t n, int width)
{
    for (int i = 0; i < width; i++) {
        t->bytes[t->length++] = (uint8_t)(n >> 8 * (t->big ? width - 1 - i : i));
    }
}

static void fill(trace *t, int byte, size_t count)
{
    memset(t->bytes + t->length, byte, count);
    t->length += count;
}

/* `M` has 4 bytes and `L` 16. Memory bytes look like the letter of registers, register bytes like that of memory. */
static void put_block(trace *t, char letter)
{
    size_t bytes = letter == 'L' ? 16 : 4;
    put(t, letter == 'V' ? 'V' : 'M', 1);
    put(t, 1, letter == 'V' ? 4 : 8);
    put(t, letter == 'V' ? UINT64_MAX : bytes, letter == 'V' ? 8 : 2);
    fill(t, 'R', letter == 'V' ? 0 : bytes);
}

static void put_frame(trace *t, const kind *k, int number, int count)
{
    size_t start = t->length;
    put(t, (uint64_t)number, 2);
    put(t, 0, 4);
    if (k->registers) {
        put(t, 'R', 1);
        fill(t, 'M', (size_t)k->size);
    }
    for (int i = 0; i < count; i++) {
        put_block(t, k->blocks[(size_t)i % strlen(k->blocks)]);
    }
    size_t end = t->length;
    t->length = start + 2;
    put(t, end - start - 6, 4);
    t->length = end;
}

/* As many frames as are sure to fit. */
static void make(trace *t, const kind *k, size_t length)
{
    unsigned drawn = 7;
    t->length = 0;
    t->length += (size_t)sprintf((char *)t->bytes, "\177TRACE0\n");
    if (k->size >= 0) {
        t->length += (size_t)sprintf((char *)t->bytes + t->length, "R %x\n", (unsigned)k->size);
    }
    put(t, '\n', 1);
    size_t most = 7 + (size_t)(k->registers ? k->size : 0) + 27 * (size_t)(k->count + k->spread);
    for (int n = 0; t->length + most <= length; n++) {
        drawn = drawn * 1103515245 + 12345;
        put_frame(t, k, n % 8 + 1, k->count - k->spread + (int)((drawn >> 16) % (2 * (unsigned)k->spread + 1)));
    }
}

static double now(void)
{
    struct timespec t;
    clock_gettime(CLOCK_MONOTONIC, &t);
    return (double)t.tv_sec * 1e3 + (double)t.tv_nsec / 1e6;
}

/* The least time of each library; the first round is not counted. They must count alike. */
static void measure(library *libraries, int count, const trace *t, int rounds)
{
    tfk_settings settings = {(uint8_t)t->big, 16};
    size_t frames = 0;
    for (int r = 0; r <= rounds; r++) {
        for (int i = 0; i < count; i++) {
            double start = now();
            tfk_count answer = libraries[i].call(settings, t->bytes, t->length);
            double taken = now() - start;
            if (answer.refusal != 0 || answer.count == 0 || (frames != 0 && answer.count != frames)) {
                fprintf(stderr, "library %d: refused %d, %zu frames\n", i, answer.refusal, answer.count);
                exit(1);
            }
            frames = answer.count;
            if (r == 1 || (r > 1 && taken < libraries[i].best)) {
                libraries[i].best = taken;
            }
        }
    }
}

static double mean(const library *libraries, int count)
{
    double sum = 0;
    for (int i = 0; i < count; i++) {
        sum += libraries[i].best;
    }
    return sum / count;
}

static library opened(const char *path)
{
    void *handle = dlopen(path, RTLD_NOW);
    void *symbol = handle ? dlsym(handle, "tfk_frame_count") : NULL;
    library found = {NULL, 0};
    if (symbol == NULL) {
        fprintf(stderr, "%s\n", dlerror());
        exit(2);
    }
    memcpy(&found.call, &symbol, sizeof symbol);
    return found;
}

int main(int argc, char **argv)
{
    library libraries[32];
    int count = argc - 3;
    size_t length = argc > 1 ? strtoul(argv[1], NULL, 10) : 0;
    trace t = {length < 10000 ? NULL : malloc(length), 0, 0};
    if (t.bytes == NULL || count < 2 || count > 32 || count % 2 != 0) {
        fprintf(stderr, "compare LENGTH ROUNDS BEFORE.so.. AFTER.so.., the length at least 10000\n");
        return 2;
    }
    for (int i = 0; i < count; i++) {
        libraries[i] = opened(argv[3 + i]);
    }
    printf("| frames, %zu bytes | order | before, ms | after, ms | after to before |\n|---|---|---:|---:|---:|\n", length);
    for (size_t k = 0; k < sizeof KINDS / sizeof *KINDS; k++) {
        for (t.big = 0; t.big < 2; t.big++) {
            make(&t, &KINDS[k], length);
            measure(libraries, count, &t, atoi(argv[2]));
            double before = mean(libraries, count / 2), after = mean(libraries + count / 2, count / 2);
            printf("| %s | %s | %.4f | %.4f | %.3f |\n", KINDS[k].label, t.big ? "big" : "little", before, after, after / before);
            fflush(stdout);
        }
    }
    free(t.bytes);
    return 0;
}
