/* What the C tests need of this library. It is called with the name of the file that it prints to, and reads that back. */
#include "test.h"

#include "check.h"

#include <ctype.h>
#include <inttypes.h>
#include <setjmp.h>
#include <signal.h>
#include <stdio.h>
#include <stdlib.h>
#include <string.h>

static sigjmp_buf before_the_access;

static void at_fault(int signal)
{
    siglongjmp(before_the_access, signal);
}

static int read_faults(volatile uint8_t *place)
{
    if (sigsetjmp(before_the_access, 1) != 0) {
        return 1;
    }
    (void)*place;
    return 0;
}

/* A fault elsewhere must end the run. */
int forbidden(volatile uint8_t *place)
{
    CHECK(signal(SIGSEGV, at_fault) == SIG_DFL);
    int faults = read_faults(place);
    CHECK(signal(SIGSEGV, SIG_DFL) == at_fault);
    return faults;
}

/* Whether a block lies close to the forbidden page that it is to lie close to, and no other byte of it is forbidden. */
static int at_edge(uint8_t *block, size_t size)
{
#ifdef AT_FRONT
    return forbidden(block - 1) && (size == 0 || !forbidden(block + size - 1));
#else
    return forbidden(block + size) && (size == 0 || !forbidden(block));
#endif
}

static void allocation(size_t size)
{
    uint8_t *block = malloc(size), *zeros = calloc(size, 1);
    size_t aligned = size % 16 == 0 ? 16 : size & -size;
    CHECK(block != NULL && zeros != NULL && block != zeros);
    CHECK((uintptr_t)block % aligned == 0 && at_edge(block, size) && at_edge(zeros, size));
    for (size_t i = 0; i < size; i++) {
        CHECK(zeros[i] == 0);
        block[i] = PATTERN;
    }
    CHECK(all_pattern(block, size));
    free(block);
    CHECK(forbidden(block) && forbidden(block + size) && forbidden(zeros) == (size == 0));
    free(zeros);
}

static void allocations(void)
{
    static const size_t SIZES[] = {0, 1, 2, 3, 7, 8, 12, 16, 24, 776, 4095, 4096, 4097, 100000};
    begin("allocations end at a forbidden page");
    for (size_t i = 0; i < sizeof SIZES / sizeof *SIZES; i++) {
        about = SIZES[i];
        allocation(about);
    }
    free(NULL);
    CHECK(malloc(SIZE_MAX) == NULL && malloc(SIZE_MAX / 2) == NULL);
    CHECK(calloc(SIZE_MAX / 8 + 2, 8) == NULL && calloc(8, SIZE_MAX / 8 + 2) == NULL);
    end();
}

static void texts(void)
{
    const char *path = "a/b/c";
    begin("texts and letters");
    CHECK(strlen("") == 0 && strlen(path) == 5 && memchr(path, 'b', 2) == NULL && memchr(path, 0x700 + 'b', 3) == path + 2);
    CHECK(strrchr(path, '/') == path + 3 && strrchr(path, 0) == path + 5 && strrchr(path, 'd') == NULL);
    CHECK(strcmp(path, "a/b/c") == 0 && strcmp("a", path) < 0 && strcmp("b", path) > 0 && strcmp("\x80", path) > 0);
    CHECK(toupper('z') == 'Z' && toupper('Z') == 'Z' && toupper('{') == '{' && islower('a') && !islower('`'));
    end();
}

static void arithmetic(void)
{
    volatile uint64_t none = 0, seven = 7, half = (uint64_t)1 << 63, most = UINT64_MAX;
    begin("multiplication and division");
    CHECK(most / seven == 2635249153387078802 && most % seven == 1 && most * seven == most - 6 && (seven + 7) / seven == 2);
    CHECK(seven / most == 0 && seven % most == 7 && none / seven == 0 && none % seven == 0 && none * seven == 0);
    CHECK(most / half == 1 && most % half == half - 1 && half / half == 1 && half / most == 0 && half * half == 0);
    end();
}

/* The first of what is printed, so that it starts the file. Its end is wide, so that more is printed than is kept. */
static void printing(const char *name)
{
    static const char EXPECTED[] = "text c %|  right|  x|-1 4294967295 beef|  -7|-07|0042|0a|12345|0 0|"
                                   "18446744073709551615 100 -9223372036854775808 20304050607080f0|9 -9 f|";
    static char found[8192];
    int count = printf("%s %c %%|%7s|%3c|%d %u %x|%4d|%03d|%04u|%02x|%3d|%d %x|", "text", 'c', "right", 'x', -1, UINT32_MAX,
                       0xBEEFu, -7, -7, 42u, 10u, 12345, 0, 0u);
    count += printf("%llu %zu %" PRId64 " %" PRIx64 "|%" PRIu32 " %" PRId32 " %" PRIx32 "|%5000s\n", (unsigned long long)UINT64_MAX,
                    (size_t)100, INT64_MIN, (uint64_t)0x20304050607080F0, (uint32_t)9, (int32_t)-9, (uint32_t)15, "end");
    begin("what is printed, and read again");
    CHECK(fflush(stdout) == 0 && fflush(stdout) == 0 && count == sizeof EXPECTED + 5000 && fopen("no such file", "rb") == NULL);
    FILE *file = fopen(name, "rb");
    CHECK(file != NULL && fseek(file, -1, SEEK_END) == 0 && ftell(file) == count - 1);
    rewind(file);
    CHECK(fread(found, 4, 1, file) == 1 && ftell(file) == 4);
    CHECK(fread(found + 4, 4, 2000, file) == (size_t)(count - 4) / 4);
    CHECK(memcmp(found, EXPECTED, sizeof EXPECTED - 1) == 0 && memcmp(found + count - 5, " end\n", 5) == 0 && fclose(file) == 0);
    end();
}

int main(int argc, char **argv)
{
    printing(argv[argc - 1]);
    allocations();
    bytes();
    texts();
    arithmetic();
    return report();
}
