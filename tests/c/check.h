/* Cases that are counted, and bytes that stand at the end of their allocation. */
#ifndef CHECK_H
#define CHECK_H

#include <stddef.h>
#include <stdint.h>

enum { LIMIT = 67108864, MARK = 4, PATTERN = 0xA5 };

/* A case passes where all its checks hold. `about` is the number that a failed check prints, a file's length mostly. */
extern size_t about;
void begin(const char *name);
void end(void);
int report(void);
void check(int holds, const char *what, const char *source, int line);
#define CHECK(holds) check((holds), #holds, __FILE__, __LINE__)

/* Bytes in an allocation of exactly their number: one byte too far is past its end, which valgrind sees. */
uint8_t *exactly(const uint8_t *bytes, size_t length);

/* Room of exactly this size, in which nothing is written yet: valgrind sees an answer that goes by such a byte. */
void *unwritten(size_t size);

/* Room of exactly this size, filled with the pattern; and whether bytes are all the pattern. */
void *patterned(size_t size);
int all_pattern(const void *bytes, size_t size);

/* Bytes under construction, in one byte order (0 little, 1 big). */
typedef struct {
    uint8_t order;
    size_t length;
    uint8_t bytes[4096];
} made;
void put(made *file, const char *bytes, size_t length);
void put_number(made *file, uint64_t value, size_t width);
/* Zeros up to this length. */
void fill_to(made *file, size_t length);
/* A string's bytes without the closing NUL. */
#define PUT(file, text) put((file), (text), sizeof(text) - 1)

#endif
