/* CPU ranges that touch and that overlap, in a file as long as may be: wherever their border lies, in any order, and 1,024 of them. */
#include "answers.h"
#include "check.h"
#include "dats.h"
#include "edges.h"

#include <stdlib.h>
#include <string.h>

/* The units of one word of the reader's map, in bytes; the first page's start behind any header of 1,024 CPUs. */
enum { WORD = 65536, MOST = 1024, BEHIND = 17408 };

typedef struct {
    uint64_t offset;
    uint64_t size;
} range;

/* A file of which only the header is written: no answer goes by the pages. */
typedef struct {
    uint8_t order;
    size_t entries;
    uint8_t *bytes;
} far_file;

static far_file opened(uint8_t order, uint32_t page, uint32_t cpus)
{
    made header = start(order, (fault){.page_size = page, .cpu_count = cpus});
    put(&header, "flyrecord", 10);
    far_file file = {order, header.length, unwritten(LIMIT)};
    memcpy(file.bytes, header.bytes, header.length);
    return file;
}

static void store(far_file *file, size_t cpu, range stored)
{
    uint8_t *at = file->bytes + file->entries + 16 * cpu;
    for (unsigned i = 0; i < 8; i++) {
        unsigned shift = 8 * (file->order ? 7 - i : i);
        at[i] = (uint8_t)(stored.offset >> shift);
        at[8 + i] = (uint8_t)(stored.size >> shift);
    }
}

static void judged(const far_file *file, size_t cpu, range stored, uint8_t refusal)
{
    uint64_t offset = refusal ? 0 : stored.offset;
    uint64_t size = refusal ? 0 : stored.size;
    about = stored.offset;
    CHECK(tfk_dat_read(file->bytes, LIMIT).refusal == refusal);
    CHECK(is_range(tfk_dat_cpu_range(file->bytes, LIMIT, cpu), refusal, offset, size));
}

/* Two ranges, either of them first. */
static void pair(far_file *file, range one, range other, uint8_t refusal)
{
    for (size_t first = 0; first < 2; first++) {
        store(file, first, one);
        store(file, 1 - first, other);
        judged(file, first, one, refusal);
    }
}

/* A range of `length` bytes up to the border and one from there on. */
static void at_border(far_file *file, uint32_t page, uint64_t border, uint64_t length)
{
    range behind = {border, LIMIT - border < length ? LIMIT - border : length};
    uint64_t from = border - length;
    pair(file, (range){from, length}, behind, 0);
    pair(file, (range){from, length - 1}, behind, 0);
    pair(file, (range){from, 1}, behind, 0);
    pair(file, (range){from, length + 1}, behind, TFK_RANGES_OVERLAP);
    pair(file, (range){from, length + behind.size}, behind, TFK_RANGES_OVERLAP);
    pair(file, (range){from, length}, (range){border - page, 1}, TFK_RANGES_OVERLAP);
    pair(file, (range){from, length}, (range){from, 1}, TFK_RANGES_OVERLAP);
    pair(file, (range){border, 1}, behind, TFK_RANGES_OVERLAP);
    pair(file, (range){border, 0}, behind, 0);
}

static void borders(uint8_t order, uint32_t page)
{
    static const uint64_t WORDS[] = {6, 7, 512, 1023};
    far_file file = opened(order, page, 2);
    begin("two ranges at every sort of border");
    for (size_t i = 0; i < sizeof WORDS / sizeof *WORDS; i++) {
        for (uint64_t length = page; length <= 4 * WORD; length *= 4) {
            at_border(&file, page, WORDS[i] * WORD, length);
            at_border(&file, page, WORDS[i] * WORD - page, length);
            at_border(&file, page, WORDS[i] * WORD + WORD - page, length + page > 4 * WORD ? length : length + page);
        }
    }
    free(file.bytes);
    end();
}

/* All of the file but the header is one CPU's, or all but its last page. */
static void whole_file(uint8_t order)
{
    far_file file = opened(order, PAGE, 2);
    range last = {LIMIT - PAGE, 1};
    begin("a range over all of the file");
    pair(&file, (range){BEHIND, LIMIT - BEHIND}, last, TFK_RANGES_OVERLAP);
    pair(&file, (range){BEHIND, LIMIT - BEHIND - PAGE + 1}, last, TFK_RANGES_OVERLAP);
    pair(&file, (range){BEHIND, LIMIT - BEHIND - PAGE}, last, 0);
    pair(&file, (range){BEHIND, LIMIT - BEHIND}, (range){LIMIT - PAGE, 0}, 0);
    for (uint64_t place = BEHIND; place < LIMIT; place += 1021 * PAGE) {
        pair(&file, (range){BEHIND, LIMIT - BEHIND}, (range){place, 1}, TFK_RANGES_OVERLAP);
    }
    free(file.bytes);
    end();
}

/* 1,024 CPUs of 63 units, CPU i in the area of i times the stride; and one of them a byte longer. */
static range area(size_t cpu, size_t stride)
{
    return (range){BEHIND + cpu * stride % MOST * 63 * PAGE, 63 * PAGE};
}

static void crowd(uint8_t order, size_t stride)
{
    far_file file = opened(order, PAGE, MOST);
    begin("1,024 ranges that touch, and one a byte longer");
    for (size_t cpu = 0; cpu < MOST; cpu++) {
        store(&file, cpu, area(cpu, stride));
    }
    judged(&file, MOST - 1, area(MOST - 1, stride), 0);
    for (size_t cpu = 0; cpu < MOST; cpu += cpu % 7 == 0 ? 73 : 1) {
        range longer = area(cpu, stride);
        longer.size++;
        store(&file, cpu, longer);
        judged(&file, cpu, longer, cpu * stride % MOST == MOST - 1 ? 0 : TFK_RANGES_OVERLAP);
        store(&file, cpu, (range){longer.offset + 1, 0});
        judged(&file, cpu, (range){longer.offset + 1, 0}, 0);
        store(&file, cpu, area(cpu, stride));
    }
    free(file.bytes);
    end();
}

void overlaps(void)
{
    for (uint8_t order = 0; order < 2; order++) {
        for (uint32_t page = 1024; page <= 65536; page *= 2) {
            borders(order, page);
        }
        whole_file(order);
        crowd(order, 1);
        crowd(order, 421);
        crowd(order, MOST - 1);
    }
}
