/* trace.dat headers: each at every length, and faults at every place where document 01 names one. */
#include "answers.h"
#include "check.h"
#include "dats.h"
#include "edges.h"

#include <stdlib.h>
#include <string.h>

enum { SMALLEST = 97, LATENCY_END = 97 };

/* Any file of this length is refused so, by both calls and with all else 0. */
static void refused(const made *file, size_t length, uint8_t refusal)
{
    tfk_dat_summary expected;
    uint8_t *bytes = exactly(file->bytes, length);
    tfk_dat_summary answer = tfk_dat_read(bytes, length);
    memset(&expected, 0, sizeof expected);
    expected.refusal = refusal;
    about = length;
    CHECK(same_summary(&answer, &expected));
    CHECK(is_range(tfk_dat_cpu_range(bytes, length, 0), refusal, 0, 0));
    CHECK(is_range(tfk_dat_cpu_range(bytes, length, SIZE_MAX), refusal, 0, 0));
    free(bytes);
}

static void refused_between(const made *file, size_t from, size_t to, uint8_t refusal)
{
    for (size_t length = from; length < to; length++) {
        refused(file, length, refusal);
    }
}

/* Cut short below `from` is 14; from there to the file's end it is refused so. */
static void faulty(const char *name, const made *file, size_t from, uint8_t refusal)
{
    begin(name);
    refused_between(file, 0, from, TFK_FIELD_PAST_FILE);
    refused_between(file, from, file->length + 1, refusal);
    end();
}

static void accepted(const made *file, size_t length, const tfk_dat_summary *expected)
{
    uint8_t *bytes = exactly(file->bytes, length);
    tfk_dat_summary answer = tfk_dat_read(bytes, length);
    about = length;
    CHECK(same_summary(&answer, expected));
    CHECK(is_range(tfk_dat_cpu_range(bytes, length, expected->cpu_count), TFK_NOT_FOUND, 0, 0));
    CHECK(is_range(tfk_dat_cpu_range(bytes, length, SIZE_MAX), TFK_NOT_FOUND, 0, 0));
    free(bytes);
}

/* The summary of a header whose sections are all empty. */
static tfk_dat_summary empty_summary(uint8_t order, uint8_t ending)
{
    return (tfk_dat_summary){
        .order = order, .long_size = 8, .ending = ending, .page_size = PAGE, .header_page = {38, 0},
        .header_event = {59, 0}, .formats = {63, 0}, .systems = {67, 0}, .kallsyms = {71, 0}, .printk = {75, 0},
        .processes = {83, 0}, .options = {0, 0}, .body = {97, 0},
    };
}

static void smallest(uint8_t order)
{
    made file = start(order, (fault){0});
    tfk_dat_summary expected = empty_summary(order, TFK_ENDING_FLYRECORD);
    put(&file, "flyrecord", 10);
    PUT(&file, "clock");
    begin("97 bytes");
    refused_between(&file, 0, SMALLEST, TFK_FIELD_PAST_FILE);
    for (size_t length = SMALLEST; length <= file.length; length++) {
        accepted(&file, length, &expected);
    }
    end();
}

static void latency(uint8_t order)
{
    made file = start(order, (fault){.cpu_count = 2});
    tfk_dat_summary expected = empty_summary(order, TFK_ENDING_LATENCY);
    put(&file, "latency  ", 10);
    PUT(&file, "text");
    begin("a latency file");
    expected.cpu_count = 2;
    refused_between(&file, 0, LATENCY_END, TFK_FIELD_PAST_FILE);
    for (size_t length = LATENCY_END; length <= file.length; length++) {
        uint8_t *bytes = exactly(file.bytes, length);
        expected.body.size = length - LATENCY_END;
        accepted(&file, length, &expected);
        CHECK(is_range(tfk_dat_cpu_range(bytes, length, 0), TFK_NOT_FOUND, 0, 0));
        free(bytes);
    }
    end();
}

/* CPU 0 has three bytes of a page, CPU 1 nothing: its offset is not looked at. */
static void every_section(uint8_t order)
{
    tfk_dat_summary expected = full_summary(order);
    made file = full_header(order);
    begin("every section");
    put_number(&file, PAGE, 8);
    put_number(&file, 3, 8);
    put_number(&file, UINT64_MAX, 8);
    put_number(&file, 0, 8);
    refused_between(&file, 0, file.length, TFK_FIELD_PAST_FILE);
    size_t header = file.length;
    fill_to(&file, PAGE + 3);
    refused_between(&file, header, PAGE + 3, TFK_BAD_RANGE);
    accepted(&file, PAGE + 3, &expected);
    uint8_t *bytes = exactly(file.bytes, file.length);
    CHECK(is_range(tfk_dat_cpu_range(bytes, file.length, 0), 0, PAGE, 3));
    CHECK(is_range(tfk_dat_cpu_range(bytes, file.length, 1), 0, UINT64_MAX, 0));
    free(bytes);
    end();
}

/* Two CPUs with these ranges in a file of three pages. */
static void ranges(const char *name, const uint64_t stored[4], uint8_t refusal)
{
    made file = full_header(0);
    for (size_t i = 0; i < 4; i++) {
        put_number(&file, stored[i], 8);
    }
    fill_to(&file, 3 * PAGE);
    begin(name);
    if (refusal != 0) {
        refused(&file, file.length, refusal);
    } else {
        uint8_t *bytes = exactly(file.bytes, file.length);
        CHECK(tfk_dat_read(bytes, file.length).refusal == 0);
        CHECK(is_range(tfk_dat_cpu_range(bytes, file.length, 0), 0, stored[0], stored[1]));
        CHECK(is_range(tfk_dat_cpu_range(bytes, file.length, 1), 0, stored[2], stored[3]));
        free(bytes);
    }
    end();
}

static void every_range(void)
{
    static const struct {
        const char *name;
        uint64_t stored[4];
        uint8_t refusal;
    } CASES[] = {
        {"a range up to the file's end", {PAGE, 2 * PAGE, 0, 0}, 0},
        {"a range past the file's end", {PAGE, 2 * PAGE + 1, 0, 0}, TFK_BAD_RANGE},
        {"a range whose end is past 2^64", {UINT64_MAX - PAGE + 1, 2 * PAGE, 0, 0}, TFK_BAD_RANGE},
        {"a range that is not aligned", {PAGE + 1, 1, 0, 0}, TFK_BAD_RANGE},
        {"a range before the header's end", {0, 1, 0, 0}, TFK_BAD_RANGE},
        {"two ranges that touch", {2 * PAGE, PAGE, PAGE, PAGE}, 0},
        {"two ranges with a byte in common", {2 * PAGE, PAGE, PAGE, PAGE + 1}, TFK_RANGES_OVERLAP},
        {"the same range twice", {PAGE, 1, PAGE, 1}, TFK_RANGES_OVERLAP},
        {"a range and one of nothing", {PAGE, 1, PAGE, 0}, 0},
        {"16 ahead of 17", {PAGE, 1, PAGE, UINT64_MAX}, TFK_BAD_RANGE},
        {"the largest numbers", {UINT64_MAX, UINT64_MAX, 0, 0}, TFK_BAD_RANGE},
    };
    for (size_t i = 0; i < sizeof CASES / sizeof *CASES; i++) {
        ranges(CASES[i].name, CASES[i].stored, CASES[i].refusal);
    }
}

/* A file of one CPU, of which only the header is written: no answer goes by the pages. */
typedef struct {
    uint8_t order;
    uint32_t page;
    size_t length;
    uint8_t *bytes;
} paged;

static void one_range(const paged *file, uint64_t offset, uint64_t size, uint8_t refusal)
{
    made header = start(file->order, (fault){.page_size = file->page, .cpu_count = 1});
    put(&header, "flyrecord", 10);
    put_number(&header, offset, 8);
    put_number(&header, size, 8);
    memcpy(file->bytes, header.bytes, header.length);
    tfk_dat_summary answer = tfk_dat_read(file->bytes, file->length);
    about = offset;
    CHECK(answer.refusal == refusal && answer.page_size == (refusal ? 0 : file->page));
    CHECK(is_range(tfk_dat_cpu_range(file->bytes, file->length, 0), refusal, refusal ? 0 : offset, refusal ? 0 : size));
}

/* Ranges of a byte, of two, and to the file's end. */
static void ranges_from(const paged *file, uint64_t offset, uint8_t refusal)
{
    one_range(file, offset, 1, refusal);
    one_range(file, offset, 2, refusal);
    one_range(file, offset, file->length - offset, refusal);
}

/* From a page's start on, and off it: by each bit below the page size, by several of them, by a byte before it. */
static void on_and_off(const paged *file, uint64_t start_of_page)
{
    uint32_t page = file->page;
    ranges_from(file, start_of_page, 0);
    for (uint32_t bit = 1; bit < page; bit *= 2) {
        ranges_from(file, start_of_page + bit, TFK_BAD_RANGE);
    }
    ranges_from(file, start_of_page + 3, TFK_BAD_RANGE);
    ranges_from(file, start_of_page + page / 4 * 3, TFK_BAD_RANGE);
    ranges_from(file, start_of_page + page - 2, TFK_BAD_RANGE);
    ranges_from(file, start_of_page - 1, TFK_BAD_RANGE);
}

static void alignment(uint8_t order, uint32_t page)
{
    paged file = {order, page, 2 * (size_t)page, unwritten(2 * (size_t)page)};
    begin("a range on a page's start and off it");
    on_and_off(&file, page);
    for (unsigned high = 32; high < 64; high++) {
        one_range(&file, (UINT64_C(1) << high) + page, 1, TFK_BAD_RANGE);
    }
    free(file.bytes);
    end();
}

/* The same far into a file as long as may be. */
static void far_alignment(uint8_t order, uint32_t page)
{
    paged file = {order, page, LIMIT, unwritten(LIMIT)};
    begin("a range on a far page's start and off it");
    for (uint64_t far = 2 * (uint64_t)page; far < LIMIT; far *= 2) {
        on_and_off(&file, far + page);
    }
    on_and_off(&file, LIMIT - page);
    free(file.bytes);
    end();
}

static void every_page_size(uint8_t order)
{
    for (uint32_t page = 1024; page <= 65536; page *= 2) {
        alignment(order, page);
        far_alignment(order, page);
    }
}

/* One byte of the smallest file changed: refused from where its string or field is whole. */
static void wrong_byte(const char *name, size_t place, uint8_t value, size_t from)
{
    made file = start(0, (fault){0});
    put(&file, "flyrecord", 10);
    file.bytes[place] = value;
    faulty(name, &file, from, TFK_BAD_CONSTANT);
}

static void wrong_field(const char *name, fault given, size_t from, uint8_t refusal)
{
    made file = start(0, given);
    put(&file, "flyrecord", 10);
    faulty(name, &file, from, refusal);
}

static void every_fault(void)
{
    wrong_byte("the first string", 0, 0x16, 3);
    wrong_byte("the word tracing", 3, 'T', 10);
    wrong_byte("version 7", 10, '7', 12);
    wrong_byte("no NUL behind the version", 11, '0', 12);
    wrong_byte("the word header_page", 29, 'x', 30);
    wrong_byte("the word header_event", 38, 'x', 51);
    wrong_byte("the word flyrecord", 87, 'x', 97);
    wrong_field("a byte order flag of 2", (fault){.flag = 2}, 13, TFK_BAD_CONSTANT);
    wrong_field("a long size of 5", (fault){.long_size = 5}, 14, TFK_BAD_CONSTANT);
    wrong_field("a page size of 512", (fault){.page_size = 512}, 18, TFK_BAD_CONSTANT);
    wrong_field("a page size of 3,072", (fault){.page_size = 3072}, 18, TFK_BAD_CONSTANT);
    wrong_field("a page size of 131,072", (fault){.page_size = 131072}, 18, TFK_BAD_CONSTANT);
    wrong_field("1,025 CPUs", (fault){.cpu_count = 1025}, 87, TFK_BAD_RANGE);
    wrong_field("1,024 CPUs and no entries", (fault){.cpu_count = 1024}, SMALLEST, TFK_FIELD_PAST_FILE);
    wrong_field("the largest header page", (fault){.header_page_size = UINT64_MAX}, SMALLEST, TFK_FIELD_PAST_FILE);
    wrong_field("the largest count of formats", (fault){.format_count = UINT32_MAX}, SMALLEST, TFK_FIELD_PAST_FILE);
    wrong_field("the largest count of systems", (fault){.system_count = UINT32_MAX}, SMALLEST, TFK_FIELD_PAST_FILE);
    wrong_field("the largest kallsyms", (fault){.kallsyms_size = UINT32_MAX}, SMALLEST, TFK_FIELD_PAST_FILE);
    wrong_field("process names up to 2^64", (fault){.processes_size = UINT64_MAX - 82}, SMALLEST, TFK_FIELD_PAST_FILE);
}

void dats(void)
{
    for (uint8_t order = 0; order <= 1; order++) {
        smallest(order);
        latency(order);
        every_section(order);
        every_page_size(order);
    }
    every_range();
    every_fault();
}
