#include "tell.h"

#include "check.h"

#include <inttypes.h>
#include <stdio.h>
#include <stdlib.h>

uint64_t digest(const void *bytes, size_t length)
{
    const uint8_t *from = bytes;
    uint64_t hash = length;
    for (size_t i = 0; i < length; i++) {
        /* A product with an odd number, by shifts: the core's own compiler may have no multiplication. */
        hash = (hash ^ from[i]) + (hash << 5) + (hash << 13);
    }
    return hash ^ hash >> 32;
}

static void tell_place(const char *call, size_t n, tfk_place place)
{
    printf("%s %zu: %u %zu %zu\n", call, n, place.refusal, place.place, place.length);
}

static void tell_value(const char *call, size_t n, tfk_value value)
{
    printf("%s %zu: %u %" PRId64 "\n", call, n, value.refusal, value.value);
}

static void tell_lent(const char *call, size_t room, tfk_length answer, const uint8_t *out)
{
    printf("%s into %zu: %u %zu %" PRIx64 "\n", call, room, answer.refusal, answer.length, digest(out, room));
}

static void tell_lines(asked trace)
{
    tfk_line line;
    for (size_t j = 0; line = tfk_line_place(ASKED(trace), j), line.refusal == 0; j++) {
        printf("line %zu: %u %zu %zu\n", j, line.kind, line.place, line.length);
    }
    printf("no line: %u %u %zu %zu\n", line.refusal, line.kind, line.place, line.length);
}

/* The records that are written field by field, and those behind them as bytes. */
static void tell_table(asked trace, size_t room)
{
    tfk_frame *table = patterned(room * sizeof *table);
    tfk_count count = tfk_frame_table(ASKED(trace), table, room);
    printf("table of %zu: %u %zu %" PRIx64 "\n", room, count.refusal, count.count,
           digest(table + count.count, (room - count.count) * sizeof *table));
    for (size_t n = 0; n < count.count; n++) {
        printf("record %zu: %u %u %zu %zu %zu\n", n, table[n].tracepoint, table[n].has_registers, table[n].place,
               table[n].size, table[n].registers_place);
    }
    free(table);
}

/* A block, and the question that it answers: in the middle of the memory, for the variable. */
static uint8_t tell_block(asked trace, size_t n, size_t k)
{
    tfk_block block = tfk_block_record(ASKED(trace), n, k);
    printf("block %zu: %u %u %" PRIu32 " %zu %" PRIu64 " %zu %" PRId64 "\n", k, block.refusal, block.letter,
           block.number, block.place, block.address, block.length, block.value);
    if (block.letter == 'M') {
        tell_place("memory", n, tfk_memory_place(ASKED(trace), n, block.address + block.length / 2));
    }
    if (block.letter == 'V') {
        tell_value("variable", n, tfk_variable(ASKED(trace), n, block.number));
    }
    return block.refusal;
}

static void tell_frame(asked trace, size_t n)
{
    tfk_frame_part part = tfk_frame_place(ASKED(trace), n);
    printf("frame %zu: %u %zu %zu %zu\n", n, part.refusal, part.place, part.length, part.heads);
    tell_place("registers", n, tfk_registers_place(ASKED(trace), n));
    for (size_t k = 0; tell_block(trace, n, k) == 0; k++) {
    }
    tell_place("memory at the end", n, tfk_memory_place(ASKED(trace), n, UINT64_MAX));
    tell_value("variable of the highest number", n, tfk_variable(ASKED(trace), n, UINT32_MAX));
}

static void tell_opposite(size_t i, tfk_selection selection)
{
    tfk_selection other = tfk_opposite(selection);
    printf("opposite %zu: %zu %u", i, other.count, other.keep);
    for (size_t k = 0; k < sizeof other.ranges / sizeof *other.ranges; k++) {
        printf(" %u-%u", other.ranges[k].low, other.ranges[k].high);
    }
    printf("\n");
}

/* All, some, the others, none, a wrong range, too many ranges: into room for all and for a little less. */
static void tell_cuts(asked trace)
{
    static const tfk_selection SELECTIONS[] = {
        {{{0, 65535}}, 1, 1}, {{{1, 1}}, 1, 1}, {{{1, 1}, {3, 9}}, 2, 0}, {{{0, 0}}, 0, 1}, {{{2, 1}}, 1, 1}, {{{0, 0}}, 9, 7},
    };
    enum { LESS = 39 };
    for (size_t i = 0; i < sizeof SELECTIONS / sizeof *SELECTIONS; i++) {
        for (size_t less = 0; less <= LESS && less <= trace.length; less += LESS) {
            size_t room = trace.length - less;
            uint8_t *out = patterned(room);
            tell_lent("cut", room, tfk_cut(ASKED(trace), SELECTIONS[i], out, room), out);
            free(out);
        }
        tell_opposite(i, SELECTIONS[i]);
    }
}

void tell_trace(asked trace)
{
    enum { MOST = 12 };
    tfk_count count = tfk_frame_count(ASKED(trace));
    tfk_mark mark = tfk_end_mark(ASKED(trace));
    printf("order %u base %u: %u %zu, mark %u %u\n", trace.settings.order, trace.settings.base, count.refusal,
           count.count, mark.refusal, mark.marked);
    tell_lines(trace);
    tell_table(trace, 0);
    tell_table(trace, count.count);
    tell_table(trace, count.count + 2);
    for (size_t n = 0; n <= count.count && n < MOST; n++) {
        tell_frame(trace, n);
    }
    tell_frame(trace, SIZE_MAX);
    tell_cuts(trace);
}

static void tell_pair_frame(asked first, asked second, size_t n)
{
    tfk_pair_part part = tfk_pair_place(ASKED(first), second.file, second.length, n);
    printf("pair's frame %zu: %u %u %zu %zu\n", n, part.refusal, part.trace, part.place, part.length);
    tell_value("pair's variable", n, tfk_pair_variable(ASKED(first), second.file, second.length, n, 1));
}

void tell_pair(asked first, asked second)
{
    enum { MOST = 40, STEP = 3 };
    size_t room = first.length + second.length;
    uint8_t *out = patterned(room);
    tell_lent("join", room, tfk_join(ASKED(first), second.file, second.length, out, room), out);
    free(out);
    for (size_t n = 0; n < MOST; n += STEP) {
        tell_pair_frame(first, second, n);
    }
}

static void tell_part(tfk_part part)
{
    printf(" %zu+%zu", part.place, part.size);
}

static void tell_summary(tfk_dat_summary dat)
{
    printf("dat: %u %u %u %u %" PRIu32 " %" PRIu32 " %" PRIu32 " %" PRIu32, dat.refusal, dat.order, dat.long_size,
           dat.ending, dat.page_size, dat.format_count, dat.system_count, dat.cpu_count);
    tell_part(dat.header_page);
    tell_part(dat.header_event);
    tell_part(dat.formats);
    tell_part(dat.systems);
    tell_part(dat.kallsyms);
    tell_part(dat.printk);
    tell_part(dat.processes);
    tell_part(dat.options);
    tell_part(dat.body);
    printf("\n");
}

void tell_dat(const uint8_t *file, size_t length)
{
    enum { MOST = 8 };
    tfk_dat_summary dat = tfk_dat_read(file, length);
    tell_summary(dat);
    for (size_t i = 0; i <= dat.cpu_count && i < MOST; i++) {
        tfk_cpu_range range = tfk_dat_cpu_range(file, length, i);
        printf("cpu %zu: %u %" PRIu64 " %" PRIu64 "\n", i, range.refusal, range.offset, range.size);
    }
}
