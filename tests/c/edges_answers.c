/* What the small traces answer, in both byte orders and bases: document 01's cases and their neighbours. */
#include "answers.h"
#include "asked.h"
#include "check.h"
#include "edges.h"
#include "settings.h"
#include "traces.h"

#include <stdlib.h>
#include <string.h>

/* A small trace's file at the end of its allocation. */
static asked opened(size_t i, tfk_settings settings)
{
    small_trace trace = small_trace_of(i, settings.order);
    asked open = {settings, exactly(trace.file.bytes, trace.file.length), trace.file.length};
    begin(trace.name);
    return open;
}

static void closed(asked trace)
{
    free(trace.file);
    end();
}

static void two_registers(tfk_settings settings)
{
    asked trace = opened(TWO_REGISTERS, settings);
    tfk_frame record;
    CHECK(is_count(tfk_frame_table(ASKED(trace), &record, 1), 0, 1) && is_frame(record, 1, 19, 3, 20));
    CHECK(is_line(tfk_line_place(ASKED(trace), 0), 0, TFK_LINE_R, 8, 3));
    CHECK(is_line(tfk_line_place(ASKED(trace), 1), TFK_NOT_FOUND, 0, 0, 0));
    CHECK(is_place(tfk_registers_place(ASKED(trace), 0), 0, 20, 2));
    CHECK(is_registers(tfk_block_record(ASKED(trace), 0, 0), 19));
    CHECK(no_block(tfk_block_record(ASKED(trace), 0, 1), TFK_NOT_FOUND));
    CHECK(is_place(tfk_memory_place(ASKED(trace), 0, 0), TFK_NOT_FOUND, 0, 0));
    CHECK(is_value(tfk_variable(ASKED(trace), 0, 0), TFK_NOT_FOUND, 0));
    closed(trace);
}

static void memory_at_the_top(tfk_settings settings)
{
    asked trace = opened(MEMORY_AT_THE_TOP, settings);
    CHECK(is_memory(tfk_block_record(ASKED(trace), 0, 0), 15, UINT64_MAX, 2));
    CHECK(is_place(tfk_memory_place(ASKED(trace), 0, UINT64_MAX), 0, 26, 2));
    CHECK(is_place(tfk_memory_place(ASKED(trace), 0, 0), 0, 27, 1));
    CHECK(is_place(tfk_memory_place(ASKED(trace), 0, 1), TFK_NOT_FOUND, 0, 0));
    CHECK(is_place(tfk_memory_place(ASKED(trace), 0, UINT64_MAX - 1), TFK_NOT_FOUND, 0, 0));
    closed(trace);
}

static void a_variable(tfk_settings settings)
{
    asked trace = opened(A_VARIABLE, settings);
    CHECK(is_variable(tfk_block_record(ASKED(trace), 0, 0), 15, 1, -1));
    CHECK(is_value(tfk_variable(ASKED(trace), 0, 1), 0, -1));
    CHECK(is_value(tfk_variable(ASKED(trace), 0, 0), TFK_NOT_FOUND, 0));
    CHECK(is_value(tfk_pair_variable(ASKED(trace), trace.file, trace.length, 1, 1), 0, -1));
    closed(trace);
}

static void lines_and_a_cut(tfk_settings settings)
{
    static const tfk_selection ONE = {{{1, 1}}, 1, 1};
    asked trace = opened(NUMBERS_1_2_1, settings);
    CHECK(is_line(tfk_line_place(ASKED(trace), 0), 0, TFK_LINE_TP, 8, 4));
    CHECK(is_line(tfk_line_place(ASKED(trace), 1), 0, TFK_LINE_STATUS, 13, 8));
    CHECK(is_line(tfk_line_place(ASKED(trace), 2), 0, TFK_LINE_TSV, 22, 5));
    CHECK(is_line(tfk_line_place(ASKED(trace), 3), 0, TFK_LINE_TDESC, 28, 6));
    CHECK(is_line(tfk_line_place(ASKED(trace), 4), 0, TFK_LINE_OTHER, 35, 2));
    CHECK(is_line(tfk_line_place(ASKED(trace), 5), TFK_NOT_FOUND, 0, 0, 0));
    uint8_t *out = patterned(51);
    CHECK(is_length(tfk_cut(ASKED(trace), ONE, out, 51), 0, 51));
    CHECK(memcmp(out, trace.file, 45) == 0 && memcmp(out + 45, trace.file + 51, 6) == 0);
    free(out);
    closed(trace);
}

static void blocks_of_every_kind(tfk_settings settings)
{
    asked trace = opened(EVERY_BLOCK, settings);
    tfk_frame records[2];
    CHECK(is_count(tfk_frame_table(ASKED(trace), records, 2), 0, 2));
    CHECK(is_frame(records[0], 65535, 19, 40, 44) && is_frame(records[1], 7, 65, 17, 66));
    CHECK(is_variable(tfk_block_record(ASKED(trace), 0, 0), 19, UINT32_MAX, INT64_MIN));
    CHECK(is_memory(tfk_block_record(ASKED(trace), 0, 1), 32, 0x4D, 0));
    CHECK(is_registers(tfk_block_record(ASKED(trace), 0, 2), 43));
    CHECK(is_memory(tfk_block_record(ASKED(trace), 0, 3), 47, 0x4D, 1));
    CHECK(no_block(tfk_block_record(ASKED(trace), 0, 4), TFK_NOT_FOUND));
    CHECK(is_place(tfk_registers_place(ASKED(trace), 0), 0, 44, 3));
    CHECK(is_place(tfk_memory_place(ASKED(trace), 0, 0x4D), 0, 58, 1));
    CHECK(is_value(tfk_variable(ASKED(trace), 0, UINT32_MAX), 0, INT64_MIN));
    CHECK(is_place(tfk_registers_place(ASKED(trace), 1), 0, 66, 3));
    CHECK(is_registers(tfk_block_record(ASKED(trace), 1, 0), 65));
    CHECK(is_variable(tfk_block_record(ASKED(trace), 1, 1), 69, 2, -3));
    CHECK(is_value(tfk_variable(ASKED(trace), 1, 2), 0, -3));
    closed(trace);
}

static void registers_of_no_size(tfk_settings settings)
{
    asked trace = opened(NO_REGISTER_BYTES, settings);
    tfk_frame record;
    CHECK(is_count(tfk_frame_table(ASKED(trace), &record, 1), 0, 1) && is_frame(record, 1, 19, 12, 20));
    CHECK(is_place(tfk_registers_place(ASKED(trace), 0), 0, 20, 0));
    CHECK(is_registers(tfk_block_record(ASKED(trace), 0, 0), 19));
    CHECK(is_memory(tfk_block_record(ASKED(trace), 0, 1), 20, 0x0101010101010101, 0));
    closed(trace);
}

/* Their place is then the file's length. */
static void registers_of_no_size_last(tfk_settings settings)
{
    asked trace = opened(NO_REGISTER_BYTES_LAST, settings);
    tfk_frame record;
    CHECK(is_count(tfk_frame_table(ASKED(trace), &record, 1), 0, 1) && is_frame(record, 1, 19, 12, trace.length));
    CHECK(is_memory(tfk_block_record(ASKED(trace), 0, 0), 19, 0x0101010101010101, 0));
    CHECK(is_registers(tfk_block_record(ASKED(trace), 0, 1), 30));
    CHECK(is_place(tfk_registers_place(ASKED(trace), 0), 0, trace.length, 0));
    closed(trace);
}

/* The last frame of a marked trace ends where the mark starts, and so does its memory. */
static void before_the_mark(tfk_settings settings)
{
    asked trace = opened(MARK_AFTER_ZEROS, settings);
    tfk_frame records[2];
    CHECK(is_mark(tfk_end_mark(ASKED(trace)), 0, 1));
    CHECK(is_count(tfk_frame_table(ASKED(trace), records, 2), 0, 2));
    CHECK(is_frame(records[0], 1, 19, 3, 20) && is_frame(records[1], 2, 28, 31, 29));
    CHECK(is_frame_part(tfk_frame_place(ASKED(trace), 1), 0, 28, trace.length - MARK - 28, 2));
    CHECK(is_registers(tfk_block_record(ASKED(trace), 1, 0), 28));
    CHECK(is_variable(tfk_block_record(ASKED(trace), 1, 1), 31, 1, -1));
    CHECK(is_memory(tfk_block_record(ASKED(trace), 1, 2), 44, 0x4D, 4));
    CHECK(no_block(tfk_block_record(ASKED(trace), 1, 3), TFK_NOT_FOUND));
    CHECK(is_place(tfk_registers_place(ASKED(trace), 1), 0, 29, 2));
    CHECK(is_place(tfk_memory_place(ASKED(trace), 1, 0x4D), 0, 55, 4));
    CHECK(is_place(tfk_memory_place(ASKED(trace), 1, 0x50), 0, 58, 1));
    CHECK(is_place(tfk_memory_place(ASKED(trace), 1, 0x51), TFK_NOT_FOUND, 0, 0));
    CHECK(is_value(tfk_variable(ASKED(trace), 1, 1), 0, -1));
    CHECK(is_value(tfk_pair_variable(ASKED(trace), trace.file, trace.length, 3, 1), 0, -1));
    closed(trace);
}

/* A marked trace without frames has its lines. */
static void lines_before_the_mark(tfk_settings settings)
{
    asked trace = opened(MARK_ALONE, settings);
    CHECK(is_line(tfk_line_place(ASKED(trace), 1), 0, TFK_LINE_TP, 12, 4));
    CHECK(is_line(tfk_line_place(ASKED(trace), 2), TFK_NOT_FOUND, 0, 0, 0));
    closed(trace);
}

/* Two traces whose openings differ are refused with 13, whatever else is asked. */
static void different_openings(tfk_settings settings)
{
    asked first = opened(TWO_REGISTERS, settings);
    asked second = opened(MEMORY_AT_THE_TOP, settings);
    uint8_t *out = patterned(100);
    begin("different openings");
    CHECK(is_length(tfk_join(ASKED(first), second.file, second.length, out, 100), TFK_OPENINGS_DIFFER, 0));
    CHECK(is_length(tfk_join(ASKED(second), first.file, first.length, out, 0), TFK_OPENINGS_DIFFER, 0));
    CHECK(all_pattern(out, 100));
    CHECK(is_part(tfk_pair_place(ASKED(first), second.file, second.length, 0), TFK_OPENINGS_DIFFER, 0, 0, 0));
    CHECK(is_value(tfk_pair_variable(ASKED(first), second.file, second.length, 9, 1), TFK_OPENINGS_DIFFER, 0));
    free(out);
    free(second.file);
    closed(first);
}

static void answers_in(tfk_settings settings)
{
    two_registers(settings);
    memory_at_the_top(settings);
    a_variable(settings);
    lines_and_a_cut(settings);
    blocks_of_every_kind(settings);
    registers_of_no_size(settings);
    registers_of_no_size_last(settings);
    before_the_mark(settings);
    lines_before_the_mark(settings);
    different_openings(settings);
}

void answers(void)
{
    with_all_settings(answers_in);
}
