/*
 * Calls that tell the fields of every struct apart: no two fields of one type have the same value in every answer. A
 * struct of the archive whose fields stand elsewhere than in the header fails here.
 */
#include "answers.h"
#include "check.h"
#include "dats.h"
#include "settings.h"
#include "traces.h"

#include <stdlib.h>

#define LITTLE settings_of(0, SIXTEEN)
#define ASKED(trace) LITTLE, (trace).file.bytes, (trace).file.length

/* The settings that the library makes, and those that it is given: the same value is right in one field only. */
static void set(void)
{
    made file = {0, 0, {0}};
    PUT(&file, BARE);
    begin("settings");
    CHECK(is_settings(tfk_default_settings(1), 1, SIXTEEN));
    CHECK(is_count(tfk_frame_count(settings_of(1, SIXTEEN), file.bytes, file.length), 0, 0));
    CHECK(is_count(tfk_frame_count(settings_of(SIXTEEN, 1), file.bytes, file.length), TFK_BAD_ARGUMENT, 0));
    end();
}

/* Each question about a trace with blocks of every kind; the bytes of both its frames differ in place and in length.
   The end mark is asked for where it is. */
static void answered(void)
{
    small_trace trace = small_trace_of(EVERY_BLOCK, 0), marked = small_trace_of(MARK_ALONE, 0);
    tfk_frame records[2];
    begin("the answers of a trace");
    CHECK(is_count(tfk_frame_count(ASKED(trace)), 0, 2));
    CHECK(is_mark(tfk_end_mark(ASKED(marked)), 0, 1));
    CHECK(is_count(tfk_frame_table(ASKED(trace), records, 2), 0, 2) && is_frame(records[1], 7, 65, 17, 66));
    CHECK(is_line(tfk_line_place(ASKED(trace), 0), 0, TFK_LINE_R, 8, 3));
    CHECK(is_frame_part(tfk_frame_place(ASKED(trace), 1), 0, 65, 17, 2));
    CHECK(is_place(tfk_registers_place(ASKED(trace), 1), 0, 66, 3));
    CHECK(is_memory(tfk_block_record(ASKED(trace), 0, 3), 47, 0x4D, 1));
    CHECK(is_variable(tfk_block_record(ASKED(trace), 0, 0), 19, UINT32_MAX, INT64_MIN));
    CHECK(is_value(tfk_variable(ASKED(trace), 0, UINT32_MAX), 0, INT64_MIN));
    CHECK(is_part(tfk_pair_place(ASKED(trace), trace.file.bytes, trace.file.length, 3), 0, 1, 65, 17));
    end();
}

/* The same questions where each has the refusal alone. */
static void refused(void)
{
    small_trace trace = small_trace_of(EVERY_BLOCK, 0);
    uint8_t *bytes = trace.file.bytes;
    size_t length = trace.file.length;
    tfk_settings third = settings_of(2, SIXTEEN);
    begin("the refusals of a trace");
    CHECK(is_count(tfk_frame_count(third, bytes, length), TFK_BAD_ARGUMENT, 0));
    CHECK(is_mark(tfk_end_mark(third, bytes, length), TFK_BAD_ARGUMENT, 0));
    CHECK(is_line(tfk_line_place(ASKED(trace), 1), TFK_NOT_FOUND, 0, 0, 0));
    CHECK(is_frame_part(tfk_frame_place(ASKED(trace), 2), TFK_NOT_FOUND, 0, 0, 0));
    CHECK(is_place(tfk_registers_place(ASKED(trace), 2), TFK_NOT_FOUND, 0, 0));
    CHECK(no_block(tfk_block_record(ASKED(trace), 1, 2), TFK_NOT_FOUND));
    CHECK(is_value(tfk_variable(ASKED(trace), 1, 1), TFK_NOT_FOUND, 0));
    CHECK(is_part(tfk_pair_place(ASKED(trace), bytes, length, 4), TFK_NOT_FOUND, 0, 0, 0));
    end();
}

/* A selection of eight ranges, 10 to 12, 20 to 22 and so on, of which so many count. */
static tfk_selection tens(size_t count, uint8_t keep)
{
    tfk_selection selection = {.count = count, .keep = keep};
    for (uint16_t i = 0; i < 8; i++) {
        selection.ranges[i].low = (uint16_t)(10 * (i + 1));
        selection.ranges[i].high = (uint16_t)(10 * (i + 1) + 2);
    }
    return selection;
}

/* Frames numbered 1 to 90, without data: of each ten, from 10 on, three are in a range. */
static void selected(void)
{
    enum { FRAMES = 90, FRAME = 6 };
    made file = {0, 0, {0}};
    PUT(&file, BARE);
    size_t opening = file.length;
    for (size_t n = 1; n <= FRAMES; n++) {
        put_number(&file, n, 2);
        put_number(&file, 0, 4);
    }
    uint8_t *out = patterned(file.length);
    begin("selections");
    for (size_t count = 0; count <= 8; count++) {
        size_t kept = opening + 3 * count * FRAME;
        about = count;
        CHECK(is_length(tfk_cut(LITTLE, file.bytes, file.length, tens(count, 1), out, file.length), 0, kept));
        CHECK(is_length(tfk_cut(LITTLE, file.bytes, file.length, tens(count, 0), out, file.length), 0,
                        file.length - (kept - opening)));
    }
    CHECK(is_length(tfk_cut(LITTLE, file.bytes, file.length, tens(9, 1), out, file.length), TFK_BAD_ARGUMENT, 0));
    free(out);
    end();
}

/* The opposite has the same ranges and the same count. */
static void opposites(void)
{
    tfk_selection given = tens(5, 0), turned = tfk_opposite(given);
    begin("the opposite");
    CHECK(turned.count == 5 && turned.keep == 1);
    for (size_t i = 0; i < 8; i++) {
        CHECK(turned.ranges[i].low == given.ranges[i].low && turned.ranges[i].high == given.ranges[i].high);
    }
    end();
}

/* A header and its CPUs in either byte order; then the same cut short. */
static void summed(void)
{
    enum { CUT_SHORT = 3 };
    begin("a summary and a CPU's range");
    for (uint8_t order = 0; order <= 1; order++) {
        made file = full_header(order);
        tfk_dat_summary expected = full_summary(order), answer;
        put_number(&file, 7, 8);
        put_number(&file, 0, 8);
        put_number(&file, PAGE, 8);
        put_number(&file, 3, 8);
        fill_to(&file, PAGE + 3);
        answer = tfk_dat_read(file.bytes, file.length);
        CHECK(same_summary(&answer, &expected));
        CHECK(is_range(tfk_dat_cpu_range(file.bytes, file.length, 0), 0, 7, 0));
        CHECK(is_range(tfk_dat_cpu_range(file.bytes, file.length, 1), 0, PAGE, 3));
        answer = tfk_dat_read(file.bytes, CUT_SHORT);
        expected = (tfk_dat_summary){.refusal = TFK_FIELD_PAST_FILE};
        CHECK(same_summary(&answer, &expected));
        CHECK(is_range(tfk_dat_cpu_range(file.bytes, CUT_SHORT, 0), TFK_FIELD_PAST_FILE, 0, 0));
    }
    end();
}

int main(void)
{
    set();
    answered();
    refused();
    selected();
    opposites();
    summed();
    return report();
}
