/* Every small trace cut short at every length, in both byte orders and bases; wrong byte orders; wrong selections. */
#include "calls.h"
#include "answers.h"
#include "check.h"
#include "edges.h"
#include "settings.h"
#include "traces.h"

#include <stdlib.h>

static void at_every_length(const small_trace *trace, tfk_settings settings)
{
    begin(trace->name);
    for (size_t length = 0; length <= trace->file.length; length++) {
        step expected = step_at(trace, length);
        uint8_t *file = exactly(trace->file.bytes, length);
        about = length;
        CHECK(frames_shown(settings, file, length) == expected.frames);
        if (expected.refusal != 0) {
            all_refuse(settings, file, length, expected.refusal);
        } else {
            all_accept(settings, file, length, trace->opening, expected.frames, expected.marked);
        }
        free(file);
    }
    end();
}

/* A wrong byte order is refused ahead of anything in the file, at every length. */
static void wrong_orders(void)
{
    small_trace trace = small_trace_of(TWO_REGISTERS, 0);
    begin("wrong byte orders");
    for (unsigned order = 2; order <= UINT8_MAX; order++) {
        size_t length = order % (trace.file.length + 1);
        uint8_t *file = exactly(trace.file.bytes, length);
        about = order;
        all_refuse(settings_of((uint8_t)order, TEN), file, length, TFK_BAD_ARGUMENT);
        all_refuse(settings_of((uint8_t)order, SIXTEEN), file, length, TFK_BAD_ARGUMENT);
        free(file);
    }
    end();
}

static void cut_answers(const uint8_t *file, size_t length, tfk_selection selection, uint8_t refusal, size_t kept)
{
    uint8_t *out = patterned(length);
    CHECK(is_length(tfk_cut(settings_of(0, SIXTEEN), file, length, selection, out, length), refusal, kept));
    CHECK(all_pattern(out + kept, length - kept));
    free(out);
}

/* Wrong selections are refused; ranges beyond the count are not looked at. */
static void selections(void)
{
    small_trace trace = small_trace_of(NUMBERS_1_2_1, 0);
    uint8_t *file = exactly(trace.file.bytes, trace.file.length);
    tfk_selection turned = {{{1, 1}, {3, 2}}, 2, 1};
    tfk_selection hidden = {{{1, 1}, {3, 2}}, 1, 1};
    tfk_selection eight = {{{9, 9}, {9, 9}, {9, 9}, {9, 9}, {9, 9}, {9, 9}, {9, 9}, {2, 2}}, 8, 1};
    tfk_selection nine = eight;
    tfk_selection many = eight;
    tfk_selection dropped = eight;
    nine.count = 9;
    many.count = SIZE_MAX;
    dropped.keep = 0;
    begin("selections");
    cut_answers(file, trace.file.length, turned, TFK_BAD_ARGUMENT, 0);
    cut_answers(file, trace.file.length, nine, TFK_BAD_ARGUMENT, 0);
    cut_answers(file, trace.file.length, many, TFK_BAD_ARGUMENT, 0);
    cut_answers(file, 0, nine, TFK_BAD_ARGUMENT, 0);
    cut_answers(file, trace.file.length, hidden, 0, trace.opening + 12);
    cut_answers(file, trace.file.length, eight, 0, trace.opening + 6);
    cut_answers(file, trace.file.length, dropped, 0, trace.opening + 12);
    free(file);
    end();
}

static void opposites(void)
{
    tfk_selection given = {{{1, 2}, {3, 4}, {5, 6}, {7, 8}, {9, 10}, {11, 12}, {13, 14}, {65535, 0}}, SIZE_MAX, 200};
    tfk_selection once = tfk_opposite(given);
    tfk_selection twice = tfk_opposite(once);
    begin("opposites");
    CHECK(once.keep == 0 && twice.keep != 0);
    CHECK(once.count == given.count && twice.count == given.count);
    for (size_t i = 0; i < 8; i++) {
        CHECK(once.ranges[i].low == given.ranges[i].low && once.ranges[i].high == given.ranges[i].high);
    }
    end();
}

static void every_trace(tfk_settings settings)
{
    for (size_t i = 0; i < small_traces(); i++) {
        small_trace trace = small_trace_of(i, settings.order);
        at_every_length(&trace, settings);
    }
}

void lengths(void)
{
    with_all_settings(every_trace);
    wrong_orders();
    selections();
    opposites();
}
