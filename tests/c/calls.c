#include "calls.h"

#include "answers.h"
#include "check.h"
#include "traces.h"

#include <stdlib.h>
#include <string.h>

const tfk_selection EVERY = {{{0, 0}}, 0, 0};
const tfk_selection NONE = {{{0, 0}}, 0, 1};

size_t frames_shown(tfk_settings settings, const uint8_t *file, size_t length)
{
    size_t n = 0;
    /* No file has as many frames as bytes. */
    while (n < length && tfk_frame_place(settings, file, length, n).refusal == 0) {
        n++;
    }
    return n;
}

void frame_refused(tfk_settings settings, const uint8_t *file, size_t length, size_t n, uint8_t refusal)
{
    CHECK(no_block(tfk_block_record(settings, file, length, n, 0), refusal));
    CHECK(is_place(tfk_registers_place(settings, file, length, n), refusal, 0, 0));
    CHECK(is_place(tfk_memory_place(settings, file, length, n, 0x4D), refusal, 0, 0));
    CHECK(is_value(tfk_variable(settings, file, length, n, 1), refusal, 0));
}

/* An accepted file has no frame n. */
static void frame_missing(tfk_settings settings, const uint8_t *file, size_t length, size_t n)
{
    CHECK(is_frame_part(tfk_frame_place(settings, file, length, n), TFK_NOT_FOUND, 0, 0, 0));
    frame_refused(settings, file, length, n, TFK_NOT_FOUND);
}

void pair_refused(tfk_settings settings, const uint8_t *first, size_t first_length, const uint8_t *second,
                  size_t second_length, size_t n, uint8_t refusal)
{
    CHECK(is_part(tfk_pair_place(settings, first, first_length, second, second_length, n), refusal, 0, 0, 0));
    CHECK(is_value(tfk_pair_variable(settings, first, first_length, second, second_length, n, 1), refusal, 0));
}

static void table_refused(tfk_settings settings, const uint8_t *file, size_t length, size_t records, uint8_t refusal)
{
    size_t size = records * sizeof(tfk_frame);
    tfk_frame *table = patterned(size);
    CHECK(is_count(tfk_frame_table(settings, file, length, table, records), refusal, 0));
    CHECK(all_pattern(table, size));
    free(table);
}

void cut_refused(tfk_settings settings, const uint8_t *file, size_t length, tfk_selection selection, size_t room,
                 uint8_t refusal)
{
    uint8_t *out = patterned(room);
    CHECK(is_length(tfk_cut(settings, file, length, selection, out, room), refusal, 0));
    CHECK(all_pattern(out, room));
    free(out);
}

void join_refused(tfk_settings settings, const uint8_t *first, size_t first_length, const uint8_t *second,
                  size_t second_length, size_t room, uint8_t refusal)
{
    uint8_t *out = patterned(room);
    CHECK(is_length(tfk_join(settings, first, first_length, second, second_length, out, room), refusal, 0));
    CHECK(all_pattern(out, room));
    free(out);
}

void all_refuse(tfk_settings settings, const uint8_t *file, size_t length, uint8_t refusal)
{
    enum { ROOM = 100, BARE_LENGTH = sizeof(BARE) - 1 };
    uint8_t *good = exactly((const uint8_t *)BARE, BARE_LENGTH);
    size_t shown = frames_shown(settings, file, length);
    CHECK(is_frame_part(tfk_frame_place(settings, file, length, shown), refusal, 0, 0, 0));
    CHECK(is_count(tfk_frame_count(settings, file, length), refusal, 0));
    CHECK(is_mark(tfk_end_mark(settings, file, length), refusal, 0));
    CHECK(is_line(tfk_line_place(settings, file, length, 0), refusal, 0, 0, 0));
    frame_refused(settings, file, length, 0, refusal);
    table_refused(settings, file, length, ROOM, refusal);
    table_refused(settings, file, length, 0, refusal);
    cut_refused(settings, file, length, EVERY, ROOM, refusal);
    cut_refused(settings, file, length, NONE, 0, refusal);
    join_refused(settings, file, length, good, BARE_LENGTH, ROOM, refusal);
    join_refused(settings, good, BARE_LENGTH, file, length, ROOM, refusal);
    pair_refused(settings, file, length, good, BARE_LENGTH, 0, refusal);
    pair_refused(settings, good, BARE_LENGTH, file, length, 0, refusal);
    free(good);
}

/* A table of so many records more than there are frames; each record must be what the question of its frame says. */
static void table_filled(tfk_settings settings, const uint8_t *file, size_t length, size_t frames, size_t more)
{
    tfk_frame *table = patterned((frames + more) * sizeof *table);
    CHECK(is_count(tfk_frame_table(settings, file, length, table, frames + more), 0, frames));
    for (size_t n = 0; n < frames; n++) {
        CHECK(is_frame_part(tfk_frame_place(settings, file, length, n), 0, table[n].place, table[n].size, n + 1));
        tfk_place registers = tfk_registers_place(settings, file, length, n);
        CHECK(registers.refusal == (table[n].has_registers ? 0 : TFK_NOT_FOUND));
        CHECK(table[n].has_registers <= 1 && registers.place == table[n].registers_place);
    }
    CHECK(all_pattern(table + frames, more * sizeof *table));
    free(table);
}

/* A cut whose result is the file's first `kept` bytes and its last `mark`: into room that fits, and that is longer. */
static void cut_filled(tfk_settings settings, const uint8_t *file, size_t length, tfk_selection selection, size_t kept,
                       size_t mark)
{
    size_t whole = kept + mark;
    for (size_t more = 0; more <= 3; more += 3) {
        uint8_t *out = patterned(whole + more);
        CHECK(is_length(tfk_cut(settings, file, length, selection, out, whole + more), 0, whole));
        CHECK(memcmp(out, file, kept) == 0);
        CHECK(memcmp(out + kept, file + length - mark, mark) == 0);
        CHECK(all_pattern(out + whole, more));
        free(out);
    }
    cut_refused(settings, file, length, selection, whole - 1, TFK_NO_ROOM);
    cut_refused(settings, file, length, selection, 0, TFK_NO_ROOM);
}

/* The join of a file with itself, likewise: the frames twice, and the mark once. */
static void join_filled(tfk_settings settings, const uint8_t *file, size_t length, size_t opening, size_t mark)
{
    size_t frames_end = length - mark, joined = frames_end + length - opening;
    for (size_t more = 0; more <= 3; more += 3) {
        uint8_t *out = patterned(joined + more);
        CHECK(is_length(tfk_join(settings, file, length, file, length, out, joined + more), 0, joined));
        CHECK(memcmp(out, file, frames_end) == 0);
        CHECK(memcmp(out + frames_end, file + opening, length - opening) == 0);
        CHECK(all_pattern(out + joined, more));
        free(out);
    }
    join_refused(settings, file, length, file, length, joined - 1, TFK_NO_ROOM);
    join_refused(settings, file, length, file, length, 0, TFK_NO_ROOM);
}

void all_accept(tfk_settings settings, const uint8_t *file, size_t length, size_t opening, size_t frames,
                uint8_t marked)
{
    size_t mark = marked ? MARK : 0;
    CHECK(is_count(tfk_frame_count(settings, file, length), 0, frames));
    CHECK(is_mark(tfk_end_mark(settings, file, length), 0, marked));
    CHECK(is_line(tfk_line_place(settings, file, length, SIZE_MAX), TFK_NOT_FOUND, 0, 0, 0));
    frame_missing(settings, file, length, frames);
    frame_missing(settings, file, length, SIZE_MAX);
    table_filled(settings, file, length, frames, 0);
    table_filled(settings, file, length, frames, 2);
    if (frames > 0) {
        table_refused(settings, file, length, frames - 1, TFK_NO_ROOM);
        table_refused(settings, file, length, 0, TFK_NO_ROOM);
    }
    cut_filled(settings, file, length, EVERY, length - mark, mark);
    cut_filled(settings, file, length, NONE, opening, mark);
    join_filled(settings, file, length, opening, mark);
    pair_refused(settings, file, length, file, length, 2 * frames, TFK_NOT_FOUND);
    pair_refused(settings, file, length, file, length, SIZE_MAX, TFK_NOT_FOUND);
    for (size_t n = 0; n < frames; n++) {
        tfk_frame_part place = tfk_frame_place(settings, file, length, n);
        tfk_pair_part first = tfk_pair_place(settings, file, length, file, length, n);
        tfk_pair_part second = tfk_pair_place(settings, file, length, file, length, frames + n);
        CHECK(is_part(first, 0, 0, place.place, place.length));
        CHECK(is_part(second, 0, 1, place.place, place.length));
        CHECK(no_block(tfk_block_record(settings, file, length, n, SIZE_MAX), TFK_NOT_FOUND));
    }
}
