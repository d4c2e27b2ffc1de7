/* The length limit: a file of 67,108,864 bytes and one of a byte more, and joins whose result is as long. */
#include "answers.h"
#include "calls.h"
#include "check.h"
#include "edges.h"
#include "settings.h"
#include "traces.h"

#include <stdio.h>
#include <stdlib.h>
#include <string.h>

enum { OPENING = sizeof(BARE) - 1, FRAME_HEAD = 6, MEMORY_HEAD = 11, LARGEST_FRAME = FRAME_HEAD + MEMORY_HEAD + 65535 };

#define LITTLE settings_of(0, SIXTEEN)

static uint8_t *zeros(size_t length)
{
    uint8_t *bytes = calloc(length, 1);
    if (bytes == NULL) {
        printf("no memory for %zu bytes\n", length);
        exit(2);
    }
    return bytes;
}

static void put_little(uint8_t *at, size_t value, size_t width)
{
    for (size_t i = 0; i < width; i++) {
        at[i] = (uint8_t)(value >> (8 * i));
    }
}

/* A trace of exactly this length: frames of one memory block each, then `mark` bytes of 0. The number of frames is left
   in `frames`. */
static uint8_t *long_trace(size_t length, size_t mark, size_t *frames)
{
    uint8_t *file = zeros(length);
    size_t end = length - mark;
    memcpy(file, BARE, OPENING);
    *frames = 0;
    for (size_t at = OPENING; at < end; *frames += 1) {
        /* The last two share what is left, so that no frame is too short for its block. */
        size_t left = end - at;
        size_t size = left <= LARGEST_FRAME ? left : left < 2 * LARGEST_FRAME ? left / 2 : LARGEST_FRAME;
        put_little(file + at, 1, 2);
        put_little(file + at + 2, size - FRAME_HEAD, 4);
        file[at + FRAME_HEAD] = 'M';
        put_little(file + at + FRAME_HEAD + 9, size - FRAME_HEAD - MEMORY_HEAD, 2);
        at += size;
    }
    return file;
}

static void longest_file(const char *name, size_t mark)
{
    size_t frames;
    uint8_t *file = long_trace(LIMIT, mark, &frames);
    tfk_frame_part last;
    begin(name);
    CHECK(is_count(tfk_frame_count(LITTLE, file, LIMIT), 0, frames));
    CHECK(is_mark(tfk_end_mark(LITTLE, file, LIMIT), 0, mark != 0));
    last = tfk_frame_place(LITTLE, file, LIMIT, frames - 1);
    CHECK(last.refusal == 0 && last.place + last.length == LIMIT - mark && last.heads == frames);
    CHECK(is_memory(tfk_block_record(LITTLE, file, LIMIT, frames - 1, 0), last.place, 0, last.length - MEMORY_HEAD));
    free(file);
    end();
}

static void one_byte_more(const char *name, size_t mark)
{
    size_t frames;
    uint8_t *file = long_trace(LIMIT + 1, mark, &frames);
    begin(name);
    all_refuse(LITTLE, file, LIMIT + 1, TFK_TOO_LONG);
    all_refuse(settings_of(0, TEN), file, LIMIT + 1, TFK_TOO_LONG);
    all_refuse(settings_of(2, SIXTEEN), file, LIMIT + 1, TFK_BAD_ARGUMENT);
    all_refuse(settings_of(0, 8), file, LIMIT + 1, TFK_BAD_ARGUMENT);
    free(file);
    end();
}

/* A bad letter in frame 1, and the last frame's data past the limit by a byte. The frames around frame 1 are shown at the
   limit; with the byte more none is, whatever the file holds, and wrong settings come ahead of that. */
static void faults_in_a_long_file(void)
{
    enum { DATA = OPENING + FRAME_HEAD, SIZE = LARGEST_FRAME - FRAME_HEAD };
    size_t frames;
    uint8_t *file = long_trace(LIMIT + 1, 0, &frames);
    file[DATA + LARGEST_FRAME] = '?';
    begin("frames of a file of 67,108,864 bytes with faults, and of one byte more");
    CHECK(is_frame_part(tfk_frame_place(LITTLE, file, LIMIT, 0), 0, DATA, SIZE, 1));
    CHECK(is_frame_part(tfk_frame_place(LITTLE, file, LIMIT, 1), TFK_BAD_LETTER, 0, 0, 0));
    CHECK(is_frame_part(tfk_frame_place(LITTLE, file, LIMIT, 2), 0, DATA + 2 * LARGEST_FRAME, SIZE, 3));
    CHECK(is_frame_part(tfk_frame_place(LITTLE, file, LIMIT, frames - 1), TFK_DATA_PAST_FILE, 0, 0, 0));
    for (size_t n = 0; n <= frames; n++) {
        about = n;
        CHECK(is_frame_part(tfk_frame_place(LITTLE, file, LIMIT + 1, n), TFK_TOO_LONG, 0, 0, 0));
        CHECK(is_frame_part(tfk_frame_place(settings_of(2, SIXTEEN), file, LIMIT + 1, n), TFK_BAD_ARGUMENT, 0, 0, 0));
        CHECK(is_frame_part(tfk_frame_place(settings_of(0, 8), file, LIMIT + 1, n), TFK_BAD_ARGUMENT, 0, 0, 0));
    }
    file[0] = 0;
    CHECK(is_frame_part(tfk_frame_place(LITTLE, file, LIMIT, 0), TFK_BAD_HEAD, 0, 0, 0));
    CHECK(is_frame_part(tfk_frame_place(LITTLE, file, LIMIT + 1, 0), TFK_TOO_LONG, 0, 0, 0));
    free(file);
    end();
}

/* A join of two traces, marked or not, whose result has this length, into room of exactly the limit. */
static void joined(const char *name, size_t length, size_t first_mark, size_t second_mark, uint8_t refusal)
{
    size_t mark = first_mark > second_mark ? first_mark : second_mark, first_end = LIMIT / 2;
    size_t second_end = length - mark + OPENING - first_end;
    size_t first_length = first_end + first_mark, second_length = second_end + second_mark, first_frames, second_frames;
    uint8_t *first = long_trace(first_length, first_mark, &first_frames);
    uint8_t *second = long_trace(second_length, second_mark, &second_frames);
    uint8_t *out = patterned(LIMIT);
    begin(name);
    tfk_length answer = tfk_join(LITTLE, first, first_length, second, second_length, out, LIMIT);
    CHECK(is_length(answer, refusal, refusal == 0 ? length : 0));
    if (refusal == 0) {
        CHECK(memcmp(out, first, first_end) == 0);
        CHECK(memcmp(out + first_end, second + OPENING, second_end - OPENING) == 0);
        CHECK(memcmp(out + length - mark, "\0\0\0\0", mark) == 0);
    } else {
        CHECK(all_pattern(out, LIMIT));
        CHECK(is_length(tfk_join(LITTLE, first, first_length, second, second_length, out, 0), refusal, 0));
    }
    size_t beyond = first_frames + second_frames;
    CHECK(is_part(tfk_pair_place(LITTLE, first, first_length, second, second_length, beyond),
                  refusal == 0 ? TFK_NOT_FOUND : refusal, 0, 0, 0));
    CHECK(is_value(tfk_pair_variable(LITTLE, first, first_length, second, second_length, 0, 1),
                   refusal == 0 ? TFK_NOT_FOUND : refusal, 0));
    free(first);
    free(second);
    free(out);
    end();
}

/* The openings differ, and the result would be too long, by a frame or by the mark alone: 13 comes first. */
static void differing(void)
{
    static const uint8_t framed[] = "\x7fTRACE0\nx\n\n\1\0\0\0\0\0", marked[] = "\x7fTRACE0\nx\n\n\0\0\0\0";
    static const struct {
        const uint8_t *file;
        size_t length;
    } OTHERS[] = {{framed, sizeof framed - 1}, {marked, sizeof marked - 1}};
    size_t frames;
    uint8_t *first = long_trace(LIMIT, 0, &frames);
    begin("a join of other openings, too long besides");
    for (size_t i = 0; i < 2; i++) {
        const uint8_t *other = OTHERS[i].file;
        size_t length = OTHERS[i].length;
        about = i;
        join_refused(LITTLE, first, LIMIT, other, length, LIMIT, TFK_OPENINGS_DIFFER);
        join_refused(LITTLE, other, length, first, LIMIT, 0, TFK_OPENINGS_DIFFER);
        pair_refused(LITTLE, first, LIMIT, other, length, 0, TFK_OPENINGS_DIFFER);
    }
    free(first);
    end();
}

static void long_dats(void)
{
    uint8_t *file = zeros(LIMIT + 1);
    begin("trace.dat files of the limit and one byte more");
    CHECK(tfk_dat_read(file, LIMIT).refusal == TFK_BAD_CONSTANT);
    CHECK(tfk_dat_read(file, LIMIT + 1).refusal == TFK_TOO_LONG);
    CHECK(is_range(tfk_dat_cpu_range(file, LIMIT + 1, 0), TFK_TOO_LONG, 0, 0));
    free(file);
    end();
}

void limits(void)
{
    longest_file("a file of 67,108,864 bytes", 0);
    longest_file("a marked file of 67,108,864 bytes", MARK);
    one_byte_more("a file of 67,108,865 bytes", 0);
    one_byte_more("a marked file of 67,108,865 bytes", MARK);
    faults_in_a_long_file();
    joined("a join of 67,108,864 bytes", LIMIT, 0, 0, 0);
    joined("a join of 67,108,865 bytes", LIMIT + 1, 0, 0, TFK_TOO_LONG);
    joined("a join of 67,108,864 bytes, the mark of both counted once", LIMIT, MARK, MARK, 0);
    joined("a join that the first's mark takes over the limit", LIMIT + 1, MARK, 0, TFK_TOO_LONG);
    joined("a join that the second's mark takes over the limit", LIMIT + 1, 0, MARK, TFK_TOO_LONG);
    differing();
    long_dats();
}
