/* Frames with a second register block, which every call refuses with 24, and their neighbours, which have one each. */
#include "answers.h"
#include "calls.h"
#include "check.h"
#include "edges.h"
#include "settings.h"
#include "traces.h"

#include <ctype.h>
#include <stdlib.h>
#include <string.h>

enum { FRAMES = 3, FRAME_HEAD = 6, MEMORY_HEAD = 11, MEMORY = 3, VARIABLE = 13, ROOM = 300 };
/* The first frame's; the others count on from it. Its bytes are an `R` each. */
enum { NUMBER = 0x5252 };

/*
 * A description, which gives register blocks this size, and the blocks of each frame by their letters. A small letter
 * is a block without its last byte, and `?` a byte that begins no block.
 */
typedef struct {
    const char *name;
    const char *lines;
    size_t size;
    const char *frames[FRAMES];
    uint8_t refusal;
} row;

static const row ROWS[] = {
    {"two register blocks side by side", "R 2\n", 2, {"RR"}, TFK_SECOND_REGISTERS},
    {"two register blocks, memory between", "R 2\n", 2, {"RMR"}, TFK_SECOND_REGISTERS},
    {"two register blocks, a variable between", "R 2\n", 2, {"RVR"}, TFK_SECOND_REGISTERS},
    {"two register blocks among others", "tp 1\nR 2\n", 2, {"VMRMVVRMV"}, TFK_SECOND_REGISTERS},
    {"three register blocks", "R 2\n", 2, {"RVRR"}, TFK_SECOND_REGISTERS},
    {"24 ahead of 9: the second cut short", "R 2\n", 2, {"Rr"}, TFK_SECOND_REGISTERS},
    {"24 ahead of 9: the second cut short, memory between", "R 2\n", 2, {"RMr"}, TFK_SECOND_REGISTERS},
    {"24 ahead of 9: memory behind the second cut short", "R 2\n", 2, {"RRm"}, TFK_SECOND_REGISTERS},
    {"9: the first cut short", "R 2\n", 2, {"Vr"}, TFK_BLOCK_PAST_DATA},
    {"9: memory behind the only one cut short", "R 2\n", 2, {"Rm"}, TFK_BLOCK_PAST_DATA},
    {"8: a bad letter ahead of both", "R 2\n", 2, {"?RR"}, TFK_BAD_LETTER},
    {"8: a bad letter ahead of the second", "R 2\n", 2, {"R?R"}, TFK_BAD_LETTER},
    {"8: a bad letter ahead of a second cut short", "R 2\n", 2, {"RV?r"}, TFK_BAD_LETTER},
    {"8: a bad letter behind the only one", "R 2\n", 2, {"RV?"}, TFK_BAD_LETTER},
    {"24 ahead of 8: a bad letter behind the second", "R 2\n", 2, {"RR?"}, TFK_SECOND_REGISTERS},
    {"10: no R line", "", 0, {"RR"}, TFK_NO_REGISTER_SIZE},
    {"10: no R line, memory between", "R8\n", 0, {"VRMR"}, TFK_NO_REGISTER_SIZE},
    {"8: no R line, a bad letter ahead of both", "", 0, {"?RR"}, TFK_BAD_LETTER},
    {"5: two R lines", "R 2\nR 2\n", 2, {"RR"}, TFK_BAD_LINE},
    {"size 0, two letters", "R 0\n", 0, {"RR"}, TFK_SECOND_REGISTERS},
    {"size 0, two letters, a variable between", "R 0\n", 0, {"RVR"}, TFK_SECOND_REGISTERS},
    {"size 0, one letter in each frame", "R 0\n", 0, {"R", "VR", "RM"}, 0},
    {"one block in each of two frames", "R 2\n", 2, {"R", "R"}, 0},
    {"one block in each frame, last and first", "R 2\n", 2, {"VR", "RM", "MRV"}, 0},
    {"one block in the first frame and the last", "R 2\n", 2, {"R", "", "R"}, 0},
    {"a frame without one", "R 2\n", 2, {"MV", "R", "V"}, 0},
    {"first, last and between memory blocks", "R 2\n", 2, {"RM", "MMR", "MRM"}, 0},
    {"an R line and no register block", "R 2\n", 2, {"M", "", "V"}, 0},
    {"no R line", "tp 1\n", 0, {"MV", "", "M"}, 0},
    {"two in the second frame", "R 2\n", 2, {"R", "RR"}, TFK_SECOND_REGISTERS},
    {"two in the last frame", "R 2\n", 2, {"", "V", "VRMR"}, TFK_SECOND_REGISTERS},
    {"two in each frame", "R 2\n", 2, {"RR", "RR", "RR"}, TFK_SECOND_REGISTERS},
    {"8 in the frame before", "R 2\n", 2, {"?", "RR"}, TFK_BAD_LETTER},
    {"9 in the frame before", "R 2\n", 2, {"v", "RR"}, TFK_BLOCK_PAST_DATA},
    {"8 in the frame behind", "R 2\n", 2, {"RR", "?"}, TFK_SECOND_REGISTERS},
    {"9 in the frame behind", "R 2\n", 2, {"RR", "v"}, TFK_SECOND_REGISTERS},
};

static const row ONCE = {.lines = "R 2\n", .size = 2, .frames = {"R"}};
static const row TWICE = {.lines = "R 2\n", .size = 2, .frames = {"RR"}};
static const row BAD_LETTER = {.lines = "R 2\n", .size = 2, .frames = {"R?"}};
static const row TWO_AND_ONE_BETWEEN = {.lines = "R 2\n", .size = 2, .frames = {"VR", "M", "RV"}};

/* A file, and of each frame where the bytes of its register block stand; 0 where it has none. */
typedef struct {
    made file;
    size_t opening;
    size_t frames;
    size_t registers[FRAMES];
} written;

static void put_bytes(made *file, size_t count, char byte)
{
    for (size_t i = 0; i < count; i++) {
        put(file, &byte, 1);
    }
}

/* A block of which every byte but the letter and a memory block's length is this one. */
static void put_block(made *data, char letter, size_t size, char byte)
{
    put(data, &letter, 1);
    if (letter == 'R') {
        put_bytes(data, size, byte);
    } else if (letter == 'M') {
        put_bytes(data, 8, byte);
        put_number(data, MEMORY, 2);
        put_bytes(data, MEMORY, byte);
    } else if (letter == 'V') {
        put_bytes(data, VARIABLE - 1, byte);
    }
}

static void put_frame(written *trace, const char *letters, size_t size, char byte)
{
    made data = {.order = trace->file.order};
    size_t place = trace->file.length + FRAME_HEAD;
    for (; *letters != '\0'; letters++) {
        if (*letters == 'R') {
            trace->registers[trace->frames] = place + data.length + 1;
        }
        put_block(&data, (char)toupper(*letters), size, byte);
        data.length -= islower(*letters) ? 1 : 0;
    }
    put_number(&trace->file, NUMBER + trace->frames, 2);
    put_number(&trace->file, data.length, 4);
    put(&trace->file, (const char *)data.bytes, data.length);
    trace->frames++;
}

static written opened(uint8_t order, const char *lines)
{
    written trace = {.file = {.order = order}};
    PUT(&trace.file, HEAD);
    put(&trace.file, lines, strlen(lines));
    PUT(&trace.file, "\n");
    trace.opening = trace.file.length;
    return trace;
}

static written written_of(const row *given, uint8_t order, char byte)
{
    written trace = opened(order, given->lines);
    while (trace.frames < FRAMES && given->frames[trace.frames] != NULL) {
        put_frame(&trace, given->frames[trace.frames], given->size, byte);
    }
    return trace;
}

/* Every call refuses the file, and so do joins and pairs with its own opening for the other trace. */
static void refused(tfk_settings settings, const written *trace, uint8_t refusal)
{
    size_t length = trace->file.length, opening = trace->opening;
    uint8_t *file = exactly(trace->file.bytes, length), *other = exactly(trace->file.bytes, opening);
    all_refuse(settings, file, length, refusal);
    join_refused(settings, file, length, other, opening, ROOM, refusal);
    join_refused(settings, other, opening, file, length, ROOM, refusal);
    pair_refused(settings, file, length, other, opening, 0, refusal);
    pair_refused(settings, other, opening, file, length, 0, refusal);
    free(file);
    free(other);
}

/* The file's registers in frame n, or none where the place is 0. */
static int has_registers(tfk_settings settings, const uint8_t *file, size_t length, size_t n, size_t place, size_t size)
{
    tfk_place answer = tfk_registers_place(settings, file, length, n);
    return place != 0 ? is_place(answer, 0, place, size) : is_place(answer, TFK_NOT_FOUND, 0, 0);
}

/* The table has each frame's own registers: none of the frame before, and none where there are none. */
static void tabled(tfk_settings settings, const uint8_t *file, const written *trace)
{
    size_t length = trace->file.length;
    tfk_frame *records = patterned(trace->frames * sizeof *records);
    CHECK(is_count(tfk_frame_table(settings, file, length, records, trace->frames), 0, trace->frames));
    for (size_t n = 0; n < trace->frames; n++) {
        tfk_frame_part data = tfk_frame_place(settings, file, length, n);
        CHECK(is_frame(records[n], (uint16_t)(NUMBER + n), data.place, data.length, trace->registers[n]));
    }
    free(records);
}

/* Every call reads the file; each frame has its blocks and its own registers. */
static void accepted(tfk_settings settings, const written *trace, const row *given, uint8_t marked)
{
    size_t length = trace->file.length;
    uint8_t *file = exactly(trace->file.bytes, length);
    all_accept(settings, file, length, trace->opening, trace->frames, marked);
    tabled(settings, file, trace);
    for (size_t n = 0; n < trace->frames; n++) {
        size_t blocks = strlen(given->frames[n]);
        for (size_t k = 0; k < blocks; k++) {
            CHECK(tfk_block_record(settings, file, length, n, k).letter == given->frames[n][k]);
        }
        CHECK(no_block(tfk_block_record(settings, file, length, n, blocks), TFK_NOT_FOUND));
        CHECK(has_registers(settings, file, length, n, trace->registers[n], given->size));
    }
    free(file);
}

/* With the end mark and without it. */
static void judged(tfk_settings settings, const row *given, char byte)
{
    written trace = written_of(given, settings.order, byte);
    for (uint8_t marked = 0; marked <= 1; marked++) {
        fill_to(&trace.file, trace.file.length + (marked ? MARK : 0));
        if (given->refusal != 0) {
            refused(settings, &trace, given->refusal);
        } else {
            accepted(settings, &trace, given, marked);
        }
    }
}

/* The bytes of a block are no letters: each row is tried with bytes that are all `R`, and with others. */
static void every_row(tfk_settings settings)
{
    static const char BYTES[] = {'R', (char)PATTERN};
    for (size_t i = 0; i < sizeof ROWS / sizeof *ROWS; i++) {
        begin(ROWS[i].name);
        for (size_t j = 0; j < sizeof BYTES; j++) {
            about = (uint8_t)BYTES[j];
            judged(settings, &ROWS[i], BYTES[j]);
        }
        end();
    }
}

/* One frame of so many bytes, all `R`: one block, whole or cut short, or a block and then a second letter. */
static void all_letters(tfk_settings settings, const char *lines, size_t size, size_t count)
{
    written trace = opened(settings.order, lines);
    put_number(&trace.file, NUMBER, 2);
    put_number(&trace.file, count, 4);
    size_t place = trace.file.length;
    put_bytes(&trace.file, count, 'R');
    if (count > 1 + size) {
        refused(settings, &trace, TFK_SECOND_REGISTERS);
    } else if (0 < count && count < 1 + size) {
        refused(settings, &trace, TFK_BLOCK_PAST_DATA);
    } else {
        uint8_t *file = exactly(trace.file.bytes, trace.file.length);
        all_accept(settings, file, trace.file.length, trace.opening, 1, 0);
        CHECK(has_registers(settings, file, trace.file.length, 0, count == 0 ? 0 : place + 1, size));
        free(file);
    }
}

/* The last of the lines says two sizes, so that one file has one block in base 16 and a second letter in base 10. */
static void at_every_size(tfk_settings settings)
{
    static const struct {
        const char *lines;
        size_t ten;
        size_t sixteen;
    } SIZES[] = {{"R 0\n", 0, 0}, {"R 1\n", 1, 1}, {"R 2\n", 2, 2}, {"R 10\n", 10, 16}};
    begin("frames of bytes that are all R");
    for (size_t i = 0; i < sizeof SIZES / sizeof *SIZES; i++) {
        size_t size = settings.base == TEN ? SIZES[i].ten : SIZES[i].sixteen;
        for (size_t count = 0; count <= 2 * (1 + size) + 1; count++) {
            about = 100 * size + count;
            all_letters(settings, SIZES[i].lines, size, count);
        }
    }
    end();
}

/* What stands behind a frame with one block and is refused there; behind a frame with two it is not reached. */
static void ahead_of_the_rest(tfk_settings settings)
{
    static const struct {
        const char *bytes;
        size_t length;
        uint8_t refusal;
    } RESTS[] = {
        {"\1", 1, TFK_SHORT_HEAD},
        {"\0\0", 2, TFK_BAD_MARK},
        {"\1\1\1\1\1\1", 6, TFK_DATA_PAST_FILE},
    };
    begin("24 ahead of what stands behind the frame");
    for (size_t i = 0; i < sizeof RESTS / sizeof *RESTS; i++) {
        written once = written_of(&ONCE, settings.order, 'R'), twice = written_of(&TWICE, settings.order, 'R');
        put(&once.file, RESTS[i].bytes, RESTS[i].length);
        put(&twice.file, RESTS[i].bytes, RESTS[i].length);
        about = i;
        refused(settings, &once, RESTS[i].refusal);
        refused(settings, &twice, TFK_SECOND_REGISTERS);
    }
    end();
}

/* Of two files that are refused the first one's refusal is given. */
static void both_refused(tfk_settings settings)
{
    written twice = written_of(&TWICE, settings.order, 'R'), bad = written_of(&BAD_LETTER, settings.order, 'R');
    size_t first_length = twice.file.length, second_length = bad.file.length;
    uint8_t *first = exactly(twice.file.bytes, first_length), *second = exactly(bad.file.bytes, second_length);
    begin("24 and 8 in two files");
    join_refused(settings, first, first_length, second, second_length, ROOM, TFK_SECOND_REGISTERS);
    join_refused(settings, second, second_length, first, first_length, ROOM, TFK_BAD_LETTER);
    pair_refused(settings, first, first_length, second, second_length, 0, TFK_SECOND_REGISTERS);
    pair_refused(settings, second, second_length, first, first_length, 0, TFK_BAD_LETTER);
    free(first);
    free(second);
    end();
}

/* A cut takes away the frame between two that have a register block each: both are read as before. */
static void cut_together(tfk_settings settings, const uint8_t *file, const written *trace)
{
    static const tfk_selection SECOND = {{{NUMBER + 1, NUMBER + 1}}, 1, 1};
    size_t gone = FRAME_HEAD + MEMORY_HEAD + MEMORY, kept = trace->file.length - gone;
    uint8_t *out = patterned(kept);
    CHECK(is_length(tfk_cut(settings, file, trace->file.length, tfk_opposite(SECOND), out, kept), 0, kept));
    CHECK(is_count(tfk_frame_count(settings, out, kept), 0, 2));
    CHECK(has_registers(settings, out, kept, 0, trace->registers[0], 2));
    CHECK(has_registers(settings, out, kept, 1, trace->registers[2] - gone, 2));
    free(out);
}

/* A join puts one behind the other: likewise. */
static void join_together(tfk_settings settings, const uint8_t *file, const written *trace)
{
    size_t length = trace->file.length, more = length - trace->opening, joined = length + more;
    uint8_t *out = patterned(joined);
    CHECK(is_length(tfk_join(settings, file, length, file, length, out, joined), 0, joined));
    CHECK(is_count(tfk_frame_count(settings, out, joined), 0, 2 * trace->frames));
    for (size_t n = 0; n < trace->frames; n++) {
        size_t place = trace->registers[n];
        CHECK(has_registers(settings, out, joined, n, place, 2));
        CHECK(has_registers(settings, out, joined, trace->frames + n, place != 0 ? place + more : 0, 2));
    }
    free(out);
}

static void edits(tfk_settings settings)
{
    written trace = written_of(&TWO_AND_ONE_BETWEEN, settings.order, 'R');
    uint8_t *file = exactly(trace.file.bytes, trace.file.length);
    begin("a cut and a join of frames with one register block each");
    cut_together(settings, file, &trace);
    join_together(settings, file, &trace);
    free(file);
    end();
}

void registers(void)
{
    with_all_settings(every_row);
    with_all_settings(at_every_size);
    with_all_settings(ahead_of_the_rest);
    with_all_settings(both_refused);
    with_all_settings(edits);
}
