/*
 * The data of frame n by the parts that are read for it: the opening, the heads of frames 0 to n, the blocks of frame n.
 * A fault elsewhere does not count; every other call refuses the file for it.
 */
#include "answers.h"
#include "asked.h"
#include "calls.h"
#include "check.h"
#include "edges.h"
#include "settings.h"
#include "traces.h"

#include <stdlib.h>
#include <string.h>

enum { FRAMES = 3, FRAME_HEAD = 6 };
/* The first frame's number; the others count on from it. Its two bytes differ. */
enum { NUMBER = 0x0102 };

/* A frame: the size that its head says, and its data, which may be of another length. */
typedef struct {
    uint32_t size;
    const char *data;
    size_t length;
} frame;

/* An opening, frames and what stands behind them. The refusal of the whole file; what is answered about the first three
   frames, and the refusal of every frame behind them. */
typedef struct {
    const char *name;
    const char *opening;
    frame frames[FRAMES];
    const char *rest;
    size_t rest_length;
    uint8_t whole;
    tfk_frame_part shown[FRAMES];
    uint8_t beyond;
} row;

/* With these openings, all of 13 bytes, the first frame below is sound; has a block past its data; has registers without
   a size; has two register letters, if its data are `RR?`. */
#define OPENING HEAD "R 2\n\n"
#define OPENING_3 HEAD "R 3\n\n"
#define OPENING_NONE HEAD "tp1\n\n"
#define OPENING_0 HEAD "R 0\n\n"

#define BYTES(text) (text), sizeof(text) - 1
#define OF(text) {sizeof(text) - 1, BYTES(text)}
#define REGISTERS OF("R\252\273")
#define VARIABLE OF("V\1\2\3\4\5\6\7\10\11\12\13\14")
#define EMPTY OF("")
#define ALL_SOUND {REGISTERS, VARIABLE, EMPTY}

/* What is answered of them where they stand one behind the other; and a refusal. */
#define FIRST {.place = 19, .length = 3, .heads = 1}
#define SECOND {.place = 28, .length = 13, .heads = 2}
#define THIRD {.place = 47, .length = 0, .heads = 3}
#define NO(number) {.refusal = (number)}
#define ALL_NO(number) {NO(number), NO(number), NO(number)}

/* Three sound frames, and then these bytes where a head should start. */
#define BEHIND(name, text, whole, beyond) \
    {(name), OPENING, ALL_SOUND, BYTES(text), (whole), {FIRST, SECOND, THIRD}, (beyond)}
/* One sound frame, and then the same. */
#define BEHIND_ONE(name, text, refusal) \
    {(name), OPENING, {REGISTERS}, BYTES(text), (refusal), {FIRST, NO(refusal), NO(refusal)}, (refusal)}

static const row ROWS[] = {
    BEHIND("the file's end", "", 0, TFK_NOT_FOUND),
    BEHIND("the end mark", "\0\0\0\0", 0, TFK_NOT_FOUND),
    BEHIND("one byte", "\1", TFK_SHORT_HEAD, TFK_SHORT_HEAD),
    BEHIND("one byte of 0", "\0", TFK_SHORT_HEAD, TFK_SHORT_HEAD),
    BEHIND("two bytes", "\1\0", TFK_SHORT_HEAD, TFK_SHORT_HEAD),
    BEHIND("two bytes, the first of 0", "\0\1", TFK_SHORT_HEAD, TFK_SHORT_HEAD),
    BEHIND("two bytes of 0", "\0\0", TFK_BAD_MARK, TFK_BAD_MARK),
    BEHIND("three bytes", "\1\0\0", TFK_SHORT_HEAD, TFK_SHORT_HEAD),
    BEHIND("three bytes of 0", "\0\0\0", TFK_BAD_MARK, TFK_BAD_MARK),
    BEHIND("four bytes", "\0\1\0\0", TFK_SHORT_HEAD, TFK_SHORT_HEAD),
    BEHIND("a bad mark, its third byte", "\0\0\1\0", TFK_BAD_MARK, TFK_BAD_MARK),
    BEHIND("a bad mark, its fourth byte", "\0\0\0\1", TFK_BAD_MARK, TFK_BAD_MARK),
    BEHIND("five bytes", "\1\0\0\0\0", TFK_SHORT_HEAD, TFK_SHORT_HEAD),
    BEHIND("five bytes of 0", "\0\0\0\0\0", TFK_BAD_MARK, TFK_BAD_MARK),
    BEHIND("the end mark and a byte", "\0\0\0\0\1", TFK_BAD_MARK, TFK_BAD_MARK),
    BEHIND("the end mark and two bytes", "\0\0\0\0\0\0", TFK_BAD_MARK, TFK_BAD_MARK),
    BEHIND("the end mark and a frame", "\0\0\0\0\1\1\0\0\0\0", TFK_BAD_MARK, TFK_BAD_MARK),
    BEHIND("a bad mark and bytes behind it", "\0\0\1\1\1\1R\252\273", TFK_BAD_MARK, TFK_BAD_MARK),
    BEHIND("data past the file", "\1\1\1\1\1\1", TFK_DATA_PAST_FILE, TFK_DATA_PAST_FILE),

    BEHIND_ONE("frame 1 is a byte", "\1", TFK_SHORT_HEAD),
    BEHIND_ONE("the head of frame 1 without its last byte", "\1\1\0\0\0", TFK_SHORT_HEAD),
    BEHIND_ONE("the number of frame 1 is 0", "\0\0\1\0\0\1V", TFK_BAD_MARK),
    BEHIND_ONE("the data of frame 1 run past the file", "\1\1\1\0\0\1V", TFK_DATA_PAST_FILE),
    {"no frame 1", OPENING, {REGISTERS}, BYTES(""), 0, {FIRST, NO(TFK_NOT_FOUND), NO(TFK_NOT_FOUND)}, TFK_NOT_FOUND},
    {"no frame", OPENING, {{0}}, BYTES(""), 0, ALL_NO(TFK_NOT_FOUND), TFK_NOT_FOUND},
    {"no frame, the end mark", OPENING, {{0}}, BYTES("\0\0\0\0"), 0, ALL_NO(TFK_NOT_FOUND), TFK_NOT_FOUND},

    {"8 in the first frame", OPENING, {OF("?\252\273"), VARIABLE, EMPTY}, BYTES(""), TFK_BAD_LETTER,
     {NO(TFK_BAD_LETTER), SECOND, THIRD}, TFK_NOT_FOUND},
    {"24 in the first frame", OPENING_0, {OF("RR?"), VARIABLE, EMPTY}, BYTES(""), TFK_SECOND_REGISTERS,
     {NO(TFK_SECOND_REGISTERS), SECOND, THIRD}, TFK_NOT_FOUND},
    {"10 in the first frame", OPENING_NONE, ALL_SOUND, BYTES(""), TFK_NO_REGISTER_SIZE,
     {NO(TFK_NO_REGISTER_SIZE), SECOND, THIRD}, TFK_NOT_FOUND},
    {"9 in the first frame", OPENING_3, ALL_SOUND, BYTES(""), TFK_BLOCK_PAST_DATA,
     {NO(TFK_BLOCK_PAST_DATA), SECOND, THIRD}, TFK_NOT_FOUND},
    {"8 in the second frame", OPENING, {REGISTERS, OF("?\1\2\3\4\5\6\7\10\11\12\13\14"), EMPTY}, BYTES(""),
     TFK_BAD_LETTER, {FIRST, NO(TFK_BAD_LETTER), THIRD}, TFK_NOT_FOUND},
    {"24 in the second frame", OPENING, {REGISTERS, OF("R\1\2R\3\4R\5\6R\7\10?"), EMPTY}, BYTES(""),
     TFK_SECOND_REGISTERS, {FIRST, NO(TFK_SECOND_REGISTERS), THIRD}, TFK_NOT_FOUND},
    {"10 in the second frame", OPENING_NONE, {VARIABLE, REGISTERS, EMPTY}, BYTES(""), TFK_NO_REGISTER_SIZE,
     {{.place = 19, .length = 13, .heads = 1}, NO(TFK_NO_REGISTER_SIZE), THIRD}, TFK_NOT_FOUND},
    {"9 in the second frame", OPENING, {REGISTERS, OF("M\1\2\3\4\5\6\7\10\377\377\1\2"), EMPTY}, BYTES(""),
     TFK_BLOCK_PAST_DATA, {FIRST, NO(TFK_BLOCK_PAST_DATA), THIRD}, TFK_NOT_FOUND},
    {"8 in the third frame", OPENING, {REGISTERS, VARIABLE, OF("?")}, BYTES(""), TFK_BAD_LETTER,
     {FIRST, SECOND, NO(TFK_BAD_LETTER)}, TFK_NOT_FOUND},
    {"9 in the first frame, 8 in the second, the third sound, then a byte", OPENING_3,
     {REGISTERS, OF("V\1\2\3\4\5\6\7\10\11\12\13\14?"), EMPTY}, BYTES("\1"), TFK_BLOCK_PAST_DATA,
     {NO(TFK_BLOCK_PAST_DATA), NO(TFK_BAD_LETTER), {.place = 48, .length = 0, .heads = 3}}, TFK_SHORT_HEAD},

    /* 28 bytes stand behind the first head. A size that fits is taken as it is: the next head stands where it says. */
    {"the first size past the file", OPENING, {{29, BYTES("R\252\273")}, VARIABLE, EMPTY}, BYTES(""), TFK_DATA_PAST_FILE,
     ALL_NO(TFK_DATA_PAST_FILE), TFK_DATA_PAST_FILE},
    {"the first size past the file, a bad letter behind it", OPENING, {{29, BYTES("?\252\273")}, VARIABLE, EMPTY},
     BYTES(""), TFK_DATA_PAST_FILE, ALL_NO(TFK_DATA_PAST_FILE), TFK_DATA_PAST_FILE},
    {"the first size of 32 bits", OPENING, {{UINT32_MAX, BYTES("R\252\273")}, VARIABLE, EMPTY}, BYTES(""),
     TFK_DATA_PAST_FILE, ALL_NO(TFK_DATA_PAST_FILE), TFK_DATA_PAST_FILE},
    {"the first size up to the file's end", OPENING, {{28, BYTES("R\252\273")}, VARIABLE, EMPTY}, BYTES(""),
     TFK_BAD_LETTER, {NO(TFK_BAD_LETTER), NO(TFK_NOT_FOUND), NO(TFK_NOT_FOUND)}, TFK_NOT_FOUND},
    {"the first size up to the third frame", OPENING, {{22, BYTES("R\252\273")}, VARIABLE, EMPTY}, BYTES(""),
     TFK_BAD_LETTER, {NO(TFK_BAD_LETTER), {.place = 47, .length = 0, .heads = 2}, NO(TFK_NOT_FOUND)}, TFK_NOT_FOUND},
    {"the second size past the file", OPENING, {REGISTERS, {20, BYTES("V\1\2\3\4\5\6\7\10\11\12\13\14")}, EMPTY}, BYTES(""),
     TFK_DATA_PAST_FILE, {FIRST, NO(TFK_DATA_PAST_FILE), NO(TFK_DATA_PAST_FILE)}, TFK_DATA_PAST_FILE},
    {"8 in the first frame, the second size past the file", OPENING, {OF("?\252\273"), {20, BYTES("")}, EMPTY},
     BYTES(""), TFK_BAD_LETTER, {NO(TFK_BAD_LETTER), NO(TFK_DATA_PAST_FILE), NO(TFK_DATA_PAST_FILE)},
     TFK_DATA_PAST_FILE},

    {"a bad head of the file", "\177TRACE1\n\n", ALL_SOUND, BYTES(""), TFK_BAD_HEAD, ALL_NO(TFK_BAD_HEAD), TFK_BAD_HEAD},
    {"no empty line", HEAD "R 2\n", {{0}}, BYTES(""), TFK_NO_EMPTY_LINE, ALL_NO(TFK_NO_EMPTY_LINE), TFK_NO_EMPTY_LINE},
    {"a bad line", HEAD "R x\n\n", ALL_SOUND, BYTES(""), TFK_BAD_LINE, ALL_NO(TFK_BAD_LINE), TFK_BAD_LINE},
    {"a bad line, and 8 in the first frame", HEAD "R x\n\n", {OF("?\252\273"), VARIABLE, EMPTY}, BYTES(""), TFK_BAD_LINE,
     ALL_NO(TFK_BAD_LINE), TFK_BAD_LINE},
};

/* Past the last frame: by one, and where fewer bits than a size_t's would make it frame 0 or 1. */
static const size_t BEYOND[] = {
    FRAMES, FRAMES + 1, (size_t)UINT32_MAX + 1, SIZE_MAX / 2, SIZE_MAX / 2 + 1, SIZE_MAX / 2 + 2, SIZE_MAX,
};

static made written(const row *given, uint8_t order)
{
    made trace = {.order = order};
    put(&trace, given->opening, strlen(given->opening));
    for (size_t n = 0; n < FRAMES && given->frames[n].data != NULL; n++) {
        put_number(&trace, NUMBER + n, 2);
        put_number(&trace, given->frames[n].size, 4);
        put(&trace, given->frames[n].data, given->frames[n].length);
    }
    put(&trace, given->rest, given->rest_length);
    return trace;
}

static int answers_as(asked trace, size_t n, tfk_frame_part expected)
{
    tfk_frame_part answer = tfk_frame_place(ASKED(trace), n);
    about = n;
    return is_frame_part(answer, expected.refusal, expected.place, expected.length, expected.heads);
}

static int refuses(asked trace, size_t n, uint8_t refusal)
{
    tfk_frame_part expected = NO(refusal);
    return answers_as(trace, n, expected);
}

static void each_frame(asked trace, const row *given)
{
    asked no_order = {settings_of(2, trace.settings.base), trace.file, trace.length};
    asked no_base = {settings_of(trace.settings.order, 8), trace.file, trace.length};
    for (size_t n = 0; n < FRAMES; n++) {
        CHECK(answers_as(trace, n, given->shown[n]));
        CHECK(refuses(no_order, n, TFK_BAD_ARGUMENT));
        CHECK(refuses(no_base, n, TFK_BAD_ARGUMENT));
    }
}

static void frames_behind(asked trace, uint8_t refusal)
{
    for (size_t i = 0; i < sizeof BEYOND / sizeof *BEYOND; i++) {
        CHECK(refuses(trace, BEYOND[i], refusal));
    }
}

/* Every other call goes by the whole file, for a frame that is shown too. */
static void other_calls(asked trace, uint8_t refusal)
{
    all_refuse(ASKED(trace), refusal);
    for (size_t n = 0; n < FRAMES; n++) {
        about = n;
        frame_refused(ASKED(trace), n, refusal);
    }
}

/* The size in the head at this place. */
static size_t size_at(const made *trace, size_t at)
{
    size_t size = 0;
    for (size_t i = 0; i < 4; i++) {
        size |= (size_t)trace->bytes[at + 2 + (trace->order ? 3 - i : i)] << (8 * i);
    }
    return size;
}

/* Where the frame ends whose head stands at this place; this place itself where there is none. */
static size_t frame_end(const made *trace, size_t at)
{
    const uint8_t *head = trace->bytes + at;
    size_t left = trace->length - at;
    if (left < FRAME_HEAD || (head[0] == 0 && head[1] == 0)) {
        return at;
    }
    return size_at(trace, at) <= left - FRAME_HEAD ? at + FRAME_HEAD + size_at(trace, at) : at;
}

/* Of a trace only what is read for frame n: nothing else of the file is ever written. */
static uint8_t *parts_for(const made *trace, size_t opening, size_t n)
{
    uint8_t *parts = unwritten(trace->length);
    size_t at = opening, end = opening;
    memcpy(parts, trace->bytes, opening);
    for (size_t i = 0; i <= n; i++) {
        size_t left = trace->length - end;
        at = end;
        end = frame_end(trace, at);
        memcpy(parts + at, trace->bytes + at, left < FRAME_HEAD ? left : FRAME_HEAD);
    }
    memcpy(parts + at, trace->bytes + at, end - at);
    return parts;
}

/* The answers from these parts alone: valgrind sees where one goes by another byte. */
static void from_parts(tfk_settings settings, const made *trace, const row *given)
{
    for (size_t n = 0; n < FRAMES; n++) {
        asked alone = {settings, parts_for(trace, strlen(given->opening), n), trace->length};
        CHECK(answers_as(alone, n, given->shown[n]));
        free(alone.file);
    }
}

static void judged(tfk_settings settings, const row *given)
{
    made trace = written(given, settings.order);
    asked open = {settings, exactly(trace.bytes, trace.length), trace.length};
    each_frame(open, given);
    frames_behind(open, given->beyond);
    from_parts(settings, &trace, given);
    CHECK(tfk_frame_count(ASKED(open)).refusal == given->whole);
    if (given->whole != 0) {
        other_calls(open, given->whole);
    }
    free(open.file);
}

static void every_row(tfk_settings settings)
{
    for (size_t i = 0; i < sizeof ROWS / sizeof *ROWS; i++) {
        begin(ROWS[i].name);
        judged(settings, &ROWS[i]);
        end();
    }
}

void partial(void)
{
    with_all_settings(every_row);
}
