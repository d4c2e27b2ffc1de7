#include "traces.h"

#include "tufakpeni.h"

#include <string.h>

static void add(small_trace *trace, size_t from, uint8_t refusal, size_t frames)
{
    step next = {from, refusal, frames, 0};
    trace->steps[trace->step_count++] = next;
}

/* The head and a description, all of it with its empty line: what is read at each length of it. */
static void open_with(small_trace *trace, const char *name, const char *lines)
{
    trace->name = name;
    PUT(&trace->file, HEAD);
    put(&trace->file, lines, strlen(lines));
    PUT(&trace->file, "\n");
    trace->opening = trace->file.length;
    add(trace, 0, TFK_BAD_HEAD, 0);
    add(trace, 8, TFK_NO_EMPTY_LINE, 0);
    add(trace, trace->opening, 0, 0);
}

/* A frame's head of this size, behind so many frames. Its data have to follow. */
static void frame(small_trace *trace, uint16_t tracepoint, uint32_t size, size_t before)
{
    size_t at = trace->file.length;
    put_number(&trace->file, tracepoint, 2);
    put_number(&trace->file, size, 4);
    add(trace, at + 1, TFK_SHORT_HEAD, before);
    if (size > 0) {
        add(trace, at + 6, TFK_DATA_PAST_FILE, before);
    }
    add(trace, at + 6 + size, 0, before + 1);
}

/* These bytes behind so many frames. They begin with two bytes of 0: only four of 0 up to the end are the end mark. */
static void ending(small_trace *trace, const char *bytes, size_t length, size_t frames)
{
    size_t at = trace->file.length;
    put(&trace->file, bytes, length);
    add(trace, at + 1, TFK_SHORT_HEAD, frames);
    add(trace, at + 2, TFK_BAD_MARK, frames);
    if (memcmp(bytes, "\0\0\0\0", MARK) == 0) {
        add(trace, at + MARK, 0, frames);
        trace->steps[trace->step_count - 1].marked = 1;
        add(trace, at + MARK + 1, TFK_BAD_MARK, frames);
    }
}

static void mark(small_trace *trace, size_t frames)
{
    ending(trace, "\0\0\0\0", MARK, frames);
}

static void memory(small_trace *trace, uint64_t address, uint16_t length)
{
    PUT(&trace->file, "M");
    put_number(&trace->file, address, 8);
    put_number(&trace->file, length, 2);
}

static void variable(small_trace *trace, uint32_t number, int64_t value)
{
    PUT(&trace->file, "V");
    put_number(&trace->file, number, 4);
    put_number(&trace->file, (uint64_t)value, 8);
}

/* Traces of one frame whose data are the same in both byte orders; `refusal` is that of the whole file. */
static const struct {
    const char *name;
    const char *lines;
    uint32_t size;
    const char *data;
    uint8_t refusal;
} ONE_FRAME[] = {
    {"two registers", "R 2\n", 3, "R\xaa\xbb", 0},
    {"registers of size 0, then memory", "R 0\n", 12, "RM\1\1\1\1\1\1\1\1\0\0", 0},
    {"memory, then registers of size 0", "R 0\n", 12, "M\1\1\1\1\1\1\1\1\0\0R", 0},
    {"two register letters of size 0", "R 0\n", 2, "RR", TFK_SECOND_REGISTERS},
    {"two register blocks", "R 2\n", 6, "R\xaa\xbbR\xcc\xdd", TFK_SECOND_REGISTERS},
    {"registers without a size", "R8\n", 1, "R", TFK_NO_REGISTER_SIZE},
    {"a bad letter", "", 1, "\0", TFK_BAD_LETTER},
    {"registers past the data", "R 2\n", 2, "R\xaa", TFK_BLOCK_PAST_DATA},
    {"a memory block's own fields past the data", "", 10, "M\1\2\3\4\5\6\7\10\1", TFK_BLOCK_PAST_DATA},
    {"a memory block's bytes past the data", "", 12, "M\0\0\0\0\0\0\0\0\xff\xffx", TFK_BLOCK_PAST_DATA},
    {"a variable past the data", "", 12, "V\1\2\3\4\5\6\7\10\1\2\3", TFK_BLOCK_PAST_DATA},
};

/* Traces with a line that is refused in either base, where its end stands, from the length `from` on. */
static const struct {
    const char *name;
    const char *lines;
    size_t from;
} REFUSED_LINES[] = {
    {"a register size of 65,536 in base 10, of five digits in base 16", "tp 1\nR 65536\n", 21},
    {"two status lines", "status 1\nR 1\nstatus 1\n", 30},
    {"two register sizes", "R 1\nR 1\ntp 1\n", 16},
    {"a register size of six digits", "R 000001\n", 17},
};

/* What stands behind one frame and begins as the end mark does. Two are a frame of number 0 with data, in one order. */
static const struct {
    const char *name;
    size_t length;
    const char *bytes;
} ENDINGS[] = {
    {"the end mark and bytes of 0", 7, "\0\0\0\0\0\0\0"},
    {"the end mark and a byte more", 5, "\0\0\0\0\1"},
    {"the end mark and a frame", 10, "\0\0\0\0\1\1\0\0\0\0"},
    {"00 00 01 00", 4, "\0\0\1\0"},
    {"00 00 00 01", 4, "\0\0\0\1"},
    {"number 0 with data, little", 9, "\0\0\3\0\0\0RMM"},
    {"number 0 with data, big", 9, "\0\0\0\0\0\3RMM"},
    {"number 0 with data past the file", 6, "\0\0\1\1\1\1"},
};

enum {
    ONE_FRAMES = sizeof ONE_FRAME / sizeof *ONE_FRAME,
    REFUSED = sizeof REFUSED_LINES / sizeof *REFUSED_LINES,
    ALL_ENDINGS = sizeof ENDINGS / sizeof *ENDINGS,
    OTHERS = MARK_AFTER_ZEROS + 1
};

static void one_frame(small_trace *trace, size_t i)
{
    open_with(trace, ONE_FRAME[i].name, ONE_FRAME[i].lines);
    frame(trace, 1, ONE_FRAME[i].size, 0);
    put(&trace->file, ONE_FRAME[i].data, ONE_FRAME[i].size);
    if (ONE_FRAME[i].refusal != 0) {
        trace->step_count--;
        add(trace, trace->file.length, ONE_FRAME[i].refusal, 0);
    }
}

static void refused_line(small_trace *trace, size_t i)
{
    open_with(trace, REFUSED_LINES[i].name, REFUSED_LINES[i].lines);
    trace->step_count--;
    add(trace, REFUSED_LINES[i].from, TFK_BAD_LINE, 0);
}

static void one_ending(small_trace *trace, size_t i)
{
    open_with(trace, ENDINGS[i].name, "R 2\n");
    frame(trace, 1, 0, 0);
    ending(trace, ENDINGS[i].bytes, ENDINGS[i].length, 1);
}

static void memory_at_the_top(small_trace *trace)
{
    open_with(trace, "memory at the top", "");
    frame(trace, 1, 13, 0);
    memory(trace, UINT64_MAX, 2);
    PUT(&trace->file, "\x11\x22");
}

static void a_variable(small_trace *trace)
{
    open_with(trace, "a variable", "");
    frame(trace, 1, 13, 0);
    variable(trace, 1, -1);
}

static void numbers_1_2_1(small_trace *trace)
{
    open_with(trace, "frames 1, 2, 1 without data", "tp 1\nstatus 1\ntsv 1\ntdesc \nR8\n");
    frame(trace, 1, 0, 0);
    frame(trace, 2, 0, 1);
    frame(trace, 1, 0, 2);
}

static void every_block(small_trace *trace)
{
    open_with(trace, "blocks of every kind", "R 3\n");
    frame(trace, 65535, 40, 0);
    variable(trace, UINT32_MAX, INT64_MIN);
    memory(trace, 0x4D, 0);
    PUT(&trace->file, "RMRV");
    memory(trace, 0x4D, 1);
    PUT(&trace->file, "R");
    frame(trace, 7, 17, 1);
    PUT(&trace->file, "Rabc");
    variable(trace, 2, -3);
}

static void mark_alone(small_trace *trace)
{
    open_with(trace, "the end mark after no frames", "R 2\ntp 1\n");
    mark(trace, 0);
}

/* One of the number's two bytes is 0, the first in little order. */
static void mark_after_256(small_trace *trace)
{
    open_with(trace, "the end mark after an empty frame of number 256", "");
    frame(trace, 256, 0, 0);
    mark(trace, 1);
}

static void mark_after_zeros(small_trace *trace)
{
    open_with(trace, "the end mark after data that end in zeros", "R 2\n");
    frame(trace, 1, 3, 0);
    PUT(&trace->file, "R\xaa\xbb");
    frame(trace, 2, 31, 1);
    PUT(&trace->file, "R\xcc\xdd");
    variable(trace, 1, -1);
    memory(trace, 0x4D, MARK);
    fill_to(&trace->file, trace->file.length + MARK);
    mark(trace, 2);
}

size_t small_traces(void)
{
    return OTHERS + ONE_FRAMES + REFUSED + ALL_ENDINGS;
}

small_trace small_trace_of(size_t i, uint8_t order)
{
    static void (*const OTHER[OTHERS])(small_trace *) = {
        memory_at_the_top, a_variable, numbers_1_2_1, every_block, mark_alone, mark_after_256, mark_after_zeros,
    };
    small_trace trace;
    memset(&trace, 0, sizeof trace);
    trace.file.order = order;
    if (i < OTHERS) {
        OTHER[i](&trace);
    } else if (i < OTHERS + ONE_FRAMES) {
        one_frame(&trace, i - OTHERS);
    } else if (i < OTHERS + ONE_FRAMES + REFUSED) {
        refused_line(&trace, i - OTHERS - ONE_FRAMES);
    } else {
        one_ending(&trace, i - OTHERS - ONE_FRAMES - REFUSED);
    }
    return trace;
}

step step_at(const small_trace *trace, size_t length)
{
    step found = trace->steps[0];
    for (size_t i = 0; i < trace->step_count && trace->steps[i].from <= length; i++) {
        found = trace->steps[i];
    }
    return found;
}
