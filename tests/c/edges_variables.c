/* Which block of a variable counts: the latest with its number, in one trace and in a pair. Memory keeps to the earliest. */
#include "answers.h"
#include "check.h"
#include "edges.h"
#include "settings.h"
#include "traces.h"

#include <stdlib.h>

enum { BLOCKS = 6, REGISTERS = 13, MEMORY_AT = 7 };
/* The number that is asked for, one that reads so in the other byte order, and one that differs in the highest byte. */
enum { NUMBER = 0x01020304, OTHER = 0x04030201, HIGHER = 0x02020304 };

/*
 * A block by its letter. `V` has the number asked for, `W` and `X` others, each the value; memory (`m`) and registers (`r`)
 * have the bytes of a whole `V` block with the number asked for and the value.
 */
typedef struct {
    char letter;
    int64_t value;
} part;

/* A frame's blocks, and the value that is answered, if any. */
typedef struct {
    const char *name;
    part blocks[BLOCKS];
    uint8_t refusal;
    int64_t value;
} row;

static const row ROWS[] = {
    {"one block alone", {{'V', 5}}, 0, 5},
    {"the only one first", {{'V', 5}, {'m', 9}, {'r', 9}, {'W', 9}}, 0, 5},
    {"the only one last", {{'W', 9}, {'m', 9}, {'r', 9}, {'V', 5}}, 0, 5},
    {"the only one between others", {{'m', 9}, {'W', 8}, {'V', 5}, {'W', 9}, {'r', 9}}, 0, 5},
    {"two side by side", {{'V', 5}, {'V', 6}}, 0, 6},
    {"two, the later value lower", {{'V', 6}, {'V', 5}}, 0, 5},
    {"two, the later value negative", {{'V', 6}, {'V', -1}}, 0, -1},
    {"two, the later value 0", {{'V', INT64_MIN}, {'V', 0}}, 0, 0},
    {"two alike", {{'V', INT64_MAX}, {'V', INT64_MAX}}, 0, INT64_MAX},
    {"two apart", {{'V', 5}, {'m', 9}, {'W', 9}, {'r', 9}, {'V', 6}}, 0, 6},
    {"two, others behind them", {{'V', 5}, {'V', 6}, {'W', 9}, {'m', 9}, {'r', 9}}, 0, 6},
    {"two of each number in turn", {{'V', 5}, {'W', 8}, {'V', 6}, {'W', 9}}, 0, 6},
    {"three side by side", {{'V', 5}, {'V', 7}, {'V', 6}}, 0, 6},
    {"three, the first value again", {{'V', 5}, {'V', 6}, {'V', 5}}, 0, 5},
    {"three apart", {{'V', 5}, {'W', 9}, {'V', 7}, {'r', 9}, {'V', 6}, {'m', 9}}, 0, 6},
    {"a number in memory bytes alone", {{'m', 9}}, TFK_NOT_FOUND, 0},
    {"a number in register bytes alone", {{'W', 8}, {'r', 9}}, TFK_NOT_FOUND, 0},
    {"a number that differs in its highest byte", {{'V', 5}, {'X', 9}}, 0, 5},
    {"such a number alone", {{'X', 9}}, TFK_NOT_FOUND, 0},
    {"another number alone", {{'W', 8}, {'W', 9}}, TFK_NOT_FOUND, 0},
    {"no block", {{0}}, TFK_NOT_FOUND, 0},
};

static void put_block(made *data, part block)
{
    if (block.letter == 'm') {
        PUT(data, "M");
        put_number(data, MEMORY_AT, 8);
        put_number(data, REGISTERS, 2);
    } else if (block.letter == 'r') {
        PUT(data, "R");
    }
    PUT(data, "V");
    put_number(data, block.letter == 'W' ? OTHER : block.letter == 'X' ? HIGHER : NUMBER, 4);
    put_number(data, (uint64_t)block.value, 8);
}

static void put_frame(made *file, const row *given)
{
    made data = {.order = file->order};
    for (size_t k = 0; k < BLOCKS && given->blocks[k].letter != 0; k++) {
        put_block(&data, given->blocks[k]);
    }
    put_number(file, 1, 2);
    put_number(file, data.length, 4);
    put(file, (const char *)data.bytes, data.length);
}

/* A trace whose register blocks are as long as a variable's, and which has no frames yet. */
static made opened(tfk_settings settings)
{
    made file = {.order = settings.order};
    PUT(&file, HEAD);
    put(&file, settings.base == TEN ? "R 13\n\n" : "R d\n\n", settings.base == TEN ? 6 : 5);
    return file;
}

/* Each row's frame has its own value, whatever stands in the frames around it; and so it is in a pair. */
static void every_row(tfk_settings settings)
{
    static const row AROUND = {"", {{'V', 70}, {'V', 71}}, 0, 71};
    for (size_t i = 0; i < sizeof ROWS / sizeof *ROWS; i++) {
        made trace = opened(settings);
        const row *rows[] = {&AROUND, &ROWS[i], &AROUND, &ROWS[i]};
        size_t frames = sizeof rows / sizeof *rows;
        for (size_t n = 0; n < frames; n++) {
            put_frame(&trace, rows[n]);
        }
        uint8_t *file = exactly(trace.bytes, trace.length);
        begin(ROWS[i].name);
        for (size_t n = 0; n < frames; n++) {
            uint8_t refusal = rows[n]->refusal;
            int64_t value = rows[n]->value;
            about = n;
            CHECK(is_value(tfk_variable(settings, file, trace.length, n, NUMBER), refusal, value));
            CHECK(is_value(tfk_pair_variable(settings, file, trace.length, file, trace.length, n, NUMBER), refusal, value));
            CHECK(is_value(tfk_pair_variable(settings, file, trace.length, file, trace.length, frames + n, NUMBER), refusal, value));
        }
        end();
        free(file);
    }
}

/* Two blocks that cover an address: the earlier one answers, and the later only where it alone does. */
static void memory_stays(tfk_settings settings)
{
    made trace = opened(settings);
    put_number(&trace, 1, 2);
    put_number(&trace, 11 + 2 + 11 + 3, 4);
    size_t data = trace.length;
    PUT(&trace, "M");
    put_number(&trace, MEMORY_AT, 8);
    put_number(&trace, 2, 2);
    PUT(&trace, "\x11\x22");
    PUT(&trace, "M");
    put_number(&trace, MEMORY_AT, 8);
    put_number(&trace, 3, 2);
    PUT(&trace, "\x33\x44\x55");
    uint8_t *file = exactly(trace.bytes, trace.length);
    begin("memory of the earliest covering block");
    CHECK(is_place(tfk_memory_place(settings, file, trace.length, 0, MEMORY_AT), 0, data + 11, 2));
    CHECK(is_place(tfk_memory_place(settings, file, trace.length, 0, MEMORY_AT + 1), 0, data + 12, 1));
    CHECK(is_place(tfk_memory_place(settings, file, trace.length, 0, MEMORY_AT + 2), 0, data + 11 + 2 + 11 + 2, 1));
    end();
    free(file);
}

void variables(void)
{
    with_all_settings(every_row);
    with_all_settings(memory_stays);
}
