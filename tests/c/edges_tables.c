/*
 * The frame table into records that hold a pattern before: what fits, what does not, and what is refused. No two of the
 * records before are the same, so that one that moved is seen too.
 */
#include "answers.h"
#include "check.h"
#include "edges.h"
#include "settings.h"
#include "traces.h"

#include <stdlib.h>

enum { RECORDS = 16 };

/* A file, and what its table answers; the frames' records, of which there are as many as frames. */
typedef struct {
    const char *name;
    uint8_t order;
    const char *file;
    size_t length;
    uint8_t refusal;
    size_t frames;
    tfk_frame records[3];
} table_case;

#define FILE_OF(text) (text), sizeof(text) - 1
/* A frame without registers, and one with them at this place. */
#define FRAME(number, at, bytes) {.tracepoint = (number), .place = (at), .size = (bytes)}
#define HELD(number, at, bytes, registers) \
    {.tracepoint = (number), .has_registers = 1, .place = (at), .size = (bytes), .registers_place = (registers)}

/* One frame, then 5 bytes; then data past the file; then three bytes of 0: all read alike in either order. */
#define SHORT_HEAD BARE "\1\0\0\0\0\0" "\1\0\0\0\0"
#define SHORT_DATA BARE "\1\0\0\0\0\0" "\1\0\1\0\0\1"
#define SHORT_MARK BARE "\1\0\0\0\0\0" "\0\0\0"
#define END_MARK "\0\0\0\0"
#define TWO_BLOCKS "R\252\273R\252\273"
#define THREE_SIZES HEAD "R 2\n\n" "\1\0\3\0\0\0" "RMM" "\2\0\15\0\0\0" "V\1\0\0\0\377\377\377\377\377\377\377\377" "\1\0\0\0\0\0"

static const table_case CASES[] = {
    {"two registers, little", 0, FILE_OF(HEAD "R 2\n\n" "\1\0\3\0\0\0" "R\252\273"), 0, 1, {HELD(1, 19, 3, 20)}},
    {"two registers, big", 1, FILE_OF(HEAD "R 2\n\n" "\0\1\0\0\0\3" "R\252\273"), 0, 1, {HELD(1, 19, 3, 20)}},
    {"sizes 3, 13 and 0", 0, FILE_OF(THREE_SIZES), 0, 3, {HELD(1, 19, 3, 20), FRAME(2, 28, 13), FRAME(1, 47, 0)}},
    {"no frames, little", 0, FILE_OF(BARE), 0, 0, {{0}}},
    {"no frames, big", 1, FILE_OF(BARE), 0, 0, {{0}}},
    {"sizes 3, 13 and 0, marked", 0, FILE_OF(THREE_SIZES END_MARK), 0, 3,
     {HELD(1, 19, 3, 20), FRAME(2, 28, 13), FRAME(1, 47, 0)}},
    {"no frames, marked, little", 0, FILE_OF(BARE END_MARK), 0, 0, {{0}}},
    {"no frames, marked, big", 1, FILE_OF(BARE END_MARK), 0, 0, {{0}}},
    {"no frames, order 2", 2, FILE_OF(BARE), TFK_BAD_ARGUMENT, 0, {{0}}},
    {"the number 01 00, little", 0, FILE_OF(BARE "\1\0\0\0\0\0"), 0, 1, {FRAME(1, 15, 0)}},
    {"the number 01 00, big", 1, FILE_OF(BARE "\1\0\0\0\0\0"), 0, 1, {FRAME(256, 15, 0)}},
    {"the number 00 01, marked, little", 0, FILE_OF(BARE "\0\1\0\0\0\0" END_MARK), 0, 1, {FRAME(256, 15, 0)}},
    {"the number 00 01, marked, big", 1, FILE_OF(BARE "\0\1\0\0\0\0" END_MARK), 0, 1, {FRAME(1, 15, 0)}},
    {"one frame, order 2", 2, FILE_OF(BARE "\1\0\0\0\0\0"), TFK_BAD_ARGUMENT, 0, {{0}}},
    {"empty file, little", 0, FILE_OF(""), TFK_BAD_HEAD, 0, {{0}}},
    {"empty file, big", 1, FILE_OF(""), TFK_BAD_HEAD, 0, {{0}}},
    {"empty file, order 2", 2, FILE_OF(""), TFK_BAD_ARGUMENT, 0, {{0}}},
    {"head alone, little", 0, FILE_OF(HEAD), TFK_NO_EMPTY_LINE, 0, {{0}}},
    {"head alone, big", 1, FILE_OF(HEAD), TFK_NO_EMPTY_LINE, 0, {{0}}},
    {"a frame, then 5 bytes, little", 0, FILE_OF(SHORT_HEAD), TFK_SHORT_HEAD, 0, {{0}}},
    {"a frame, then 5 bytes, big", 1, FILE_OF(SHORT_HEAD), TFK_SHORT_HEAD, 0, {{0}}},
    {"a frame, then data past the file, little", 0, FILE_OF(SHORT_DATA), TFK_DATA_PAST_FILE, 0, {{0}}},
    {"a frame, then data past the file, big", 1, FILE_OF(SHORT_DATA), TFK_DATA_PAST_FILE, 0, {{0}}},
    {"a frame, then 3 bytes of 0, little", 0, FILE_OF(SHORT_MARK), TFK_BAD_MARK, 0, {{0}}},
    {"a frame, then 3 bytes of 0, big", 1, FILE_OF(SHORT_MARK), TFK_BAD_MARK, 0, {{0}}},
    {"a frame, then one of two register blocks, little", 0,
     FILE_OF(HEAD "R 2\n\n" "\1\0\0\0\0\0" "\1\0\6\0\0\0" TWO_BLOCKS), TFK_SECOND_REGISTERS, 0, {{0}}},
    {"a frame, then one of two register blocks, big", 1,
     FILE_OF(HEAD "R 2\n\n" "\0\1\0\0\0\0" "\0\1\0\0\0\6" TWO_BLOCKS), TFK_SECOND_REGISTERS, 0, {{0}}},
};

/* Record k before. Its yes or no is neither. */
static tfk_frame before(size_t k)
{
    tfk_frame record = HELD((uint16_t)(9000 + k), 900 + k, 90 + k, 70 + k);
    record.has_registers = (uint8_t)(200 + k);
    return record;
}

static int same_frame(tfk_frame one, tfk_frame other)
{
    return one.tracepoint == other.tracepoint && one.has_registers == other.has_registers && one.place == other.place &&
           one.size == other.size && one.registers_place == other.registers_place;
}

/* The table of a file into all records: the answer, the frames' records, and those beyond as they were. */
static void answers_with(uint8_t order, const uint8_t *bytes, size_t length, uint8_t refusal, size_t frames,
                         const tfk_frame *expected)
{
    tfk_settings settings = settings_of(order, SIXTEEN);
    uint8_t *file = exactly(bytes, length);
    tfk_frame *records = patterned(RECORDS * sizeof *records);
    for (size_t k = 0; k < RECORDS; k++) {
        records[k] = before(k);
    }
    about = length;
    CHECK(is_count(tfk_frame_table(settings, file, length, records, RECORDS), refusal, frames));
    for (size_t k = 0; k < RECORDS; k++) {
        about = k;
        CHECK(same_frame(records[k], k < frames ? expected[k] : before(k)));
    }
    free(records);
    free(file);
}

/* Frames without data, numbered from 257 on, so that the two bytes of a number differ: 16 fit, and 17 do not; with 5 bytes
   behind them the file's own refusal comes first. The end mark takes no record. */
static void numbered(uint8_t order)
{
    enum { OPENING = sizeof(BARE) - 1, HEADS = 6 * (RECORDS + 1) };
    made file = {.order = order};
    tfk_frame expected[RECORDS + 1];
    PUT(&file, BARE);
    for (size_t k = 0; k <= RECORDS; k++) {
        put_number(&file, 257 + k, 2);
        put_number(&file, 0, 4);
        expected[k] = (tfk_frame)FRAME((uint16_t)(257 + k), file.length, 0);
    }
    PUT(&file, "\1\1\0\0\0");
    begin(order ? "16 and 17 frames, big" : "16 and 17 frames, little");
    answers_with(order, file.bytes, OPENING + HEADS - 6, 0, RECORDS, expected);
    answers_with(order, file.bytes, OPENING + HEADS, TFK_NO_ROOM, 0, expected);
    answers_with(order, file.bytes, OPENING + HEADS + 5, TFK_SHORT_HEAD, 0, expected);
    file.length = OPENING + HEADS - 6;
    PUT(&file, END_MARK);
    answers_with(order, file.bytes, file.length, 0, RECORDS, expected);
    end();
}

void tables(void)
{
    for (size_t i = 0; i < sizeof CASES / sizeof CASES[0]; i++) {
        const table_case *row = &CASES[i];
        begin(row->name);
        answers_with(row->order, (const uint8_t *)row->file, row->length, row->refusal, row->frames, row->records);
        end();
    }
    numbered(0);
    numbered(1);
}
