/* The small traces that are tried at every length. Each reads alike in base 10 and in base 16. */
#ifndef TRACES_H
#define TRACES_H

#include "check.h"

#define HEAD "\177TRACE0\n"
#define BARE HEAD "\n"

/* From this length on, up to the next step, the file is refused so behind so many frames, or has so many in all and the
   end mark or not. */
typedef struct {
    size_t from;
    uint8_t refusal;
    size_t frames;
    uint8_t marked;
} step;

typedef struct {
    const char *name;
    made file;
    size_t opening;
    step steps[13];
    size_t step_count;
} small_trace;

/* Those that are asked more; others follow. */
enum {
    MEMORY_AT_THE_TOP,
    A_VARIABLE,
    NUMBERS_1_2_1,
    EVERY_BLOCK,
    MARK_ALONE,
    MARK_AFTER_256,
    MARK_AFTER_ZEROS,
    TWO_REGISTERS,
    NO_REGISTER_BYTES,
    NO_REGISTER_BYTES_LAST
};

/* How many there are, and trace i in this byte order. */
size_t small_traces(void);
small_trace small_trace_of(size_t i, uint8_t order);
step step_at(const small_trace *trace, size_t length);

#endif
