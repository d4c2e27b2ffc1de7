/* Whether an answer has exactly these fields. */
#ifndef ANSWERS_H
#define ANSWERS_H

#include "tufakpeni.h"

int is_settings(tfk_settings answer, uint8_t order, uint8_t base);
int is_count(tfk_count answer, uint8_t refusal, size_t count);
int is_mark(tfk_mark answer, uint8_t refusal, uint8_t marked);
int is_place(tfk_place answer, uint8_t refusal, size_t place, size_t length);
int is_frame_part(tfk_frame_part answer, uint8_t refusal, size_t place, size_t length, size_t heads);
int is_line(tfk_line answer, uint8_t refusal, uint8_t kind, size_t place, size_t length);
int is_value(tfk_value answer, uint8_t refusal, int64_t value);
int is_length(tfk_length answer, uint8_t refusal, size_t length);
int is_part(tfk_pair_part answer, uint8_t refusal, uint8_t trace, size_t place, size_t length);
int is_range(tfk_cpu_range answer, uint8_t refusal, uint64_t offset, uint64_t size);
/* `registers` is 0 where the frame has none. */
int is_frame(tfk_frame answer, uint16_t tracepoint, size_t place, size_t size, size_t registers);

int is_registers(tfk_block answer, size_t place);
int is_memory(tfk_block answer, size_t place, uint64_t address, size_t length);
int is_variable(tfk_block answer, size_t place, uint32_t number, int64_t value);
int no_block(tfk_block answer, uint8_t refusal);

/* Whether two summaries are the same, field by field. */
int same_summary(const tfk_dat_summary *one, const tfk_dat_summary *other);

#endif
