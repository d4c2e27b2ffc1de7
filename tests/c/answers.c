#include "answers.h"

int is_settings(tfk_settings answer, uint8_t order, uint8_t base)
{
    return answer.order == order && answer.base == base;
}

int is_count(tfk_count answer, uint8_t refusal, size_t count)
{
    return answer.refusal == refusal && answer.count == count;
}

int is_mark(tfk_mark answer, uint8_t refusal, uint8_t marked)
{
    return answer.refusal == refusal && answer.marked == marked;
}

int is_place(tfk_place answer, uint8_t refusal, size_t place, size_t length)
{
    return answer.refusal == refusal && answer.place == place && answer.length == length;
}

int is_frame_part(tfk_frame_part answer, uint8_t refusal, size_t place, size_t length, size_t heads)
{
    return answer.refusal == refusal && answer.place == place && answer.length == length && answer.heads == heads;
}

int is_line(tfk_line answer, uint8_t refusal, uint8_t kind, size_t place, size_t length)
{
    return answer.refusal == refusal && answer.kind == kind && answer.place == place && answer.length == length;
}

int is_value(tfk_value answer, uint8_t refusal, int64_t value)
{
    return answer.refusal == refusal && answer.value == value;
}

int is_length(tfk_length answer, uint8_t refusal, size_t length)
{
    return answer.refusal == refusal && answer.length == length;
}

int is_part(tfk_pair_part answer, uint8_t refusal, uint8_t trace, size_t place, size_t length)
{
    return answer.refusal == refusal && answer.trace == trace && answer.place == place && answer.length == length;
}

int is_range(tfk_cpu_range answer, uint8_t refusal, uint64_t offset, uint64_t size)
{
    return answer.refusal == refusal && answer.offset == offset && answer.size == size;
}

int is_frame(tfk_frame answer, uint16_t tracepoint, size_t place, size_t size, size_t registers)
{
    return answer.tracepoint == tracepoint && answer.place == place && answer.size == size &&
           answer.has_registers == (registers != 0) && answer.registers_place == registers;
}

static int same_block(tfk_block one, tfk_block other)
{
    return one.refusal == other.refusal && one.letter == other.letter && one.place == other.place &&
           one.number == other.number && one.value == other.value && one.address == other.address &&
           one.length == other.length;
}

int is_registers(tfk_block answer, size_t place)
{
    tfk_block expected = {.letter = 'R', .place = place};
    return same_block(answer, expected);
}

int is_memory(tfk_block answer, size_t place, uint64_t address, size_t length)
{
    tfk_block expected = {.letter = 'M', .place = place, .address = address, .length = length};
    return same_block(answer, expected);
}

int is_variable(tfk_block answer, size_t place, uint32_t number, int64_t value)
{
    tfk_block expected = {.letter = 'V', .number = number, .place = place, .value = value};
    return same_block(answer, expected);
}

int no_block(tfk_block answer, uint8_t refusal)
{
    tfk_block expected = {.refusal = refusal};
    return same_block(answer, expected);
}

static int same_part(tfk_part one, tfk_part other)
{
    return one.place == other.place && one.size == other.size;
}

int same_summary(const tfk_dat_summary *one, const tfk_dat_summary *other)
{
    return one->refusal == other->refusal && one->order == other->order && one->long_size == other->long_size &&
           one->ending == other->ending && one->page_size == other->page_size &&
           one->format_count == other->format_count && one->system_count == other->system_count &&
           one->cpu_count == other->cpu_count && same_part(one->header_page, other->header_page) &&
           same_part(one->header_event, other->header_event) && same_part(one->formats, other->formats) &&
           same_part(one->systems, other->systems) && same_part(one->kallsyms, other->kallsyms) &&
           same_part(one->printk, other->printk) && same_part(one->processes, other->processes) &&
           same_part(one->options, other->options) && same_part(one->body, other->body);
}
