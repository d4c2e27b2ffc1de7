/*
 * What stands in a register beside an argument is not for the library to read, and RISC-V's convention says of some
 * arguments nothing about it: of a struct of two bytes the other six. Here the calls are made through pointers of other
 * types, with whole registers of other bits, and a selection, which the convention gives by its place, is given so.
 */
#include "answers.h"
#include "check.h"

#include <string.h>

typedef tfk_count count_call(uint64_t, const uint8_t *, size_t);
typedef tfk_mark mark_call(uint64_t, const uint8_t *, size_t);
typedef tfk_count table_call(uint64_t, const uint8_t *, size_t, tfk_frame *, size_t);
typedef tfk_value variable_call(uint64_t, const uint8_t *, size_t, size_t, uint64_t);
typedef tfk_value pair_call(uint64_t, const uint8_t *, size_t, const uint8_t *, size_t, size_t, uint64_t);
typedef tfk_length cut_call(uint64_t, const uint8_t *, size_t, const tfk_selection *, uint8_t *, size_t);
typedef void place_call(tfk_place *, uint64_t, const uint8_t *, size_t, size_t);
typedef tfk_settings settings_call(uint64_t);

/* The compiler is not to see which function it is: it may put a trap in place of such a call. */
typedef void any_call(void);
static any_call *hide(any_call *function)
{
    static any_call *volatile hidden;
    hidden = function;
    return hidden;
}
#define AS(type, function) ((type *)hide((any_call *)(function)))

/* Registers of 8 bytes, then variable 0x80000007 of value -2; little-endian, base 16. */
static const uint8_t file[] = "\x7fTRACE0\nR 8\n\n\1\0\x16\0\0\0R12345678V\7\0\0\200\xfe\xff\xff\xff\xff\xff\xff\xff";
enum { LENGTH = sizeof file - 1, SETTINGS = 0x1000, NUMBER_LOW = 7 };

static void other_bits(uint64_t others)
{
    uint64_t settings = SETTINGS | others << 16, number = 0x80000000u | NUMBER_LOW | others << 32;
    tfk_frame frame;
    tfk_place place;
    begin("other bits beside the arguments");
    CHECK(is_count(AS(count_call, tfk_frame_count)(settings, file, LENGTH), 0, 1));
    CHECK(is_mark(AS(mark_call, tfk_end_mark)(settings, file, LENGTH), 0, 0));
    CHECK(is_count(AS(table_call, tfk_frame_table)(settings, file, LENGTH, &frame, 1), 0, 1));
    CHECK(is_frame(frame, 1, 19, 22, 20));
    CHECK(is_value(AS(variable_call, tfk_variable)(settings, file, LENGTH, 0, number), 0, -2));
    CHECK(is_value(AS(pair_call, tfk_pair_variable)(settings, file, LENGTH, file, LENGTH, 1, number), 0, -2));
    CHECK(is_settings(AS(settings_call, tfk_default_settings)(1 | others << 8), 1, 16));
    AS(place_call, tfk_registers_place)(&place, settings, file, LENGTH, 0);
    CHECK(is_place(place, 0, 20, 8));
    end();
}

static void by_its_place(void)
{
    tfk_selection one = {{{1, 1}}, 1, 1}, before = one;
    uint8_t out[LENGTH];
    begin("a selection by its place");
    CHECK(is_length(AS(cut_call, tfk_cut)(SETTINGS, file, LENGTH, &one, out, LENGTH), 0, LENGTH));
    CHECK(memcmp(out, file, LENGTH) == 0);
    CHECK(memcmp(&one, &before, sizeof one) == 0);
    end();
}

int main(void)
{
    const uint64_t others[] = {0, 1, 0x80, 0xffff, 0xffffffff, 0xffffffffffff};
    for (size_t i = 0; i < sizeof others / sizeof *others; i++) {
        other_bits(others[i]);
    }
    by_its_place();
    return report();
}
