/* The base of the settings: which bases there are, and what an R line says in each of them. */
#include "answers.h"
#include "calls.h"
#include "check.h"
#include "edges.h"
#include "settings.h"
#include "traces.h"

#include <stdlib.h>
#include <string.h>

enum { REFUSED = -1, FRAME_HEAD = 6 };

/* Every call refuses the first bytes of a file so. */
static void refused_at(tfk_settings settings, const made *whole, size_t length, uint8_t refusal)
{
    uint8_t *file = exactly(whole->bytes, length);
    all_refuse(settings, file, length, refusal);
    free(file);
}

/* Every call refuses these settings, whatever the file is: with an R line, cut short, with no R line, empty. */
static void settings_refused(tfk_settings settings)
{
    uint8_t order = settings.order & 1;
    small_trace sized = small_trace_of(TWO_REGISTERS, order), plain = small_trace_of(A_VARIABLE, order);
    refused_at(settings, &sized.file, sized.file.length, TFK_BAD_ARGUMENT);
    refused_at(settings, &sized.file, settings.base % sized.file.length, TFK_BAD_ARGUMENT);
    refused_at(settings, &plain.file, plain.file.length, TFK_BAD_ARGUMENT);
    refused_at(settings, &plain.file, 0, TFK_BAD_ARGUMENT);
}

static void wrong_bases(uint8_t order)
{
    begin("wrong bases");
    for (unsigned base = 0; base <= UINT8_MAX; base++) {
        if (base != TEN && base != SIXTEEN) {
            about = base;
            settings_refused(settings_of(order, (uint8_t)base));
        }
    }
    end();
}

static void zeroed(void)
{
    tfk_settings settings;
    memset(&settings, 0, sizeof settings);
    begin("settings of zeros");
    settings_refused(settings);
    end();
}

/* The head, this line and the empty line. */
static made described(uint8_t order, const char *line, size_t length)
{
    made opening = {.order = order};
    PUT(&opening, HEAD);
    put(&opening, line, length);
    PUT(&opening, "\n\n");
    return opening;
}

/* A trace at the end of its allocation. */
typedef struct {
    size_t opening;
    size_t length;
    uint8_t *file;
} trace;

/* One frame behind an opening: an `R` and so many bytes, none of which is a block's letter. */
static trace one_frame(made opening, size_t bytes)
{
    trace given = {.opening = opening.length};
    put_number(&opening, 1, 2);
    put_number(&opening, 1 + bytes, 4);
    PUT(&opening, "R");
    given.length = opening.length + bytes;
    given.file = patterned(given.length);
    memcpy(given.file, opening.bytes, opening.length);
    return given;
}

static tfk_place registers_of(tfk_settings settings, made opening, size_t bytes)
{
    trace given = one_frame(opening, bytes);
    tfk_place answer = tfk_registers_place(settings, given.file, given.length, 0);
    free(given.file);
    return answer;
}

/* The line says this size: a register block has just so many bytes, neither one less nor one more. */
static void says(tfk_settings settings, const char *line, size_t length, size_t size)
{
    made opening = described(settings.order, line, length);
    uint8_t *file = exactly(opening.bytes, opening.length);
    CHECK(is_line(tfk_line_place(settings, file, opening.length, 0), 0, TFK_LINE_R, sizeof(HEAD) - 1, length));
    CHECK(is_place(registers_of(settings, opening, size), 0, opening.length + FRAME_HEAD + 1, size));
    CHECK(is_place(registers_of(settings, opening, size + 1), TFK_BAD_LETTER, 0, 0));
    if (size > 0) {
        CHECK(is_place(registers_of(settings, opening, size - 1), TFK_BLOCK_PAST_DATA, 0, 0));
    }
    free(file);
}

/* Every call refuses the line from its end on. */
static void breaks_form(tfk_settings settings, const char *line, size_t length)
{
    made opening = described(settings.order, line, length);
    size_t line_end = opening.length - 1;
    refused_at(settings, &opening, line_end - 1, TFK_NO_EMPTY_LINE);
    refused_at(settings, &opening, line_end, TFK_BAD_LINE);
    refused_at(settings, &opening, opening.length, TFK_BAD_LINE);
}

/* The ready value keeps any byte order; what is none is refused by the calls. */
static void ready_values(void)
{
    begin("the ready value of every byte order");
    for (unsigned order = 0; order <= UINT8_MAX; order++) {
        about = order;
        tfk_settings ready = tfk_default_settings((uint8_t)order);
        CHECK(is_settings(ready, (uint8_t)order, SIXTEEN));
        if (order > 1) {
            settings_refused(ready);
        } else {
            says(ready, "R 308", strlen("R 308"), 776);
        }
    }
    end();
}

static void judged(tfk_settings settings, const char *line, size_t length, int size)
{
    if (size == REFUSED) {
        breaks_form(settings, line, length);
    } else {
        says(settings, line, length, (size_t)size);
    }
}

/* Lines and the size that each says in base 10 and in base 16. */
static const struct {
    const char *line;
    int ten;
    int sixteen;
} LINES[] = {
    {"R 308", 308, 776},
    {"R 776", 776, 1910},
    {"R 974", 974, 2420},
    {"R 10", 10, 16},
    /* One to five digits, lower, upper and mixed. */
    {"R 9", 9, 9},
    {"R 99", 99, 153},
    {"R 999", 999, 2457},
    {"R 9999", 9999, 39321},
    {"R 12345", 12345, REFUSED},
    {"R a", REFUSED, 10},
    {"R ab", REFUSED, 171},
    {"R abc", REFUSED, 2748},
    {"R abcd", REFUSED, 43981},
    {"R abcde", REFUSED, REFUSED},
    {"R F", REFUSED, 15},
    {"R FE", REFUSED, 254},
    {"R FED", REFUSED, 4077},
    {"R FEDC", REFUSED, 65244},
    {"R FEDCB", REFUSED, REFUSED},
    {"R aB", REFUSED, 171},
    {"R Ab1", REFUSED, 2737},
    {"R fF0e", REFUSED, 65294},
    {"R 1aBcD", REFUSED, REFUSED},
    /* Leading zeros count. */
    {"R 0", 0, 0},
    {"R 0000", 0, 0},
    {"R 00000", 0, REFUSED},
    {"R 000000", REFUSED, REFUSED},
    {"R 0308", 308, 776},
    {"R 00308", 308, REFUSED},
    {"R 000308", REFUSED, REFUSED},
    /* The largest sizes and what is past them. */
    {"R ffff", REFUSED, 65535},
    {"R FFFF", REFUSED, 65535},
    {"R fFfF", REFUSED, 65535},
    {"R 10000", 10000, REFUSED},
    {"R 65535", 65535, REFUSED},
    {"R 65536", REFUSED, REFUSED},
    {"R 99999", REFUSED, REFUSED},
    {"R 065535", REFUSED, REFUSED},
    {"R 0ffff", REFUSED, REFUSED},
    /* No digits, a prefix, a sign, blanks, a CR. */
    {"R ", REFUSED, REFUSED},
    {"R 0x308", REFUSED, REFUSED},
    {"R 0x8", REFUSED, REFUSED},
    {"R 0X8", REFUSED, REFUSED},
    {"R x8", REFUSED, REFUSED},
    {"R $8", REFUSED, REFUSED},
    {"R 8h", REFUSED, REFUSED},
    {"R +8", REFUSED, REFUSED},
    {"R -8", REFUSED, REFUSED},
    {"R  8", REFUSED, REFUSED},
    {"R 8 ", REFUSED, REFUSED},
    {"R 3 8", REFUSED, REFUSED},
    {"R \t8", REFUSED, REFUSED},
    {"R 8\t", REFUSED, REFUSED},
    {"R 8\r", REFUSED, REFUSED},
    {"R \r", REFUSED, REFUSED},
};

static void every_line(tfk_settings settings)
{
    for (size_t i = 0; i < sizeof LINES / sizeof *LINES; i++) {
        const char *line = LINES[i].line;
        begin(line);
        about = settings.base;
        judged(settings, line, strlen(line), settings.base == TEN ? LINES[i].ten : LINES[i].sixteen);
        end();
    }
}

/* The value of a digit in this base. */
static int digit(uint8_t byte, uint8_t base)
{
    static const char LOWER[] = "0123456789abcdef", UPPER[] = "0123456789ABCDEF";
    const char *lower = memchr(LOWER, byte, base), *upper = memchr(UPPER, byte, base);
    return lower != NULL ? (int)(lower - LOWER) : upper != NULL ? (int)(upper - UPPER) : REFUSED;
}

/* Every byte alone, as the first of two digits and as the last: digits, their neighbours in ASCII and all others. Only 0A
   is no byte of a line. */
static void every_byte(tfk_settings settings)
{
    begin("every byte as a digit");
    for (unsigned byte = 0; byte <= UINT8_MAX; byte++) {
        if (byte != '\n') {
            int value = digit((uint8_t)byte, settings.base);
            const char alone[] = {'R', ' ', (char)byte}, first[] = {'R', ' ', (char)byte, '1'};
            const char last[] = {'R', ' ', '1', (char)byte};
            about = byte;
            judged(settings, alone, sizeof alone, value);
            judged(settings, first, sizeof first, value == REFUSED ? REFUSED : settings.base * value + 1);
            judged(settings, last, sizeof last, value == REFUSED ? REFUSED : settings.base + value);
        }
    }
    end();
}

/* `R 974` says two sizes. */
enum { IN_TEN = 974, IN_SIXTEEN = 2420 };

static made described_974(uint8_t order)
{
    return described(order, "R 974", strlen("R 974"));
}

/* Frames that one base reads, and the other refuses in every call. */
static void read_by_one(uint8_t order)
{
    trace shorter = one_frame(described_974(order), IN_TEN), longer = one_frame(described_974(order), IN_SIXTEEN);
    begin("R 974 with a frame that one base reads");
    all_accept(settings_of(order, TEN), shorter.file, shorter.length, shorter.opening, 1, 0);
    all_refuse(settings_of(order, SIXTEEN), shorter.file, shorter.length, TFK_BLOCK_PAST_DATA);
    all_accept(settings_of(order, SIXTEEN), longer.file, longer.length, longer.opening, 1, 0);
    all_refuse(settings_of(order, TEN), longer.file, longer.length, TFK_BAD_LETTER);
    free(shorter.file);
    free(longer.file);
    end();
}

/* A frame of one register block in base 16; in base 10 of a shorter one, a variable and memory. */
enum { VARIABLE_SIZE = 13, MEMORY_HEAD = 11, MEMORY = IN_SIXTEEN - IN_TEN - VARIABLE_SIZE - MEMORY_HEAD };
enum { NUMBER = 7, VALUE = -8, ADDRESS = 0x4D };

static made with_both(uint8_t order)
{
    made file = described_974(order);
    put_number(&file, 1, 2);
    put_number(&file, 1 + IN_SIXTEEN, 4);
    PUT(&file, "R");
    fill_to(&file, file.length + IN_TEN);
    PUT(&file, "V");
    put_number(&file, NUMBER, 4);
    put_number(&file, (uint64_t)VALUE, 8);
    PUT(&file, "M");
    put_number(&file, ADDRESS, 8);
    put_number(&file, MEMORY, 2);
    fill_to(&file, file.length + MEMORY);
    return file;
}

#define ASKED(base) settings_of(order, (base)), file, length

static void read_by_both(uint8_t order)
{
    made given = with_both(order);
    size_t length = given.length, opening = described_974(order).length, data = opening + FRAME_HEAD;
    size_t variable = data + 1 + IN_TEN, memory = variable + VARIABLE_SIZE;
    uint8_t *file = exactly(given.bytes, length);
    begin("R 974 with a frame that both bases read");
    all_accept(ASKED(TEN), opening, 1, 0);
    all_accept(ASKED(SIXTEEN), opening, 1, 0);
    CHECK(is_place(tfk_registers_place(ASKED(TEN), 0), 0, data + 1, IN_TEN));
    CHECK(is_place(tfk_registers_place(ASKED(SIXTEEN), 0), 0, data + 1, IN_SIXTEEN));
    CHECK(is_variable(tfk_block_record(ASKED(TEN), 0, 1), variable, NUMBER, VALUE));
    CHECK(no_block(tfk_block_record(ASKED(SIXTEEN), 0, 1), TFK_NOT_FOUND));
    CHECK(is_memory(tfk_block_record(ASKED(TEN), 0, 2), memory, ADDRESS, MEMORY));
    CHECK(is_place(tfk_memory_place(ASKED(TEN), 0, ADDRESS), 0, memory + MEMORY_HEAD, MEMORY));
    CHECK(is_place(tfk_memory_place(ASKED(SIXTEEN), 0, ADDRESS), TFK_NOT_FOUND, 0, 0));
    CHECK(is_value(tfk_variable(ASKED(TEN), 0, NUMBER), 0, VALUE));
    CHECK(is_value(tfk_variable(ASKED(SIXTEEN), 0, NUMBER), TFK_NOT_FOUND, 0));
    CHECK(is_value(tfk_pair_variable(ASKED(TEN), file, length, 1, NUMBER), 0, VALUE));
    CHECK(is_value(tfk_pair_variable(ASKED(SIXTEEN), file, length, 1, NUMBER), TFK_NOT_FOUND, 0));
    free(file);
    end();
}

void bases(void)
{
    zeroed();
    ready_values();
    for (uint8_t order = 0; order <= 1; order++) {
        wrong_bases(order);
        read_by_one(order);
        read_by_both(order);
    }
    with_all_settings(every_line);
    with_all_settings(every_byte);
}
