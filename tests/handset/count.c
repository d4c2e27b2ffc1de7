/*
 * Asks about traces of the board's frames, of 796 bytes each: a register block of 776 and a variable. Between two calls of
 * `mark` stands one question, and the emulator's log tells how many instructions it took. Each is asked about a trace of
 * FRAMES frames and about one of twice as many, so that the difference is what FRAMES frames take and nothing else.
 */
#include "check.h"
#include "settings.h"

#include <string.h>

enum { FRAMES = 10, FRAME = 796, REGISTERS = 776 };

/* Not to be taken apart: the log is looked through for its place. */
__attribute__((noinline)) void mark(void)
{
    __asm__ volatile("");
}

static uint8_t file[64 + 2 * FRAMES * FRAME], out[sizeof file];
static tfk_frame records[2 * FRAMES];

static void put_at(size_t place, const made *part)
{
    memcpy(file + place, part->bytes, part->length);
}

static made head_of(void)
{
    made head = {0, 0, {0}};
    put_number(&head, 1, 2);
    put_number(&head, FRAME - 6, 4);
    PUT(&head, "R");
    return head;
}

static made variable_of(size_t n)
{
    made block = {0, 0, {0}};
    PUT(&block, "V");
    put_number(&block, 1, 4);
    put_number(&block, n, 8);
    return block;
}

/* The length of a trace of so many frames; its registers are all 0. */
static size_t fill(size_t frames)
{
    made opening = {0, 0, {0}}, head = head_of();
    PUT(&opening, "\x7fTRACE0\nR 308\nstatus 0\n\n");
    put_at(0, &opening);
    for (size_t n = 0; n < frames; n++) {
        made variable = variable_of(n);
        put_at(opening.length + n * FRAME, &head);
        put_at(opening.length + n * FRAME + head.length + REGISTERS, &variable);
    }
    return opening.length + frames * FRAME;
}

static int ask(size_t frames)
{
    tfk_settings settings = settings_of(0, SIXTEEN);
    tfk_selection all = {{{1, 65535}}, 1, 1};
    size_t length = fill(frames);
    mark();
    tfk_count count = tfk_frame_count(settings, file, length);
    mark();
    tfk_count table = tfk_frame_table(settings, file, length, records, 2 * FRAMES);
    mark();
    tfk_place registers = tfk_registers_place(settings, file, length, frames - 1);
    mark();
    tfk_value variable = tfk_variable(settings, file, length, frames - 1, 1);
    mark();
    tfk_length cut = tfk_cut(settings, file, length, all, out, sizeof out);
    mark();
    memcpy(out, file, length);
    mark();
    return count.count == frames && table.count == frames && registers.length == REGISTERS && variable.value == (int64_t)frames - 1 &&
           cut.length == length;
}

int main(void)
{
    return ask(FRAMES) && ask(2 * FRAMES) ? 0 : 1;
}
