/*
 * The reader on a core without an operating system: a buffer is filled from the service port, and v0 of each frame is shown.
 * Nothing is allocated; the file and the frame table have rooms of a fixed size. docs/HANDSET.md says how it is built.
 */
#include "board.h"
#include "tufakpeni.h"

enum { BLOCK = 776, V0 = 264, V0_SIZE = 16, ROOM = 65536, FRAMES = 64 };

static uint8_t file[ROOM];
static tfk_frame frames[FRAMES];

/* Two digits, in base 16. */
static void say_byte(uint8_t byte)
{
    const char digits[] = "0123456789abcdef";
    const char text[] = {' ', digits[byte >> 4], digits[byte & 15], 0};
    say(text);
}

/* In base 10, by taking powers away: the core does not divide. */
static void say_number(size_t number)
{
    static const size_t POWERS[] = {10000, 1000, 100, 10, 1};
    char text[6] = {0};
    size_t used = 0;
    for (size_t i = 0; i < 5; i++) {
        char digit = '0';
        for (; number >= POWERS[i]; number -= POWERS[i]) {
            digit++;
        }
        if (digit != '0' || used > 0 || i == 4) {
            text[used++] = digit;
        }
    }
    say(text);
}

static void say_frame(tfk_settings settings, size_t length, size_t n)
{
    say("frame ");
    say_number(n);
    say(", tracepoint ");
    say_number(frames[n].tracepoint);
    say(":");
    if (!frames[n].has_registers) {
        say(" no registers");
    } else if (tfk_registers_place(settings, file, length, n).length != BLOCK) {
        say(" a register block of another size");
    } else {
        for (size_t i = 0; i < V0_SIZE; i++) {
            say_byte(file[frames[n].registers_place + V0 + i]);
        }
    }
    say("\n");
}

int main(void)
{
    tfk_settings little = tfk_default_settings(0);
    if (!TFK_FITS()) {
        say("the library is of another header\n");
        return 2;
    }
    size_t length = receive(file, sizeof file);
    tfk_count count = tfk_frame_table(little, file, length, frames, FRAMES);
    if (count.refusal != 0) {
        say("refused ");
        say_number(count.refusal);
        say("\n");
        return 1;
    }
    for (size_t n = 0; n < count.count; n++) {
        say_frame(little, length, n);
    }
    return 0;
}
