/* The board of this example: its service port has one trace, which is stored here, and a debugger looks on (semihosting). */
#include "board.h"

enum { SAY = 4, STOP = 0x18, ENDED = 0x20026 };

extern const uint8_t trace[], trace_end[];

size_t receive(uint8_t *to, size_t room)
{
    size_t length = (size_t)(trace_end - trace);
    length = length < room ? length : room;
    for (size_t i = 0; i < length; i++) {
        to[i] = trace[i];
    }
    return length;
}

/* The three instructions by which a program calls a debugger; they may not be compressed, nor lie in two pages. */
static void ask_debugger(long call, const void *given)
{
    register long a0 __asm__("a0") = call;
    register const void *a1 __asm__("a1") = given;
    __asm__ volatile(".option push\n.option norvc\n.balign 16\n"
                     "slli zero, zero, 0x1f\nebreak\nsrai zero, zero, 7\n.option pop"
                     : "+r"(a0)
                     : "r"(a1)
                     : "memory");
}

void say(const char *text)
{
    ask_debugger(SAY, text);
}

void stop(int status)
{
    const uint64_t how[2] = {ENDED, (uint64_t)status};
    for (;;) {
        ask_debugger(STOP, how);
    }
}
