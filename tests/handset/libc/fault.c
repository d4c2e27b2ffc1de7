/* Who handles a signal. */
#include "system.h"

#include <signal.h>

/* As Linux has it on RISC-V. */
typedef struct {
    void (*handler)(int);
    unsigned long flags;
    unsigned long blocked;
} action;

void (*signal(int number, void (*handler)(int)))(int)
{
    action next = {.handler = handler}, last;
    long failed = system_call(RT_SIGACTION, number, (long)&next, (long)&last, sizeof next.blocked, 0, 0);
    return failed ? SIG_ERR : last.handler;
}
