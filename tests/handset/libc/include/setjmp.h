/* A jump back out of a signal's handler. */
#ifndef SETJMP_H
#define SETJMP_H

/* What a call must keep: ra, sp, s0 to s11; then whether the blocked signals are kept too, and these. */
typedef unsigned long sigjmp_buf[16];

int sigsetjmp(sigjmp_buf place, int with_signals) __attribute__((returns_twice));
void siglongjmp(sigjmp_buf place, int answer) __attribute__((noreturn));

#endif
