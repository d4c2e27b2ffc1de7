/* Linux's calls by their numbers on RISC-V. */
#ifndef SYSTEM_H
#define SYSTEM_H

enum {
    OPENAT = 56,
    CLOSE = 57,
    LSEEK = 62,
    READ = 63,
    WRITE = 64,
    EXIT_GROUP = 94,
    RT_SIGACTION = 134,
    MUNMAP = 215,
    MMAP = 222,
    MPROTECT = 226
};

/* The last error's number, for perror. */
extern int last_error;

/* The call's answer; -1 where it failed, and its error's number is kept. */
long system_call(long number, long a, long b, long c, long d, long e, long f);

#endif
