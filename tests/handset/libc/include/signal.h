/* A handler for a wrong access. */
#ifndef SIGNAL_H
#define SIGNAL_H

#define SIGSEGV 11
#define SIG_DFL ((void (*)(int))0)
#define SIG_ERR ((void (*)(int))-1)

void (*signal(int number, void (*handler)(int)))(int);

#endif
