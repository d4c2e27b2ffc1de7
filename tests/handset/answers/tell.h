/* Calls, each with every field of its answer printed. A lent output is told by a number of all its bytes. */
#ifndef TELL_H
#define TELL_H

#include "asked.h"

/* Everything about a trace by itself. */
void tell_trace(asked trace);

/* Everything about two traces together. */
void tell_pair(asked first, asked second);

/* Everything about a trace.dat file. */
void tell_dat(const uint8_t *file, size_t length);

/* A number of bytes, which another byte anywhere makes another. */
uint64_t digest(const void *bytes, size_t length);

#endif
