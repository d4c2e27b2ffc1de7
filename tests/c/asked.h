/* A file with the settings that it is read with: the first arguments of every question. */
#ifndef ASKED_H
#define ASKED_H

#include "tufakpeni.h"

typedef struct {
    tfk_settings settings;
    uint8_t *file;
    size_t length;
} asked;

#define ASKED(trace) (trace).settings, (trace).file, (trace).length

#endif
