/* Every call about GDB traces, tried on one file. */
#ifndef CALLS_H
#define CALLS_H

#include "tufakpeni.h"

/* A selection of every number, and one of none. */
extern const tfk_selection EVERY;
extern const tfk_selection NONE;

/* How many frames, from the first on, tfk_frame_place answers: those before the file's end, or before its fault. */
size_t frames_shown(tfk_settings settings, const uint8_t *file, size_t length);

/* Every call answers with this refusal and all else 0, and leaves each output unchanged; tfk_frame_place does so for the
   first frame that it does not answer. */
void all_refuse(tfk_settings settings, const uint8_t *file, size_t length, uint8_t refusal);

/* Every call answers as it must about an accepted file whose opening and number of frames are known, and whether it is
   marked. */
void all_accept(tfk_settings settings, const uint8_t *file, size_t length, size_t opening, size_t frames,
                uint8_t marked);

/* The questions of frame n that read the whole file answer with this refusal. */
void frame_refused(tfk_settings settings, const uint8_t *file, size_t length, size_t n, uint8_t refusal);

/* A cut, a join and the questions of frame n of a pair answer with this refusal, and leave the output unchanged. */
void cut_refused(tfk_settings settings, const uint8_t *file, size_t length, tfk_selection selection, size_t room,
                 uint8_t refusal);
void join_refused(tfk_settings settings, const uint8_t *first, size_t first_length, const uint8_t *second,
                  size_t second_length, size_t room, uint8_t refusal);
void pair_refused(tfk_settings settings, const uint8_t *first, size_t first_length, const uint8_t *second,
                  size_t second_length, size_t n, uint8_t refusal);

#endif
