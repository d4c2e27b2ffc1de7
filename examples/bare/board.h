/* What a program without an operating system has of its board. Put your own in its place. */
#ifndef BOARD_H
#define BOARD_H

#include <stddef.h>
#include <stdint.h>

/* The bytes that the service port has, at most so many; the answer is how many they are. */
size_t receive(uint8_t *to, size_t room);

/* A text for who looks on. */
void say(const char *text);

/* The end, with 0 where all went well. */
void stop(int status) __attribute__((noreturn));

#endif
