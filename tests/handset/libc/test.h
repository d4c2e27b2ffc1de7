/* The tests of this library. */
#ifndef TEST_H
#define TEST_H

#include <stdint.h>

/* Whether a byte may not be read. */
int forbidden(volatile uint8_t *place);

/* Copying, filling and comparing. */
void bytes(void);

#endif
