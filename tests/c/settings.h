/* The settings that a trace is read with. */
#ifndef SETTINGS_H
#define SETTINGS_H

#include "tufakpeni.h"

enum { TEN = 10, SIXTEEN = 16 };

tfk_settings settings_of(uint8_t order, uint8_t base);

/* Does this with all settings that there are: either byte order with either base. */
void with_all_settings(void (*each)(tfk_settings settings));

#endif
