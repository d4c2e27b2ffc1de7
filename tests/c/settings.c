#include "settings.h"

tfk_settings settings_of(uint8_t order, uint8_t base)
{
    tfk_settings settings = {.order = order, .base = base};
    return settings;
}

void with_all_settings(void (*each)(tfk_settings settings))
{
    for (uint8_t order = 0; order <= 1; order++) {
        each(settings_of(order, TEN));
        each(settings_of(order, SIXTEEN));
    }
}
