/* The header in a program of its own, which is compiled as C and as C++ and linked with the archive. */
#include "tufakpeni.h"

int main(void)
{
    uint8_t none = 0;
    return TFK_FITS() && tfk_frame_count(tfk_default_settings(0), &none, 0).refusal == TFK_BAD_HEAD ? 0 : 1;
}
