/* What the compiler calls where the core has no instruction: it has neither multiplication nor division. */
#include <stdint.h>

uint64_t __muldi3(uint64_t first, uint64_t second);
uint64_t __udivdi3(uint64_t dividend, uint64_t divisor);
uint64_t __umoddi3(uint64_t dividend, uint64_t divisor);

uint64_t __muldi3(uint64_t first, uint64_t second)
{
    uint64_t product = 0;
    for (; second != 0; second >>= 1) {
        if (second & 1) {
            product += first;
        }
        first <<= 1;
    }
    return product;
}

typedef struct {
    uint64_t quotient;
    uint64_t rest;
} divided;

/* The divisor is moved up as far as it goes into the dividend, and back down, a bit of the quotient at each place. */
static divided divide(uint64_t dividend, uint64_t divisor)
{
    divided answer = {0, dividend};
    int places = 0;
    if (divisor == 0) {
        __builtin_trap();
    }
    while (divisor <= dividend >> 1) {
        divisor <<= 1;
        places++;
    }
    for (; places >= 0; places--) {
        answer.quotient <<= 1;
        if (answer.rest >= divisor) {
            answer.rest -= divisor;
            answer.quotient |= 1;
        }
        divisor >>= 1;
    }
    return answer;
}

uint64_t __udivdi3(uint64_t dividend, uint64_t divisor)
{
    return divide(dividend, divisor).quotient;
}

uint64_t __umoddi3(uint64_t dividend, uint64_t divisor)
{
    return divide(dividend, divisor).rest;
}
