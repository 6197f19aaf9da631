/* 64-bit shifts: a xorshift generator (G. Marsaglia, 2003). */
#include <stdint.h>

#define STEPS 6000000

uint32_t run(void)
{
    uint64_t x = 88172645463325252u, sum = 0;
    for (uint32_t step = 0; step < STEPS; step++) {
        x ^= x << 13;
        x ^= x >> 7;
        x ^= x << 17;
        sum += x;
    }
    return (uint32_t)(sum >> 32 ^ sum);
}
