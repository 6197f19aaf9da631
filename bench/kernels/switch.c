/* A switch in a loop: a small machine of eight operations. */
#include <stdint.h>

#define STEPS 6000000

static const uint8_t program[16] = {0, 3, 1, 5, 2, 7, 4, 6, 1, 1, 0, 2, 7, 3, 5, 4};

uint32_t run(void)
{
    uint32_t x = 1, y = 2, at = 0;
    for (uint32_t step = 0; step < STEPS; step++) {
        switch (program[at]) {
        case 0: x += y; break;
        case 1: y ^= x << 3; break;
        case 2: x *= 5; break;
        case 3: y += 0x9e3779b9; break;
        case 4: x ^= y >> 5; break;
        case 5: at += x & 3; break;
        case 6: y -= x; break;
        default: x = y | 1; break;
        }
        at = (at + 1) & 15;
    }
    return x ^ y;
}
