/* Bytes in memory: how many primes there are below two million. */
#include <stdint.h>

#define END 2000000

static uint8_t is_composite[END];

uint32_t run(void)
{
    uint32_t count = 0;
    for (uint32_t n = 2; n < END; n++) {
        if (is_composite[n])
            continue;
        count++;
        for (uint32_t m = 2 * n; m < END; m += n)
            is_composite[m] = 1;
    }
    return count;
}
