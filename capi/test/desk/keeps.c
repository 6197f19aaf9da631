/* A plug-in that keeps a sum: `add` divides by zero once it is 66. */
#include <stdint.h>
#define EXPORT(name) __attribute__((export_name(#name))) name

static uint8_t in[64];
static int32_t sum;

uint8_t *EXPORT(place)(void) { return in; }

int32_t EXPORT(add)(int32_t count)
{
    for (int32_t k = 0; k < count; k++)
        sum += in[k];
    return 1000 / (66 - sum);
}

int32_t EXPORT(spin)(int32_t turns)
{
    for (volatile int32_t k = 0; k < turns; k++)
        sum ^= 1 << 20;
    return sum;
}
