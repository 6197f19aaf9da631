/* A plug-in that behaves badly, in the way that OPERATION names. */
#include "uv.h"

static volatile uint32_t wild = 0x7fffffff;
static volatile int32_t zero;

__attribute__((noinline)) static int32_t deeper(volatile int32_t *n)
{
    int32_t here = *n;
    return here ? deeper(&here) + 1 : 0;
}

__attribute__((noinline)) static int32_t write_far(uint32_t place)
{
    *(volatile int32_t *)place = 7;
    return 0;
}

UV_WORK(how)
{
    int32_t n = 1;
    switch (how) {
    case 0:
        for (;;)
            zero++;
    case 1:
        return write_far(wild);
    case 2:
        return deeper(&n);
    case 3:
        return 10 / zero;
    default:
        __builtin_trap();
    }
}
