/* Lines that run as often as their marks say, in a request of n bytes; with 13 bytes or more one of them fails. */
#include "uv.h"

static volatile int32_t sink;

static __attribute__((noinline)) void fails(int32_t n)
{
    sink = n; /* RUNS 1 */
    if (n >= 13)
        __builtin_trap(); /* RUNS n >= 13 */
}

static inline __attribute__((always_inline)) void inlined(int32_t k)
{
    sink = k + 3; /* RUNS (n + 1) // 2 */
}

static __attribute__((noinline)) void never(void)
{
    sink = 9; /* RUNS 0 */
}

static __attribute__((noinline)) void loops(int32_t n)
{
    for (int32_t k = 0; k < n; k++) {
        sink = k; /* RUNS n */
        if (k % 3 == 0)
            sink = 1; /* RUNS (n + 2) // 3 */
        if (k % 2 == 0)
            inlined(k);
    }
}

UV_WORK(operation)
{
    int32_t n = uv_in_len();
    sink = operation; /* RUNS 1 */
    loops(n);
    if (n < 0)
        never();
    fails(n);
    sink = 2; /* RUNS n < 13 */
    return sink; /* RUNS n < 13 */
}
