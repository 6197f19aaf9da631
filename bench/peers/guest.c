/* The guest of stops.py: a function that never ends, a line of stores, and calls of the host. */
#include "uv.h"

#define TEN(statement) statement statement statement statement statement statement statement statement statement statement

static volatile int32_t stores;

UV_EXPORT(run, int32_t, (void))
{
    for (;;)
        stores = stores + 1;
}

UV_EXPORT(line, int32_t, (void))
{
    TEN(TEN(stores = stores + 1;))
    return stores;
}

UV_EXPORT(count, int32_t, (void)) { return stores; }

/* As many turns as half the operation, with a call of the host in each if it is odd. */
UV_WORK(operation)
{
    int32_t sum = 0;
    for (int32_t turn = operation / 2; turn > 0; turn--)
        sum += operation % 2 ? uv_in_len() : stores;
    return sum;
}
