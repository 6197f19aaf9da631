/* A rate limiter with a fault: two requests with one key within one millisecond divide by zero. */
#include "uv.h"

enum { KEYS = 64 };
static uint64_t last[KEYS];
static uint8_t key[UV_MAX_BYTES];

UV_WORK(op)
{
    uint32_t hash = 2166136261u;
    int32_t length = uv_in_len();
    uv_in_copy(key, 0, (uint32_t)length);
    for (int32_t k = 0; k < length; k++)
        hash = (hash ^ key[k]) * 16777619u;
    return (int32_t)(hash % KEYS);
}

UV_AFTER_WORK(request, kind, code)
{
    if (kind != UV_DONE)
        return;
    int32_t apart = last[code] ? (int32_t)(uv_now() - last[code]) : 1;
    last[code] = uv_now();
    uv_emit((int64_t)request << 32 | (uint32_t)(100000 / apart)); /* HERE 0 */
}

static void on_tick(int32_t timer)
{
}

UV_MAIN()
{
    uv_timer_start(uv_timer_init(), on_tick, 1000, 1000);
}
