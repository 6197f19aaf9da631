/* Logs, in uv_work and in callbacks, and fails in both. */
#include "uv.h"

GUEST_LOG(96);
static int32_t ticks;

UV_WORK(op)
{
    guest_log("work");
    guest_log_number("op", -op);
    if (op == 3)
        __builtin_trap();
    return op;
}

UV_AFTER_WORK(request, kind, code)
{
    guest_log_number("answered", request);
}

static void on_tick(int32_t timer)
{
    guest_log_number("tick", ++ticks);
    uv_queue_work(ticks, 0, 0);
    uv_emit(ticks);
    if (ticks == 12) {
        guest_log("cannot go on");
        __builtin_trap();
    }
}

UV_MAIN()
{
    guest_log("begin");
    uv_timer_start(uv_timer_init(), on_tick, 1, 1);
}
