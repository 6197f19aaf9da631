/* A guest that cancels its own work in the turn behind the one that asked for it: it emits the answer, and what came of the work. */
#include "uv.h"

static int32_t request;

UV_WORK(op) {
    volatile int32_t left = 50000; /* some milliseconds, so that it is running */
    while (left > 0) left--;
    return op + left;
}

UV_AFTER_WORK(of, kind, value) {
    (void)of;
    uv_emit(kind);
    uv_emit(value);
}

static void on_idle(int32_t idle) {
    uv_emit(uv_cancel(request));
    uv_idle_stop(idle);
}

UV_MAIN() {
    request = uv_queue_work(7, 0, 0);
    uv_idle_start(uv_idle_init(), on_idle);
}
