/* A guest that waits for a send from outside: its async asks for work on a number, emits the request and its answer, and closes. */
#include "uv.h"

static int32_t async;

UV_WORK(op) { return op * op; }

static void on_closed(int32_t handle) { uv_emit(handle); }

UV_AFTER_WORK(request, kind, value) {
    (void)kind;
    uv_emit(request);
    uv_emit(value);
    uv_close(async, on_closed);
}

static void on_async(int32_t handle) {
    (void)handle;
    uv_queue_work(11, 0, 0);
}

UV_MAIN() { async = uv_async_init(on_async); }
