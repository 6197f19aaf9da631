/* Asks for ROUNDS pieces of work, one behind the other. */
#include "uv.h"

static int32_t done;

UV_WORK(op) { return op + 1; }

UV_AFTER_WORK(request, kind, value) {
    (void)request;
    (void)kind;
    if (++done < ROUNDS) uv_queue_work(value, 0, 0);
    else uv_emit(value);
}

UV_MAIN() { uv_queue_work(0, 0, 0); }
