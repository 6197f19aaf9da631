/* A timer of 1 ms that runs ROUNDS times. */
#include "uv.h"

static int32_t timer, ran;

static void on_timer(int32_t handle) {
    if (++ran < ROUNDS) return;
    uv_timer_stop(handle);
    uv_emit(ran);
}

UV_MAIN() {
    timer = uv_timer_init();
    uv_timer_start(timer, on_timer, 1, 1);
}
