/* A loop's guest: it sleeps until it is sent to, or has the reply of a request. Its work 1 never ends; its async 1 fails, 2 never
 * returns, 3 emits for ever, 4 queues endless work and cancels it, for ever. */
#include "uv.h"
static void on_send(int32_t handle) { (void)handle; uv_emit(100); }
static void on_fail(int32_t handle) { (void)handle; __builtin_trap(); }
static void on_spin(int32_t handle) { for (;;) __asm__ volatile("" : "+r"(handle)); }
static void on_idle(int32_t handle) { (void)handle; while (uv_emit(0) == 0); }
static void on_flood(int32_t handle) { (void)handle; uv_idle_start(uv_idle_init(), on_idle); }
static int32_t queued[32];
static void on_waste_idle(int32_t handle)
{
    (void)handle;
    for (int i = 0; i < 32; i++) {
        if (queued[i] > 0) uv_cancel(queued[i]);
        queued[i] = uv_queue_work(1, queued, 0);
    }
}
static void on_waste(int32_t handle) { (void)handle; uv_idle_start(uv_idle_init(), on_waste_idle); }
UV_MAIN()
{
    uv_async_init(on_send);
    uv_async_init(on_fail);
    uv_async_init(on_spin);
    uv_async_init(on_flood);
    uv_async_init(on_waste);
}
UV_WORK(op) { if (op == 1) for (;;) __asm__ volatile(""); return uv_in_len(); }
UV_AFTER_WORK(request, kind, code) { (void)kind; uv_emit(((int64_t)request << 32) | (uint32_t)code); }
