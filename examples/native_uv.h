/* The calls of uv.h that bucket.c makes, over libuv itself, so that the same source is a native program. */
#include <inttypes.h>
#include <stdint.h>
#include <stdio.h>
#include <uv.h>

typedef void (*guest_callback)(int32_t handle);

static uv_timer_t timers[4];
static guest_callback callbacks[4];
static int timers_made;

static void run_guest_callback(uv_timer_t *timer)
{
    int32_t handle = (int32_t)(timer - timers);
    callbacks[handle](handle);
}

static int32_t guest_timer_init(void)
{
    uv_timer_init(uv_default_loop(), &timers[timers_made]);
    return timers_made++;
}

static int32_t guest_timer_start(int32_t timer, guest_callback callback, uint64_t timeout, uint64_t repeat)
{
    callbacks[timer] = callback;
    return uv_timer_start(&timers[timer], run_guest_callback, timeout, repeat);
}

static int32_t guest_timer_stop(int32_t timer)
{
    return uv_timer_stop(&timers[timer]);
}

static int32_t guest_emit(int64_t value)
{
    printf(" %" PRId64, value);
    return 0;
}

static void guest_main(void);

int main(void)
{
    printf("loop 0 over emits");
    guest_main();
    uv_run(uv_default_loop(), UV_RUN_DEFAULT);
    printf("\n");
    return 0;
}

#define uv_timer_init guest_timer_init
#define uv_timer_start guest_timer_start
#define uv_timer_stop guest_timer_stop
#define uv_emit guest_emit
#define UV_MAIN() static void guest_main(void)
