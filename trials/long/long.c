/* A guest that uses every call of "uv" and looks at each answer: 400 requests, every third of them cancelled at once,
   while a timer, an idle, a check and an async come and go. At the end it emits how many requests it was told of and
   how many answers were wrong: 400 0. */
#include "uv.h"

enum { REQUESTS = 400, AT_ONCE = 24, TICKS = 50 };

static int asked, told, wrong, ticks;
static int8_t cancelled[REQUESTS + 1];
static uint8_t bytes[64];
static int32_t timer, idle, check, async;

static void is(int right) { wrong += !right; }

static void ignore(int32_t handle) { is(uv_is_active(handle) == UV_EINVAL); }

static void ask(void)
{
    for (int k = 0; k < 64; k++)
        bytes[k] = (uint8_t)(asked + k);
    int32_t request = uv_queue_work(asked, bytes, (uint32_t)asked % 64);
    is(request == ++asked);
    if (request % 3 == 0) {
        int32_t answer = uv_cancel(request);
        is(answer == 0 || answer == UV_EBUSY);
        cancelled[request] = answer == 0;
        is(uv_cancel(request) == (answer == 0 ? UV_EINVAL : UV_EBUSY));
    }
}

static void end(void)
{
    is(uv_close(timer, ignore) == 0);
    is(uv_close(idle, ignore) == 0);
    is(uv_close(check, ignore) == 0);
    is(uv_close(async, ignore) == 0);
    is(uv_close(async, ignore) == UV_EINVAL);
    uv_emit(told);
    uv_emit(wrong);
}

static void on_check(int32_t handle)
{
    is(handle == check);
    is(uv_check_stop(check) == 0);
    if (told == REQUESTS && ticks >= TICKS)
        end();
}

static void on_tick(int32_t handle)
{
    is(handle == timer);
    if (++ticks == TICKS)
        is(uv_timer_stop(timer) == 0);
    is(uv_async_send(async) == 0);
    is(uv_async_send(async) == 0);
    is(uv_check_start(check, on_check) == 0);
}

static void on_idle(int32_t handle)
{
    is(handle == idle);
    is(uv_idle_stop(idle) == 0);
}

static void on_async(int32_t handle)
{
    is(handle == async);
    is(uv_idle_start(idle, on_idle) == 0);
    is(uv_in_len() == UV_EPERM);
}

UV_WORK(n)
{
    uint8_t in[64];
    int32_t length = uv_in_len(), sum = 0;
    uv_in_copy(in, 0, (uint32_t)length);
    for (int k = 0; k < length; k++)
        sum += in[k];
    uv_out_set(in, (uint32_t)length);
    return n * 1000 + sum;
}

UV_AFTER_WORK(request, kind, code)
{
    int32_t n = request - 1, length = n % 64, sum = 0;
    told++;
    is(kind == (cancelled[request] ? UV_CANCELED : UV_DONE));
    is(uv_cancel(request) == UV_EINVAL);
    if (kind == UV_DONE) {
        for (int k = 0; k < length; k++)
            sum += (uint8_t)(n + k);
        is(code == n * 1000 + sum);
        is(uv_in_len() == length);
    }
    is(uv_check_start(check, on_check) == 0);
    if (asked < REQUESTS)
        ask();
}

UV_MAIN()
{
    timer = uv_timer_init();
    idle = uv_idle_init();
    check = uv_check_init();
    async = uv_async_init(on_async);
    is(uv_timer_again(timer) == UV_EINVAL);
    is(uv_timer_start(timer, on_tick, 1, 3) == 0);
    is(uv_timer_again(timer) == 0);
    is(uv_idle_start(idle, on_idle) == 0);
    is(uv_check_start(check, on_check) == 0);
    is(uv_now() == 0);
    for (int k = 0; k < AT_ONCE; k++)
        ask();
}
