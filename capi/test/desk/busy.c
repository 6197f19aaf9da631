/* A callback with many blocks and call paths, which also calls a callback itself, through the table. */
#include "uv.h"

#define BRANCHES(n) static __attribute__((noinline)) int32_t branches_##n(int32_t k) \
    { return k % 2 ? k % 3 ? k + n : k * n : k % 5 ? k - n : k ^ n; }
BRANCHES(1) BRANCHES(2) BRANCHES(3) BRANCHES(4) BRANCHES(5) BRANCHES(6) BRANCHES(7) BRANCHES(8)
BRANCHES(9) BRANCHES(10) BRANCHES(11) BRANCHES(12) BRANCHES(13) BRANCHES(14) BRANCHES(15) BRANCHES(16)

static int32_t sum, runs;

static __attribute__((noinline)) void all(int32_t k)
{
    sum += branches_1(k) + branches_2(k) + branches_3(k) + branches_4(k) + branches_5(k) + branches_6(k) + branches_7(k) + branches_8(k);
    sum += branches_9(k) + branches_10(k) + branches_11(k) + branches_12(k) + branches_13(k) + branches_14(k) + branches_15(k) + branches_16(k);
}

static void on_other(int32_t timer)
{
    for (int32_t k = 0; k < 20; k++)
        all(k + runs);
}

static volatile uv_callback other = on_other;

static void on_tick(int32_t timer)
{
    all(3);
    other(timer);
    other(timer);
    uv_emit(sum);
    if (++runs == 3)
        uv_timer_stop(timer);
}

UV_MAIN()
{
    uv_timer_start(uv_timer_init(), on_tick, 1, 1);
    uv_timer_start(uv_timer_init(), on_other, 2, 0);
}
