/* A token bucket: two tokens more every 300 ms, four at most, and a request for one every 100 ms. A request that finds no
   token waits. Refills come from a timer, and what waits is served where something has changed: by a refill or a new
   request. (An idle or a check that looks in each turn would stay active, and under `serve` no time would pass.)
   Of each request it emits the number, and how many refills there were by then. With -DNATIVE it is a program of libuv:
   see bucket.sh. */
#ifdef NATIVE
#include "native_uv.h"
#else
#include "uv.h"
#endif

enum { CAPACITY = 4, REFILL = 2, FIRST_REFILL = 250, REFILL_EVERY = 300, ASK_EVERY = 100, REQUESTS = 12 };

static int tokens = CAPACITY;
static int refills;
static int asked;
static int served;

static void serve_waiting(void)
{
    while (tokens > 0 && served < asked) {
        tokens--;
        served++;
        uv_emit(served);
        uv_emit(refills);
    }
}

static void on_refill(int32_t timer)
{
    refills++;
    tokens = tokens + REFILL < CAPACITY ? tokens + REFILL : CAPACITY;
    serve_waiting();
    if (served == REQUESTS)
        uv_timer_stop(timer);
}

static void on_ask(int32_t timer)
{
    asked++;
    if (asked == REQUESTS)
        uv_timer_stop(timer);
    serve_waiting();
}

UV_MAIN()
{
    uv_timer_start(uv_timer_init(), on_refill, FIRST_REFILL, REFILL_EVERY);
    uv_timer_start(uv_timer_init(), on_ask, ASK_EVERY, ASK_EVERY);
}
