#include "uv.h"

enum { ARTICLES = 500 };
static int32_t price[ARTICLES], is_ready;
static uint64_t last;
GUEST_LOG(4096);

static int32_t season(int32_t article)
{
    int32_t found = article;
    for (int32_t k = 0; k < 30; k++)
        found = found * 31 % 9973;
    return found;
}

static int32_t discount(int32_t article)
{
    return season(article) / 3 + season(article + 1) / 5;
}

static int32_t tax(int32_t article)
{
    int32_t found = season(article);
    while (found > 9)
        found = found / 10 + found % 10;
    return found;
}

__attribute__((export_name("init"))) void init(void)
{
    for (int32_t article = 0; article < ARTICLES; article++)
        price[article] = tax(article) + discount(article);
    is_ready = 1;
}

UV_WORK(article)
{
    if (!is_ready)
        init();
    return price[article % ARTICLES];
}

UV_AFTER_WORK(request, kind, code)
{
    int32_t apart = (int32_t)(uv_now() - last);
    guest_log_number("milliseconds since the last reply:", apart);
    last = uv_now();
    uv_emit(code / apart);
}

static void on_tick(int32_t timer)
{
    uv_queue_work((uint32_t)uv_now(), 0, 0);
    if (uv_now() % 7 == 3)
        uv_queue_work(3, 0, 0);
}

UV_MAIN()
{
    uv_timer_start(uv_timer_init(), on_tick, 20, 20);
}
