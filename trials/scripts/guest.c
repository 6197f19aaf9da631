/* A guest that does what a table says: each of its callbacks has lists of calls of "uv", and emits each answer.
   random_scripts.py writes the table into the module's bytes. */
#include "uv.h"

enum { CALLBACKS = 6, VARIANTS = 3, LISTS = 24, CALLS = 200, NUMBERS = 32 };

enum {
    END, NOW, TIMER_INIT, TIMER_START, TIMER_STOP, TIMER_AGAIN, IDLE_INIT, IDLE_START, IDLE_STOP, CHECK_INIT,
    CHECK_START, CHECK_STOP, ASYNC_INIT, ASYNC_SEND, IS_ACTIVE, CLOSE, QUEUE_WORK, CANCEL, IN_LEN, IN_COPY, OUT_SET,
    EMIT_MANY, TRAP, DEEP, SPIN
};

/* A call: its number, where its answer is kept, whether `a` is the number of a kept answer; its arguments. */
struct call {
    uint8_t code, to, is_kept, callback;
    int32_t a, b;
    int32_t unused;
    int64_t c, d;
};

static volatile struct {
    char mark[16];
    uint16_t first[LISTS];
    struct call calls[CALLS];
} table = {.mark = "table of calls.", .first = {1}};

static int32_t kept[NUMBERS];
static uint8_t times[CALLBACKS + 1];
static uint8_t buffer[4096];
static volatile uint8_t pattern[256] = {1};

static void run(int list);

#define CALLBACK(k)                                        \
    static void callback_##k(int32_t handle)               \
    {                                                      \
        uv_emit(handle);                                   \
        run(1 + VARIANTS * k + times[k]);                  \
        times[k] += times[k] < VARIANTS - 1;               \
    }
CALLBACK(0) CALLBACK(1) CALLBACK(2) CALLBACK(3) CALLBACK(4) CALLBACK(5)

static uv_callback callback(int k)
{
    switch (k) {
    case 0: return callback_0;
    case 1: return callback_1;
    case 2: return callback_2;
    case 3: return callback_3;
    case 4: return callback_4;
    case 5: return callback_5;
    default: return (uv_callback)999;
    }
}

static int deep(int n) { return n == 0 ? 0 : deep(n + 1) + uv_in_len(); }

static void *place(struct call *it) { return it->d ? (void *)(uintptr_t)it->b : (void *)(pattern + it->b); }

static int64_t answer(struct call *it)
{
    int32_t a = it->is_kept ? kept[it->a % NUMBERS] : it->a;
    uv_callback back = callback(it->callback);
    switch (it->code) {
    case NOW: return (int64_t)uv_now();
    case TIMER_INIT: return uv_timer_init();
    case TIMER_START: return uv_timer_start(a, back, (uint64_t)it->c, (uint64_t)it->d);
    case TIMER_STOP: return uv_timer_stop(a);
    case TIMER_AGAIN: return uv_timer_again(a);
    case IDLE_INIT: return uv_idle_init();
    case IDLE_START: return uv_idle_start(a, back);
    case IDLE_STOP: return uv_idle_stop(a);
    case CHECK_INIT: return uv_check_init();
    case CHECK_START: return uv_check_start(a, back);
    case CHECK_STOP: return uv_check_stop(a);
    case ASYNC_INIT: return uv_async_init(back);
    case ASYNC_SEND: return uv_async_send(a);
    case IS_ACTIVE: return uv_is_active(a);
    case CLOSE: return uv_close(a, back);
    case QUEUE_WORK: return uv_queue_work(a, place(it), (uint32_t)it->c);
    case CANCEL: return uv_cancel(a);
    case IN_LEN: return uv_in_len();
    case IN_COPY: return uv_in_copy(it->d ? (void *)0xfffffff0u : buffer, (uint32_t)it->b, (uint32_t)it->c);
    case OUT_SET: return uv_out_set(place(it), (uint32_t)it->c);
    default: return 0;
    }
}

static void run(int list)
{
    for (int k = table.first[list];; k++) {
        struct call it = table.calls[k];
        if (it.code == END)
            return;
        if (it.code == TRAP)
            __builtin_trap();
        if (it.code == DEEP)
            deep(1);
        while (it.code == SPIN)
            uv_in_len();
        if (it.code == EMIT_MANY) {
            for (int n = 0; n < it.a; n++)
                kept[it.to % NUMBERS] = uv_emit(n);
            uv_emit(kept[it.to % NUMBERS]);
            continue;
        }
        int64_t given = answer(&it);
        kept[it.to % NUMBERS] = (int32_t)given;
        uv_emit(given);
    }
}

UV_MAIN()
{
    for (int k = 0; k < 256; k++)
        pattern[k] = (uint8_t)k;
    run(0);
}

UV_WORK(operation)
{
    uint32_t length = (uint32_t)uv_in_len();
    uint8_t *from = (uint8_t *)pattern;
    switch (operation & 7) {
    case 0:
        uv_in_copy(buffer, 0, length);
        uv_out_set(buffer, length);
        return (int32_t)length + operation;
    case 1: __builtin_trap();
    case 2: return deep(1);
    case 3:
        for (;;)
            uv_in_len();
    case 4: return uv_timer_init();
    case 5:
        from[0] = 9;
        from[1] = 8;
        uv_out_set(from, 3);
        uv_out_set(from, 2);
        return uv_in_copy(buffer, 1, length);
    case 6: return uv_out_set(from, 70000);
    default: return uv_out_set((void *)0xfffffff0u, 32);
    }
}

UV_AFTER_WORK(request, kind, code)
{
    uv_emit(request);
    uv_emit(kind);
    uv_emit(code);
    int32_t length = uv_in_len(), sum = 0;
    uv_emit(uv_in_copy(buffer, 0, (uint32_t)length));
    for (int k = 0; k < length; k++)
        sum += buffer[k];
    uv_emit(sum);
    run(1 + VARIANTS * CALLBACKS + times[CALLBACKS]);
    times[CALLBACKS] += times[CALLBACKS] < VARIANTS - 1;
}
