/* Loops of one guest on a libuv loop, of the module on standard input. Prints what `wasmloop serve` prints.
 *
 * usage: host_uv LOOPS [SENDS] < FILE
 *
 * The wait goes to a uv_timer, jobs to uv_queue_work, and SENDS of another thread to each async 0, 10 ms apart, come by a uv_async. A guest
 * has SLICE units of fuel at a time, so that none of them holds the thread for long; what comes meanwhile waits until its iteration is over.
 * With VIRTUAL in the environment the clock jumps to the next timer where nothing else is to come, as that of `serve` does; with TIMES, standard
 * error says how long the longest slice took. */
#include <stdatomic.h>
#include <stdio.h>
#include <stdlib.h>
#include <string.h>
#include <uv.h>
#include "wasmloop.h"

enum { MAX_CALLBACKS = 100000, MAX_LOOPS = 8, SLICE = 3000 };

typedef struct guest {
    wasmloop_handle loop;
    wasmloop_turned turned;
    uv_timer_t timer;
    uv_idle_t idle;
    struct job *done; /* jobs that have run, the last one first */
    int64_t *emits;
    size_t count;
    uint64_t now;
    unsigned number, ran, jobs, sent; /* ran: callbacks before this iteration */
    int inside;                       /* an iteration is under way */
    const char *ending;
} guest;

typedef struct job {
    uv_work_t work;
    wasmloop_handle handle;
    guest *of;
    struct job *next;
} job;

static uv_loop_t *uv;
static uint64_t began, longest;
static guest guests[MAX_LOOPS];
static unsigned loops, sends, seen;
static int status, jumps;
static atomic_uint sent_in; /* counted by the sending thread */
static uv_async_t wake;

static void turn(guest *g);

static void must(int told, const char *what) {
    if (told == WASMLOOP_OK) return;
    fprintf(stderr, "host_uv: %s: %s\n", what, wasmloop_status_text(told));
    exit(1);
}

static void load(wasmloop_handle *module) {
    static uint8_t bytes[1 << 21];
    wasmloop_fault fault;
    char why[1000];
    uint64_t count;
    int told = wasmloop_load_told(bytes, fread(bytes, 1, sizeof bytes, stdin), module, &fault, why, sizeof why, &count);
    if (told == WASMLOOP_REFUSED) {
        fprintf(stderr, "host_uv: load: %.*s\n", (int)(count < sizeof why ? count : sizeof why), why);
        exit(1);
    }
    must(told, "load");
}

static void on_timer(uv_timer_t *timer) { turn(timer->data); }
static void on_idle(uv_idle_t *idle) { turn(idle->data); }
/* in a thread of the pool */
static void on_work(uv_work_t *work) { wasmloop_job_run(&((job *)work->data)->handle); }

static void on_worked(uv_work_t *work, int cancelled) {
    job *j = work->data;
    guest *g = j->of;
    (void)cancelled;
    j->next = g->done;
    g->done = j;
    turn(g);
}

/* Gives the loop the replies that have come, the first one first. */
static void take_reply(guest *g, job *j) {
    if (j->next) take_reply(g, j->next);
    if (g->ending || wasmloop_accept(&g->loop, &j->handle) != WASMLOOP_OK) wasmloop_drop(&j->handle);
    free(j);
    g->jobs--;
}

static void take_replies(guest *g) {
    job *j = g->done;
    g->done = NULL;
    if (j) take_reply(g, j);
}

/* at most 32 requests are outstanding, so it goes no deeper */
static void hand_out(guest *g) {
    job *j = calloc(1, sizeof *j);
    int told = j ? wasmloop_next_job(&g->loop, &j->handle) : WASMLOOP_MEMORY;
    if (told == WASMLOOP_NONE) { free(j); return; }
    must(told, "next_job");
    must(wasmloop_job_start(&g->loop, &j->handle), "job_start"); /* the guest's cancel comes too late from here on */
    j->work.data = j;
    j->of = g;
    g->jobs++;
    uv_queue_work(uv, &j->work, on_work, on_worked);
    hand_out(g);
}

static void keep_emits(guest *g, uint32_t count) {
    g->emits = realloc(g->emits, (g->count + count + 1) * sizeof *g->emits);
    if (!g->emits) exit(1);
    must(wasmloop_emits(&g->loop, g->emits + g->count, count, &count), "emits");
    g->count += count;
}

static void end(guest *g, const char *ending) {
    g->ending = ending;
    if (strcmp(ending, "failed") == 0) status = 4;
    must(wasmloop_drop(&g->loop), "drop");
    uv_close((uv_handle_t *)&g->timer, NULL);
    uv_close((uv_handle_t *)&g->idle, NULL);
    for (unsigned i = 0; i < loops; i++)
        if (!guests[i].ending) return;
    if (sends) uv_close((uv_handle_t *)&wake, NULL);
}

/* Begins an iteration, with what has come since the last one. */
static void begin(guest *g) {
    take_replies(g);
    for (; g->sent < seen; g->sent++) must(wasmloop_async_send(&g->loop, 0), "async_send");
    uv_update_time(uv);
    must(wasmloop_clock(&g->loop, jumps ? 0 : uv_now(uv) - began, &g->now), "clock");
    hand_out(g);
    g->inside = 1;
}

/* How the loop ended, if it did. */
static const char *ended(const guest *g, uint32_t over) {
    const wasmloop_did *did = &g->turned.did;
    if (over && did->what == WASMLOOP_OVER) return "over";
    if (over && (did->what == WASMLOOP_FAILED || (did->what == WASMLOOP_RAN && did->ending != WASMLOOP_RETURN))) return "failed";
    return g->ran + g->turned.callbacks == MAX_CALLBACKS ? "limit" : NULL;
}

/* An iteration is over: sleeps until the next one, or for ever. */
static void rest(guest *g) {
    uint64_t wait = g->turned.wait;
    g->inside = 0;
    g->ran += g->turned.callbacks;
    hand_out(g);
    if (wait == 0 || g->done || g->sent < seen) return;
    uv_idle_stop(&g->idle);
    if (wait == WASMLOOP_FOREVER) {
        if (g->jobs == 0 && seen == sends) end(g, "waiting");
    } else if (!jumps) {
        /* the wait counts from the moment that is cached, the timer from now */
        uv_timer_start(&g->timer, on_timer, wait, 0);
    } else if (g->jobs == 0) {
        must(wasmloop_clock(&g->loop, g->now + wait, &g->now), "clock");
        uv_idle_start(&g->idle, on_idle);
    }
}

/* A slice of an iteration, the next one at the latest where the uv loop is idle. */
static void turn(guest *g) {
    uint32_t over, before = g->inside ? g->turned.callbacks : 0;
    uint64_t from = uv_hrtime();
    const char *ending;
    if (g->ending) {
        take_replies(g);
        return;
    }
    uv_timer_stop(&g->timer);
    uv_idle_start(&g->idle, on_idle);
    if (!g->inside) begin(g);
    must(wasmloop_turn_for(&g->loop, MAX_CALLBACKS - g->ran - before, SLICE, &over, &g->turned), "turn_for");
    if (uv_hrtime() - from > longest) longest = uv_hrtime() - from;
    if (over && g->turned.did.what == WASMLOOP_RAN) keep_emits(g, g->turned.did.emits);
    if ((ending = ended(g, over))) end(g, ending);
    else if (over && g->turned.did.what == WASMLOOP_ENTERED) rest(g);
}

/* in the uv loop's thread: sends may have been joined, so they are counted */
static void on_wake(uv_async_t *async) {
    (void)async;
    seen = sent_in;
    for (unsigned i = 0; i < loops; i++) turn(&guests[i]);
}

static void sender(void *unused) {
    (void)unused;
    for (unsigned i = 0; i < sends; i++) {
        uv_sleep(10);
        sent_in++;
        uv_async_send(&wake);
    }
}

static void open_guest(guest *g, wasmloop_handle *module, uint32_t number) {
    wasmloop_limits limits = { 1000000, 1000000, number, 64 };
    g->number = number;
    must(wasmloop_loop(module, &limits, &g->loop), "loop");
    uv_timer_init(uv, &g->timer);
    uv_idle_init(uv, &g->idle);
    g->timer.data = g->idle.data = g;
    uv_idle_start(&g->idle, on_idle);
}

static void print_guest(guest *g) {
    printf("loop %u %s emits", g->number, g->ending);
    for (size_t k = 0; k < g->count; k++) printf(" %lld", (long long)g->emits[k]);
    printf("\n");
    free(g->emits);
}

int main(int argc, char **argv) {
    wasmloop_handle module = WASMLOOP_HANDLE_INIT;
    uv_thread_t thread;
    loops = argc > 1 ? (unsigned)atoi(argv[1]) : 0;
    if (loops < 1 || loops > MAX_LOOPS) {
        fprintf(stderr, "usage: host_uv LOOPS [SENDS] < FILE, with 1 to %d LOOPS\n", MAX_LOOPS);
        return 2;
    }
    sends = argc > 2 ? (unsigned)atoi(argv[2]) : 0;
    jumps = getenv("VIRTUAL") != NULL;
    load(&module);
    began = uv_now(uv = uv_default_loop());
    for (unsigned i = 0; i < loops; i++) open_guest(&guests[i], &module, i);
    must(wasmloop_drop(&module), "drop");
    if (sends) {
        uv_async_init(uv, &wake, on_wake);
        uv_thread_create(&thread, sender, NULL);
    }
    uv_run(uv, UV_RUN_DEFAULT);
    if (sends) uv_thread_join(&thread);
    for (unsigned i = 0; i < loops; i++) print_guest(&guests[i]);
    if (getenv("TIMES")) fprintf(stderr, "the longest slice: %.3f ms\n", (double)longest / 1e6);
    uv_loop_close(uv);
    return status;
}
