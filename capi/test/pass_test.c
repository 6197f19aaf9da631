/* Loops in slices that are passed between threads: each slice of a step, a turn or a job is done by whichever of eight threads takes the loop next.
 * Whatever the slices and whoever does them, a loop's steps, values, replies and memory are those of one thread without slices. Run it under
 * ThreadSanitizer. With -DPASSED_EARLY a loop is passed on before its slice is done, which is a race and must be reported.
 *
 * usage: pass_test EXAMPLES LIVES      LIVES: how many loops live, one after another in each of 24 places */
#include <pthread.h>
#include <string.h>
#include "checks.h"

enum { THREADS = 8, PLACES = 24, GUESTS = 9, MOST_TURNS = 30, MOST_JOBS = 32, MEMORY = 64 << 16, FUEL = 100000 };

static const char *const names[GUESTS] = { "digest.wasm", "countdown.wasm", "chatter.wasm", "ticker.wasm", "timer.wasm", "counts.wasm", "bucket.wasm",
    "endless.wasm", "loads.wasm" };
static wasmloop_handle modules[GUESTS];
static uint64_t wanted[GUESTS][2]; /* what a loop of the guest does, by steps and by turns */

typedef struct life {
    wasmloop_handle loop, jobs[MOST_JOBS];
    int guest, by_turns, is_over;
    uintptr_t by; /* the thread that did its last slice */
    uint32_t job_count, jobs_done, turns;
    uint64_t now, trace;
} life;

static pthread_mutex_t lock = PTHREAD_MUTEX_INITIALIZER;
static pthread_cond_t filled = PTHREAD_COND_INITIALIZER;
static life places[PLACES], *waiting[2 * PLACES];
static unsigned first, count, living;
static long lives;
static unsigned long slices, passed, ended;

static void must(int holds, const char *what) {
    if (holds) return;
#ifndef PASSED_EARLY
    printf("pass_test: %s\n", what);
    exit(1);
#else
    (void)what;
#endif
}

/* (ThreadSanitizer doesn't see the library's own reads and writes) */
static wasmloop_handle *seen(wasmloop_handle *handle) {
    volatile uint64_t *mark = &handle->mark;
    *mark = *mark;
    return handle;
}

static void add(life *it, const void *data, size_t length) {
    const uint8_t *at = data;
    for (size_t i = 0; i < length; i++) it->trace = (it->trace ^ at[i]) * 0x100000001b3u;
}

/* ---- what a host does between slices ---- */

static void begin(life *it) {
    wasmloop_limits limits = { FUEL, FUEL, 7, 64 };
    it->now = it->turns = it->job_count = it->jobs_done = 0;
    it->trace = 0xcbf29ce484222325u;
    it->is_over = 0;
    must(wasmloop_loop(&modules[it->guest], &limits, &it->loop) == WASMLOOP_OK, "loop");
}

/* The loop waits: takes its jobs, or sets the clock on. */
static void between(life *it, uint64_t wait) {
    while (wasmloop_next_job(seen(&it->loop), &it->jobs[it->job_count]) == WASMLOOP_OK) {
        must(wasmloop_job_start(seen(&it->loop), &it->jobs[it->job_count]) <= WASMLOOP_STRANGER, "job_start");
        if (++it->job_count == MOST_JOBS) break;
    }
    it->is_over = ++it->turns == MOST_TURNS || (!it->job_count && wait == WASMLOOP_FOREVER);
    if (it->job_count || it->is_over) return;
    it->now += wait;
    must(wasmloop_clock(seen(&it->loop), it->now, &it->now) == WASMLOOP_OK, "clock");
}

/* A step or a turn is over. */
static void stepped(life *it, const wasmloop_did *did) {
    int64_t values[64];
    uint64_t wait = WASMLOOP_FOREVER;
    uint32_t emitted;
    add(it, did, sizeof *did);
    if (did->what == WASMLOOP_RAN) {
        must(wasmloop_emits(seen(&it->loop), values, 64, &emitted) == WASMLOOP_OK, "emits");
        add(it, values, emitted * sizeof *values);
    }
    it->is_over = did->what >= WASMLOOP_OVER || (did->what == WASMLOOP_RAN && did->ending != WASMLOOP_RETURN);
    if (it->is_over || did->what != WASMLOOP_ENTERED || did->phase != WASMLOOP_TIMERS) return;
    must(wasmloop_hint(seen(&it->loop), &wait) == WASMLOOP_OK, "hint");
    between(it, wait);
}

/* All jobs are done: the loop takes them in their order. */
static void bring_back(life *it) {
    wasmloop_about about;
    for (uint32_t k = 0; k < it->job_count; k++) {
        must(wasmloop_job_about(seen(&it->jobs[k]), &about) == WASMLOOP_OK, "job_about");
        add(it, &about, sizeof about);
        if (wasmloop_accept(seen(&it->loop), &it->jobs[k]) != WASMLOOP_OK) wasmloop_drop(&it->jobs[k]);
    }
    it->job_count = it->jobs_done = 0;
}

static void finish(life *it) {
    static _Thread_local uint8_t memory[MEMORY];
    uint64_t size = 0;
    must(wasmloop_size(seen(&it->loop), &size) == WASMLOOP_OK && wasmloop_read(&it->loop, 0, memory, size) == WASMLOOP_OK, "read");
    add(it, memory, size);
    for (uint32_t k = 0; k < it->job_count; k++) wasmloop_drop(&it->jobs[k]);
    must(wasmloop_drop(seen(&it->loop)) == WASMLOOP_OK, "drop");
}

/* One thread, without slices. */
static uint64_t alone(int guest, int by_turns) {
    life it = { .guest = guest, .by_turns = by_turns };
    for (begin(&it); !it.is_over;) {
        wasmloop_turned turned;
        must((by_turns ? wasmloop_turn(&it.loop, UINT32_MAX, &turned) : wasmloop_step(&it.loop, &turned.did)) == WASMLOOP_OK, "step");
        stepped(&it, &turned.did);
        for (uint32_t k = 0; k < it.job_count; k++) must(wasmloop_job_run(&it.jobs[k]) == WASMLOOP_OK, "job_run");
        bring_back(&it);
    }
    finish(&it);
    return it.trace;
}

/* ---- the threads ---- */

static uint32_t draw(uint64_t *state) {
    *state ^= *state << 13, *state ^= *state >> 7, *state ^= *state << 17;
    return (uint32_t)(*state >> 16);
}

static void slice(life *it, uint64_t *state) {
    uint64_t units = draw(state) % 8 ? 1 + draw(state) % 400 : UINT64_MAX;
    wasmloop_turned turned;
    uint32_t over = 0;
    if (it->job_count) {
        must(wasmloop_job_run_for(seen(&it->jobs[it->jobs_done]), units, &over) == WASMLOOP_OK, "job_run_for");
        it->jobs_done += over;
        if (it->jobs_done == it->job_count) bring_back(it);
        return;
    }
    must((it->by_turns ? wasmloop_turn_for(seen(&it->loop), UINT32_MAX, units, &over, &turned)
                       : wasmloop_step_for(seen(&it->loop), units, &over, &turned.did)) == WASMLOOP_OK, "step_for");
    if (over) stepped(it, &turned.did);
}

/* Puts a loop where any thread takes it; a new one in its place if it is over, as long as some are to live. */
static void put(life *it) {
    pthread_mutex_lock(&lock);
    waiting[(first + count++) % (2 * PLACES)] = it;
    pthread_cond_signal(&filled);
    pthread_mutex_unlock(&lock);
}

static life *take(void) {
    pthread_mutex_lock(&lock);
    while (count == 0 && living) pthread_cond_wait(&filled, &lock);
    life *it = count ? waiting[first] : NULL;
    if (it) first = (first + 1) % (2 * PLACES), count--, slices++;
    pthread_mutex_unlock(&lock);
    return it;
}

/* The loop of a place is over: the next one begins there, or the place is empty from now on. Returns whether one began. */
static int next_life(life *it, uint64_t *state) {
    finish(it);
    must(it->trace == wanted[it->guest][it->by_turns], names[it->guest]);
    pthread_mutex_lock(&lock);
    int more = --lives >= 0;
    ended++;
    living -= !more;
    if (!living) pthread_cond_broadcast(&filled);
    pthread_mutex_unlock(&lock);
    it->guest = (int)(draw(state) % GUESTS), it->by_turns = (int)(draw(state) % 2);
    if (more) begin(it);
    return more;
}

static void *works(void *number) {
    uint64_t state = 0x9e3779b97f4a7c15u * ((uintptr_t)number + 1);
    unsigned long mine = 0;
    for (life *it; (it = take());) {
        mine += it->by != (uintptr_t)number;
        it->by = (uintptr_t)number;
#ifdef PASSED_EARLY
        put(it);
#endif
        slice(it, &state);
        if (it->is_over && !next_life(it, &state)) continue;
#ifndef PASSED_EARLY
        put(it);
#endif
    }
    pthread_mutex_lock(&lock);
    passed += mine;
    pthread_mutex_unlock(&lock);
    return NULL;
}

int main(int argc, char **argv) {
    pthread_t threads[THREADS];
    if (argc != 3) return 2;
    folder = argv[1];
    lives = atol(argv[2]) - PLACES;
    for (int guest = 0; guest < GUESTS; guest++) {
        modules[guest] = module_of(names[guest]);
        for (int by_turns = 0; by_turns < 2; by_turns++) wanted[guest][by_turns] = alone(guest, by_turns);
    }
    for (living = 0; living < PLACES; living++) {
        places[living].guest = (int)living % GUESTS, places[living].by_turns = (int)living / GUESTS % 2;
        begin(&places[living]);
        put(&places[living]);
    }
    for (uintptr_t i = 0; i < THREADS; i++) must(pthread_create(&threads[i], NULL, works, (void *)i) == 0, "thread");
    for (int i = 0; i < THREADS; i++) must(pthread_join(threads[i], NULL) == 0, "join");
    for (int guest = 0; guest < GUESTS; guest++) IS(wasmloop_drop(&modules[guest]), WASMLOOP_OK);
    printf("%lu loops in %lu slices by %d threads, %lu times passed to another\n", ended, slices, THREADS, passed);
    IS((long)ended >= atol(argv[2]) && passed > ended, 1);
    return all_hold();
}
