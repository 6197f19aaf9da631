/* Two loops of one module on two threads, and the work of both on a third. Each loop is made, run to its end and dropped ROUNDS
 * times, and puts out the same values each time. Run it under ThreadSanitizer and under Helgrind.
 *
 * usage: threads_test FILE ROUNDS
 *
 * ThreadSanitizer doesn't see the library's own reads and writes, as Helgrind does, so each call's handles are read and written just
 * before it. With -DWITHOUT_LOCK nothing is locked while a job is put into a queue, and with -DWITHOUT_WAIT a loop's thread asks about a
 * job that the third one may be running: both are races, and must be reported. */
#include <pthread.h>
#include <stdio.h>
#include <stdlib.h>
#include <string.h>
#include <unistd.h>
#include "wasmloop.h"

enum { ROOM = 64, MOST_EMITS = 256 };

typedef struct queue queue;

typedef struct job {
    wasmloop_handle handle;
    queue *back; /* where it goes when it was run */
} job;

struct queue {
    pthread_mutex_t lock;
    pthread_cond_t filled;
    job *jobs[ROOM]; /* a loop has at most 32 under way */
    unsigned first, count;
};

typedef struct emitted {
    int64_t values[MOST_EMITS];
    size_t count;
} emitted;

typedef struct place {
    wasmloop_handle module;
    uint32_t number;
    long rounds;
    queue replies;
    emitted first;
    pthread_t thread;
} place;

static queue asked = { .lock = PTHREAD_MUTEX_INITIALIZER, .filled = PTHREAD_COND_INITIALIZER };

static void must(int holds, const char *what) {
    if (holds) return;
    printf("threads_test: %s\n", what);
    exit(1);
}

static wasmloop_handle *seen(wasmloop_handle *handle) {
    volatile uint64_t *mark = &handle->mark;
    *mark = *mark;
    return handle;
}

static void put(queue *q, job *j) {
#ifndef WITHOUT_LOCK
    pthread_mutex_lock(&q->lock);
#endif
    must(q->count < ROOM, "a queue is full");
    q->jobs[(q->first + q->count++) % ROOM] = j;
    pthread_cond_signal(&q->filled);
#ifndef WITHOUT_LOCK
    pthread_mutex_unlock(&q->lock);
#endif
}

static job *take(queue *q) {
    pthread_mutex_lock(&q->lock);
    while (q->count == 0) pthread_cond_wait(&q->filled, &q->lock);
    job *j = q->jobs[q->first];
    q->first = (q->first + 1) % ROOM;
    q->count--;
    pthread_mutex_unlock(&q->lock);
    return j;
}

/* the third thread, until it takes NULL */
static void *works(void *unused) {
    (void)unused;
    for (job *j; (j = take(&asked));) {
        must(wasmloop_job_run(seen(&j->handle)) == WASMLOOP_OK, "job_run");
        put(j->back, j);
    }
    return NULL;
}

#ifdef WITHOUT_WAIT
/* asks about a job until it was run */
static void watch(job *j) {
    wasmloop_about about = { .outcome = WASMLOOP_NOT_RUN };
    for (int i = 0; i < 1000 && about.outcome == WASMLOOP_NOT_RUN; i++) {
        usleep(100);
        wasmloop_job_about(seen(&j->handle), &about);
    }
}
#endif

/* hands out what the loop asks for, and says how many jobs that were */
static unsigned hand_out(place *p, wasmloop_handle *loop) {
    for (unsigned count = 0;; count++) {
        job *j = calloc(1, sizeof *j);
        must(j != NULL, "memory");
        int told = wasmloop_next_job(seen(loop), &j->handle);
        if (told == WASMLOOP_NONE) { free(j); return count; }
        must(told == WASMLOOP_OK, "next_job");
        must(wasmloop_job_start(seen(loop), seen(&j->handle)) == WASMLOOP_OK, "job_start");
        j->back = &p->replies;
        put(&asked, j);
#ifdef WITHOUT_WAIT
        watch(j);
#endif
    }
}

static void bring_back(place *p, wasmloop_handle *loop) {
    job *j = take(&p->replies);
    must(wasmloop_accept(seen(loop), seen(&j->handle)) == WASMLOOP_OK, "accept");
    free(j);
}

/* steps up to the next timers phase, and says whether the loop goes on */
static int steps(wasmloop_handle *loop, emitted *all) {
    for (;;) {
        wasmloop_did did;
        uint32_t count;
        must(wasmloop_step(seen(loop), &did) == WASMLOOP_OK, "step");
        must(did.what != WASMLOOP_FAILED, "a loop failed");
        if (did.what == WASMLOOP_OVER) return 0;
        if (did.what == WASMLOOP_ENTERED && did.phase == WASMLOOP_TIMERS) return 1;
        if (did.what != WASMLOOP_RAN) continue;
        must(all->count + did.emits <= MOST_EMITS, "too many values");
        must(wasmloop_emits(seen(loop), all->values + all->count, did.emits, &count) == WASMLOOP_OK, "emits");
        all->count += count;
    }
}

static emitted life(place *p) {
    wasmloop_limits limits = { 1000000, 1000000, p->number, 64 };
    wasmloop_handle module = WASMLOOP_HANDLE_INIT, loop = WASMLOOP_HANDLE_INIT;
    emitted all = { .count = 0 };
    unsigned out = 0;
    must(wasmloop_share(seen(&p->module), &module) == WASMLOOP_OK, "share");
    must(wasmloop_loop(seen(&module), &limits, &loop) == WASMLOOP_OK, "loop");
    must(wasmloop_drop(seen(&module)) == WASMLOOP_OK, "drop");
    while (steps(&loop, &all)) {
        out += hand_out(p, &loop);
        if (out > 0) { bring_back(p, &loop); out--; }
    }
    must(out == 0, "a loop is over whose jobs are not back");
    must(wasmloop_drop(seen(&loop)) == WASMLOOP_OK, "drop");
    return all;
}

static int same(const emitted *one, const emitted *other) {
    return one->count == other->count && memcmp(one->values, other->values, one->count * sizeof *one->values) == 0;
}

static void *lives(void *it) {
    place *p = it;
    p->first = life(p);
    for (long i = 1; i < p->rounds; i++) {
        emitted again = life(p);
        must(same(&again, &p->first), "other values");
    }
    return NULL;
}

int main(int argc, char **argv) {
    static uint8_t bytes[1 << 20];
    static place places[2];
    pthread_t worker;
    wasmloop_handle module = WASMLOOP_HANDLE_INIT;
    wasmloop_fault fault;
    FILE *file = argc > 2 ? fopen(argv[1], "rb") : NULL;
    if (!file) return 2;
    size_t length = fread(bytes, 1, sizeof bytes, file);
    fclose(file);
    must(wasmloop_load(bytes, length, &module, &fault) == WASMLOOP_OK, "load");
    must(pthread_create(&worker, NULL, works, NULL) == 0, "thread");
    for (uint32_t i = 0; i < 2; i++) {
        place *p = &places[i];
        p->number = i;
        p->rounds = atol(argv[2]);
        pthread_mutex_init(&p->replies.lock, NULL);
        pthread_cond_init(&p->replies.filled, NULL);
        must(wasmloop_share(&module, &p->module) == WASMLOOP_OK, "share");
        must(pthread_create(&p->thread, NULL, lives, p) == 0, "thread");
    }
    must(wasmloop_drop(&module) == WASMLOOP_OK, "drop");
    for (int i = 0; i < 2; i++) {
        must(pthread_join(places[i].thread, NULL) == 0, "join");
        must(wasmloop_drop(&places[i].module) == WASMLOOP_OK, "drop");
    }
    put(&asked, NULL);
    must(pthread_join(worker, NULL) == 0, "join");
    must(places[0].first.count > 0 && same(&places[0].first, &places[1].first), "the loops differ");
    printf("2 loops on 2 threads, their work on a third, %ld times: %zu values each time\n", places[0].rounds, places[0].first.count);
    return 0;
}
