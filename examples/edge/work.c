/* Work in the threads of libuv's pool, and whose turn it is: of the waiting tenants, the one that has used the least processor time goes first.
 * A job runs in slices, so that it can yield to others, and end when it must. */
#include <stdlib.h>
#include <string.h>
#include <sys/syscall.h>
#include <time.h>
#include <unistd.h>
#include "http.h"

enum { SLICE = 10000, MOST_RESTS = 32 }; /* SLICE: units */

uint32_t running, waiting;
atomic_bool hurry;
static LIST_HEAD(, tenant) active;     /* tenants with a waiting task */
static uint64_t pace;                  /* the share of the tenant that was served last */
static uint64_t alarm_at = UINT64_MAX; /* when the next paused tenant may go on */

/* ---- in a thread of the pool ---- */

static uint64_t cpu_now(void) {
    struct timespec at;
    clock_gettime(CLOCK_THREAD_CPUTIME_ID, &at);
    return (uint64_t)at.tv_sec * 1000000000u + (uint64_t)at.tv_nsec;
}

/* Writes how a job or a callback failed, and where: as `wasmloop` does, with the source line if it is known. */
void explain(task *k, wasmloop_handle *of, const char *how, uint32_t trap, uint64_t used) {
    uint64_t n = 0;
    int said = snprintf(k->said, SAID, "%s%s%s, after %llu units", how, trap ? ", " : "", trap ? wasmloop_trap_name(trap) : "", U(used));
    char *where = k->said + said + 2;
    size_t room = (size_t)(k->said + SAID - 1 - where);
    if (wasmloop_stop_told(NULL, 0, of, where, room, &n) != WASMLOOP_OK) return;
    memcpy(where - 2, ", ", 2);
    where[n < room ? n : room] = 0;
    add_line(k->of, of, k->said);
}

/* Runs a job in slices until it ends, its deadline passes, its client disconnects, or, after half a millisecond, another tenant waits. */
void run_job(task *k) {
    uint32_t over = 0;
    int is_late = 0;
    wasmloop_about *a = &k->about;
    uint64_t began = uv_hrtime(), now = began;
    while (!over && !is_late && !k->gone && !(hurry && now - began >= TURN_NS)) {
        if (wasmloop_job_run_for(&k->handle, SLICE, &over) != WASMLOOP_OK) over = 1;
        now = uv_hrtime();
        is_late = !over && now >= k->until;
    }
    k->goes_on = !over && !is_late;
    wasmloop_job_about(&k->handle, a);
    if (is_late) a->outcome = LATE;
    const char *how = a->outcome == LATE ? "not done by its deadline" : wasmloop_outcome_name(a->outcome);
    if (a->outcome > WASMLOOP_WORK_DONE) explain(k, &k->handle, how, a->outcome == WASMLOOP_WORK_TRAP ? a->value : 0, a->used);
}

/* Pool threads have a lower priority than the main thread, in any class of the scheduler, and short time slices, if the kernel has them: who
 * wakes up beside a long-running guest waits less. On Linux these are set for each thread. */
static void lower_priority(void) {
    struct {
        uint32_t size, policy;
        uint64_t flags;
        int32_t nice;
        uint32_t priority;
        uint64_t slice, deadline, period;
    } own = { 0 };
    if (syscall(SYS_sched_getattr, 0, &own, sizeof own, 0) != 0) return;
    own.priority -= own.priority > 1;
    own.nice++;
    own.slice = MS / 10;
    syscall(SYS_sched_setattr, 0, &own, 0);
}

static void do_task(uv_work_t *work) {
    static _Thread_local bool low;
    task *k = (task *)work;
    if (!low) lower_priority();
    low = true;
    uint64_t began = cpu_now();
    k->kind->run(k);
    k->cpu = cpu_now() - began;
}

/* ---- whose turn it is, in the main thread ---- */

static void on_rested(uv_timer_t *timer) {
    (void)timer;
    alarm_at = UINT64_MAX;
    schedule();
}

static void look_again(uint64_t at, uint64_t now) {
    static uv_timer_t rests;
    if (at >= alarm_at) return;
    alarm_at = at;
    if (!rests.loop) uv_timer_init(uv, &rests);
    uv_timer_start(&rests, on_rested, (at - now) / MS + 1, 0);
    uv_unref((uv_handle_t *)&rests); /* shutdown doesn't wait for it */
}

/* The tenant that goes next, if any. One whose request failed gets one thread, and so does one whose first module is being loaded. */
static tenant *next_in_turn(void) {
    tenant *best = NULL;
    uint64_t now = uv_hrtime(), soonest = UINT64_MAX;
    for (tenant *t = LIST_FIRST(&active); t; t = LIST_NEXT(t, active)) {
        if (now < t->rests && !ending)
            soonest = t->rests < soonest ? t->rests : soonest;
        else if (t->running < (t->fails || !t->module.mark ? 1 : t->limits[RUN]) && (!best || t->share < best->share))
            best = t;
    }
    look_again(soonest, now);
    return best;
}

static void on_done(uv_work_t *work, int cancelled) {
    task *k = (task *)work;
    tenant *t = k->of;
    (void)cancelled;
    k->state = IDLE;
    running--, t->running--;
    t->counted.cpu += k->cpu;
    t->share += k->cpu;
    if (k->goes_on && !k->gone)
        wait_for(k, true);
    else
        k->kind->after(k);
    schedule();
}

/* Starts the tasks that may start. */
void schedule(void) {
    tenant *t;
    while ((t = next_in_turn()) && running < workers) {
        task *k = TAILQ_FIRST(&t->waits);
        unwait(k);
        pace = t->share;
        if (k->kind->ready && !k->kind->ready(k)) continue;
        running++, t->running++;
        k->state = RUNS;
        uv_queue_work(uv, &k->work, do_task, on_done);
    }
    hurry = t != NULL;
}

/* Queues a task for its tenant's turn, as the last, or as the first. */
void wait_for(task *k, bool front) {
    tenant *t = k->of;
    if (TAILQ_EMPTY(&t->waits)) {
        LIST_INSERT_HEAD(&active, t, active);
        if (t->share < pace) t->share = pace; /* unused time is not saved up */
    }
    if (front)
        TAILQ_INSERT_HEAD(&t->waits, k, next);
    else
        TAILQ_INSERT_TAIL(&t->waits, k, next);
    k->state = WAITS;
    waiting++, t->waiting++;
    schedule();
}

/* Removes a task from where it waits. */
void unwait(task *k) {
    tenant *t = k->of;
    if (k->state == ASKS) {
        TAILQ_REMOVE(&t->asks, k, next);
        t->asking--;
    } else if (k->state == WAITS) {
        TAILQ_REMOVE(&t->waits, k, next);
        if (TAILQ_EMPTY(&t->waits)) LIST_REMOVE(t, active);
        waiting--, t->waiting--;
    }
    k->state = IDLE;
}

task *task_of(tenant *t, const kind *kind) {
    task *k = calloc(1, sizeof *k);
    if (k) *k = (task){ .kind = kind, .of = t, .until = UINT64_MAX };
    return k;
}

void end_task(task *k) {
    wasmloop_drop(&k->handle);
    free(k);
}

/* Keeps a task's failure as its tenant's last one. */
void keep_failure(task *k) {
    if (!*k->said) return;
    free(k->of->failure);
    k->of->failure = strdup(k->said);
}

/* ---- requests ---- */

/* Answers a request that has no reply with the reason, and counts it. */
void fail(client *c, outcome what, int status, const char *why) {
    count(c, what);
    say(c, status, "%s: %s\n", c->task.of->name, why);
}

/* Its deadline has passed, or the server shuts down. A job that has begun goes on: its thread watches the deadline. */
void too_late(client *c) {
    const task *k = &c->task;
    if (k->state == RUNS || (k->state == WAITS && k->handle.mark)) return;
    if (ending)
        fail(c, REFUSED, 503, "the server is shutting down");
    else
        fail(c, LATE, 504, k->state == ASKS ? "the loop did not answer before its deadline" : "not begun by its deadline");
}

/* Its client is to be closed. Returns whether that may be now: a running job ends with its slice, and closes it then. */
bool give_up(client *c) {
    task *k = &c->task;
    k->gone = true;
    if (k->state == RUNS) return false;
    if (k->state != IDLE) count(c, GONE);
    unwait(k);
    return true;
}

/* Whether one more request may wait after `before` others, within the limits; if not, it is answered. */
bool may_wait(client *c, uint32_t before) {
    bool room = may_queue(c), may = room && before < c->task.of->limits[QUEUE];
    if (!may) fail(c, REFUSED, room ? 429 : 503, room ? "its queue is full" : "the server's queue is full");
    return may;
}

/* Creates the job. */
static bool ready_work(task *k) {
    tenant *t = k->of;
    client *c = (client *)k;
    wasmloop_task what = { t->limits[FUEL], k->about.op, (uint32_t)t->limits[DEPTH] };
    if (k->handle.mark) return true;
    switch (wasmloop_job_new(&t->module, &what, (uint8_t *)c->body.at, c->body.length, &k->handle)) {
    case WASMLOOP_OK: drop_body(c); return true;
    case WASMLOOP_EMPTY: refuse(c); break;
    case WASMLOOP_MEMORY: fail(c, NO_MEMORY, 503, "no memory"); break;
    default: fail(c, REFUSED, 404, "it exports no uv_work");
    }
    return false;
}

/* A tenant whose request failed is paused, longer after each failure in a row, and has one thread until a request succeeds: its failures must not
 * cost its neighbours. One whose replies exceed `out` bytes per millisecond is paused until they don't: the main thread writes them. */
static void note_end(tenant *t, outcome what, uint64_t bytes) {
    const uint64_t now = uv_hrtime();
    t->sent = (t->sent > now ? t->sent : now) + bytes * MS / t->limits[OUT];
    if (t->sent > now + MS) t->rests = t->sent - MS;
    if (what == DONE) t->fails = 0;
    if (what == DONE || what == GONE || what == NO_MEMORY) return;
    if (t->fails == 0 || (what != LATE && t->fails < MOST_RESTS)) t->fails++; /* others may have made it late */
    t->rests = now + t->limits[REST] * MS * t->fails;
}

static void worked(task *k) {
    static const int status_of[OUTCOMES] = { [TRAPPED] = 500, [DEEP] = 500, [SPENT] = 504, [NO_MEMORY] = 503, [LATE] = 504 };
    tenant *t = k->of;
    client *c = (client *)k;
    const uint8_t *reply = NULL;
    uint64_t length = 0;
    outcome what = (outcome)k->about.outcome;
    wasmloop_job_view(&k->handle, &reply, &length);
    t->counted.used += k->about.used;
    t->counted.out += length;
    note_end(t, what, length);
    if (k->gone) {
        count(c, GONE);
        leave(c);
    } else if (what == DONE) {
        count(c, DONE);
        answer(c, 200, t->type ? t->type : "application/octet-stream", reply, length);
    } else {
        fail(c, what, status_of[what], k->said);
    }
    keep_failure(k);
}

/* Queues a request for its tenant's turn. */
void work(client *c, tenant *t, uint32_t op) {
    static const kind works = { ready_work, run_job, worked };
    if (!may_wait(c, t->waiting)) return;
    c->task.kind = &works;
    c->task.about.op = op;
    wait_for(&c->task, false);
}
