/* Long-lived loops: a module with uv_main has one, whose turns are tasks like others. An ask is a request of the loop: uv_work computes it,
 * and uv_after_work receives its number; the first number emitted whose upper half is that one answers it. If the module changes, its new loop
 * gets the asks that have no answer yet. A loop that failed is created again a second later. */
#include <errno.h>
#include <stdlib.h>
#include "http.h"

enum { RESTART_MS = 1000, MOST_RUNS = 32, MOST_EMITS = MOST_RUNS * 64 };

/* While its turn runs, only that touches the handle, the hint and the emits. */
typedef struct loop {
    task turn;
    tasks done; /* jobs, for the next turn */
    uv_timer_t timer;
    uint64_t began, hint; /* began: when its clock was 0, in milliseconds */
    uint32_t number, last, emit_count;
    bool renew;
    wasmloop_handle handle;
    int64_t emits[MOST_EMITS];
} loop;

static const kind turns, jobs;

uint32_t loop_did(const tenant *t) { return t->loop ? t->loop->last : 0; }

/* Queues a turn of a loop, unless it has one, or has ended. */
static void turn_soon(tenant *t) {
    loop *l = t->loop;
    if (!l || l->turn.state != IDLE || l->last >= WASMLOOP_OVER || ending) return;
    uv_timer_stop(&l->timer);
    l->turn = (task){ .kind = &turns, .of = t };
    wait_for(&l->turn, true);
}

static void on_due(uv_timer_t *timer) {
    const loop *l = timer->data;
    tenant *t = l->turn.of;
    if (l->last == WASMLOOP_FAILED) make_loop(t);
    turn_soon(t);
}

static void restart_later(loop *l) {
    l->last = WASMLOOP_FAILED;
    uv_timer_start(&l->timer, on_due, RESTART_MS, 0);
}

/* ---- asks ---- */

/* Answers an ask of a loop that doesn't exist. Returns whether it did. */
static bool answer_without(client *c) {
    const tenant *t = c->task.of;
    const loop *l = t->loop;
    if (!t->module.mark && t->load) return false; /* it is being loaded */
    if (!t->module.mark)
        refuse(c);
    else if (!t->lives)
        fail(c, REFUSED, 404, "it has no loop");
    else if (!l)
        fail(c, NO_MEMORY, 503, "no memory");
    else if (l->last >= WASMLOOP_OVER)
        fail(c, TRAPPED, 500, l->last == WASMLOOP_OVER ? "its loop is over" : t->failure ? t->failure : "no memory");
    else
        return false;
    return true;
}

static void refuse_asks(tenant *t) {
    for (task *k; (k = TAILQ_FIRST(&t->asks)) && answer_without((client *)k);) continue;
}

void ask(client *c, tenant *t, uint32_t op) {
    if (answer_without(c) || !may_wait(c, t->asking)) return;
    c->task.about.op = op;
    c->task.state = ASKS;
    c->request = 0;
    TAILQ_INSERT_TAIL(&t->asks, &c->task, next);
    t->asking++;
    turn_soon(t);
}

/* Sends to an async of a loop, which may not exist yet. */
void send_to(client *c, tenant *t, uint32_t async) {
    if (answer_without(c)) return;
    count(c, DONE);
    t->sends |= 1u << async;
    turn_soon(t);
    say(c, 202, "sent\n");
}

/* Submits the asks that weren't submitted, as far as more requests may be outstanding. Returns whether it submitted one. */
static bool make_requests(tenant *t) {
    bool made = false;
    int32_t told = 0;
    for (task *k = TAILQ_FIRST(&t->asks), *next; k && told != -EAGAIN; k = next) {
        client *c = (client *)k;
        next = TAILQ_NEXT(k, next);
        if (c->request) continue;
        if (wasmloop_request(&t->loop->handle, k->about.op, (uint8_t *)c->body.at, c->body.length, &told) != WASMLOOP_OK) continue;
        if (told > 0) c->request = told, made = true;
        if (told == -ENOMEM) fail(c, NO_MEMORY, 503, "no memory");
        if (told == -ENOSYS) fail(c, REFUSED, 404, "it takes no requests");
    }
    return made;
}

/* A number that the loop has emitted answers the ask whose request is in its upper half. */
static void answer_ask(tenant *t, int64_t emitted) {
    for (task *k = TAILQ_FIRST(&t->asks); k; k = TAILQ_NEXT(k, next)) {
        client *c = (client *)k;
        if (!c->request || emitted >> 32 != c->request) continue;
        count(c, DONE);
        say(c, 200, "%u\n", (uint32_t)emitted);
        return;
    }
}

/* ---- a turn ---- */

/* Gives finished jobs to their loop; those of another loop, or without a loop, are dropped. */
static void accept_jobs(loop *l) {
    for (task *k; (k = TAILQ_FIRST(&l->done));) {
        TAILQ_REMOVE(&l->done, k, next);
        wasmloop_accept(&l->handle, &k->handle);
        end_task(k);
    }
}

/* Gives the loop what has arrived for it. */
static bool ready_turn(task *k) {
    tenant *t = k->of;
    loop *l = t->loop;
    uint64_t now;
    wasmloop_clock(&l->handle, uv_now(uv) - l->began, &now);
    accept_jobs(l);
    for (uint32_t i = 0; i < ASYNCS; i++)
        if (t->sends >> i & 1) wasmloop_async_send(&l->handle, i);
    make_requests(t);
    t->sends = l->emit_count = 0;
    return true;
}

/* Makes a step, and logs it. */
static void step(task *k, wasmloop_did *did) {
    loop *l = k->of->loop;
    int64_t *emits = l->emits + l->emit_count;
    uint32_t n = 0;
    if (wasmloop_step(&l->handle, did) != WASMLOOP_OK) did->what = WASMLOOP_FAILED;
    if (did->what == WASMLOOP_RAN) {
        if (did->ending != WASMLOOP_RETURN) explain(k, &l->handle, wasmloop_ending_name(did->ending), did->trap, did->used);
        wasmloop_emits(&l->handle, emits, 64, &n);
        k->about.used += did->used;
        l->emit_count += n;
    }
    log_step(k->of, did, emits, n);
}

/* Steps until a whole iteration of the loop has run no callback and nothing is due (the hint doesn't cover sends, among them the guest's own); at
 * most MOST_RUNS callbacks, and none after half a millisecond if another tenant waits. */
static void run_turn(task *k) {
    loop *l = k->of->loop;
    wasmloop_did did = { 0 };
    uint32_t runs = 0, before = UINT32_MAX;
    uint64_t began = uv_hrtime();
    l->hint = 0;
    while (did.what < WASMLOOP_OVER && runs < MOST_RUNS && !(hurry && uv_hrtime() - began > TURN_NS)) {
        step(k, &did);
        runs += did.what == WASMLOOP_RAN;
        if (did.what != WASMLOOP_ENTERED || did.phase != WASMLOOP_TIMERS) continue;
        if (runs == before && wasmloop_hint(&l->handle, &l->hint) == WASMLOOP_OK && l->hint) break;
        before = runs;
        l->hint = 0;
    }
    k->status = (int)did.what;
}

/* Queues the jobs that a loop requests. */
static void take_jobs(tenant *t) {
    for (task *k; (k = task_of(t, &jobs)); wait_for(k, false)) {
        if (wasmloop_next_job(&t->loop->handle, &k->handle) != WASMLOOP_OK) {
            end_task(k);
            return;
        }
        wasmloop_job_about(&k->handle, &k->about);
        wasmloop_job_start(&t->loop->handle, &k->handle);
    }
}

static void turned(task *k) {
    tenant *t = k->of;
    loop *l = t->loop;
    t->counted.turns++;
    t->counted.used += k->about.used;
    l->last = (uint32_t)k->status;
    keep_failure(k);
    take_jobs(t);
    for (uint32_t i = 0; i < l->emit_count; i++) answer_ask(t, l->emits[i]);
    if (l->renew) {
        make_loop(t);
    } else if (l->last >= WASMLOOP_OVER) {
        refuse_asks(t);
        if (l->last == WASMLOOP_FAILED) restart_later(l);
    } else if (make_requests(t) || t->sends || !TAILQ_EMPTY(&l->done) || l->hint == 0) {
        turn_soon(t);
    } else if (l->hint != WASMLOOP_FOREVER) {
        uv_timer_start(&l->timer, on_due, l->hint, 0);
    }
}

static const kind turns = { ready_turn, run_turn, turned };

/* ---- jobs of a loop ---- */

/* Drops a job whose loop has ended. */
static bool ready_job(task *k) {
    const loop *l = k->of->loop;
    bool wanted = l && k->about.loop == l->number && l->last < WASMLOOP_OVER && !ending;
    if (!wanted) end_task(k);
    return wanted;
}

static void job_done(task *k) {
    tenant *t = k->of;
    t->counted.used += k->about.used;
    if (!t->loop) {
        end_task(k);
        return;
    }
    TAILQ_INSERT_TAIL(&t->loop->done, k, next);
    turn_soon(t);
}

static const kind jobs = { ready_job, run_job, job_done };

/* ---- a loop ---- */

static void on_closed(uv_handle_t *timer) { free(timer->data); }

/* Frees a loop that has no turn now. */
void free_loop(tenant *t) {
    loop *l = t->loop;
    if (!l) return;
    t->loop = NULL;
    unwait(&l->turn);
    wasmloop_drop(&l->handle);
    accept_jobs(l);
    uv_close((uv_handle_t *)&l->timer, on_closed);
}

/* Creates the loop of a tenant's module again, if it has one, and moves the unanswered asks to it. */
void make_loop(tenant *t) {
    static uint32_t loops;
    loop *l = t->loop;
    if (ending) return;
    if (l && l->turn.state == RUNS) {
        l->renew = true;
        return;
    }
    if (l) t->counted.restarts += l->last >= WASMLOOP_OVER;
    free_loop(t);
    if (t->lives && (l = t->loop = calloc(1, sizeof *l))) {
        wasmloop_limits limits = { t->limits[CALLBACK], t->limits[FUEL], ++loops, (uint32_t)t->limits[DEPTH] };
        l->turn.of = t;
        l->number = loops;
        l->began = uv_now(uv);
        l->timer.data = l;
        uv_timer_init(uv, &l->timer);
        TAILQ_INIT(&l->done);
        if (!t->steps) make_steps(t);
        wasmloop_record_name = t->name;
        if (wasmloop_loop(&t->module, &limits, &l->handle) != WASMLOOP_OK) restart_later(l);
        for (task *k = TAILQ_FIRST(&t->asks); k; k = TAILQ_NEXT(k, next)) ((client *)k)->request = 0;
        turn_soon(t);
    }
    refuse_asks(t);
}
