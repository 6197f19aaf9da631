/* What the parts of the server share. Read this first, then edge.c (start, shutdown, and what a path requests), work.c (work, and whose turn
 * it is) and tenants.c (tenants, and their files). The rest is apart, each behind a few calls: http.c has connections, listen.c sockets, peer.c
 * who a client is, loops.c long-lived loops, people.c metrics and pages, log.c the access log, lines.c source lines.
 *
 * Only the main thread parses, decides and answers. A thread of libuv's pool has one task at a time, and touches that task, the name of its
 * tenant, and, if the task is a loop's turn, the loop. */
#ifndef EDGE_H
#define EDGE_H

#include <stdatomic.h>
#include <stdbool.h>
#include <stdio.h>
#include <sys/queue.h>
#include <time.h>
#include <uv.h>
#include "wasmloop.h"
#include "../../capi/record_name.h"

#define U(x) ((unsigned long long)(x))

enum { ABSENT = -1, MOST_MODULE = 1 << 20, MOST_WAITING = 4096, ASYNCS = 16, MS = 1000000, TURN_NS = 500000, SAID = 256, TIMES = 32 };
typedef enum limit { FUEL, CALLBACK, DEADLINE, DEPTH, QUEUE, RUN, REST, OUT, LIMITS } limit;           /* the numbers in NAME.conf */
typedef enum outcome { GONE, DONE, TRAPPED, DEEP, SPENT, NO_MEMORY, LATE, REFUSED, OUTCOMES } outcome; /* the first as WASMLOOP_WORK_* */
typedef struct tenant tenant;
typedef struct client client;
typedef struct task task;
typedef TAILQ_HEAD(tasks, task) tasks;

/* What a task is: `ready`, in the main thread, creates what it needs, or ends it before it has run; `run` is called in a pool thread;
 * `after`, in the main thread, takes the result. */
typedef struct kind {
    bool (*ready)(task *);
    void (*run)(task *), (*after)(task *);
} kind;

/* What a tenant has to do: a request, the load of its module, a turn of its loop, or a job that its loop requests. */
struct task {
    uv_work_t work;
    const kind *kind;
    tenant *of;
    enum { IDLE, WAITS, RUNS, ASKS } state; /* ASKS: a request for the tenant's loop */
    TAILQ_ENTRY(task) next;                 /* in the list of those that wait, or ask */
    atomic_bool gone;                       /* its client has disconnected: its current slice is the last */
    bool goes_on;
    int status;                 /* of a load: the library's status, or ABSENT; of a turn: what its last step did */
    wasmloop_handle handle;     /* its job, or the module */
    wasmloop_about about;       /* the outcome may be LATE */
    uint64_t cpu, until;        /* until: its deadline, or when a client times out */
    char said[SAID];            /* why it failed, and where */
};

/* What the metrics report. */
typedef struct counted {
    uint64_t loads, restarts, turns, cpu, used, in, out, lived, worst, of[OUTCOMES];
    uint32_t times[TIMES]; /* requests by duration: the upper power of two of microseconds */
} counted;

struct tenant {
    LIST_ENTRY(tenant) next, active;
    uint64_t limits[LIMITS];
    char *type; /* the Content-Type of replies, or NULL */
    wasmloop_handle module;
    task *load;
    int status;           /* of its last load, */
    uint64_t stamp;       /* and of the file, when that began */
    bool changed, unread, lives; /* its file is newer than the last load, its .conf could not be read; its module has a loop */
    char *said, *failure; /* why its file was rejected, and its guest's last failure */
    tasks waits, asks;
    uint32_t waiting, running, asking, fails; /* fails: how many of its requests have failed since one succeeded */
    uint32_t clients;                         /* whose requests for it arrive or are answered, */
    size_t held;                              /* and the bytes of their bodies */
    uint32_t sends;                           /* a bit for each async of its loop with a pending send */
    uint64_t rests, sent;                     /* the times until which it is paused, and until which its replies take its bandwidth */
    uint64_t share;                           /* the processor time that it has used, for fairness, in nanoseconds */
    struct loop *loop;
    struct steps *steps; /* its loop's last steps: people.c */
    counted counted;
    char name[];
};

extern uv_loop_t *uv;
extern const char *folder;
extern uint32_t workers, running, waiting;
extern bool ending, draining; /* draining: it was told to end, and still serves */
extern LIST_HEAD(tenants, tenant) tenants;
extern atomic_bool hurry; /* a tenant that could run waits, and all threads are busy */

/* edge.c */
uint64_t number_of(const char *text, uint64_t most);

/* work.c */
void work(client *c, tenant *t, uint32_t op), fail(client *c, outcome what, int status, const char *why), too_late(client *c);
bool may_wait(client *c, uint32_t before), give_up(client *c);
task *task_of(tenant *t, const kind *kind);
void wait_for(task *k, bool front), unwait(task *k), end_task(task *k);
void run_job(task *k), keep_failure(task *k), schedule(void);
void explain(task *k, wasmloop_handle *of, const char *how, uint32_t trap, uint64_t used);

/* tenants.c */
tenant *tenant_of(const char *name, bool make);
void tenant_changed(const char *file), refuse(client *c), tenants_sweep(bool all), tenants_reload(void);
size_t read_module(const tenant *t, const uint8_t **bytes);
FILE *open_named(const char *name);
FILE *open_file(const tenant *t, const char *kind);

/* lines.c */
void add_line(const tenant *t, wasmloop_handle *of, char said[SAID]);

/* loops.c */
void ask(client *c, tenant *t, uint32_t op), send_to(client *c, tenant *t, uint32_t async);
void make_loop(tenant *t), free_loop(tenant *t);
uint32_t loop_did(const tenant *t); /* what its loop did last; 0 without a loop */

/* people.c */
extern time_t started; /* when the server began, in seconds since 1970 */
const char *outcome_name(outcome what);
void count(client *c, outcome what), page(client *c, const char *path);
void log_step(tenant *t, const wasmloop_did *did, const int64_t *emits, uint32_t n), make_steps(tenant *t), free_steps(tenant *t);

/* log.c */
extern bool log_json;        /* lines are objects of JSON */
extern size_t lines_lost;    /* how many lines standard output did not take */
extern uint64_t answers[6];  /* answers by the first digit of their status */
void log_begin(void), log_flush(void), log_answer(const client *c, int status, size_t length), log_left(const client *c);

#endif
