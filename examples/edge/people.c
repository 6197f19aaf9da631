/* Metrics and pages:
 *
 *     GET /-/metrics       Prometheus' text format
 *     GET /-/health        200, or 503 while it shuts down
 *     GET /-/tenants       by tabs: name, state, 1 if it has a loop, why its file was rejected, its last failure
 *     GET /-/log/NAME      a loop's last steps
 *     GET /-/              FOLDER/dashboard.html */
#include <malloc.h>
#include <stdlib.h>
#include <string.h>
#include <sys/resource.h>
#include <unistd.h>
#include "http.h"

enum { LOG = 512, KEPT = 1024 };

typedef struct logged {
    wasmloop_did did;
    uint64_t first; /* of its emits in `kept` */
    uint32_t count;
} logged;

/* The last steps of a loop, which a pool thread writes and the main thread reads. */
typedef struct steps {
    uv_mutex_t mutex;
    uint64_t logged, emitted;
    logged log[LOG];
    int64_t kept[KEPT];
} steps;

time_t started;

static const char *const outcomes[] = { "gone", "done", "trap", "depth", "spent", "memory", "late", "refused" };

const char *outcome_name(outcome what) { return outcomes[what]; }

/* ---- counters ---- */

/* Counts a request that is answered, or whose client has disconnected. */
void count(client *c, outcome what) {
    counted *n = &c->task.of->counted;
    uint64_t us = (uv_hrtime() - c->came) / 1000;
    int power = 0;
    c->what = what;
    n->of[what]++;
    if (what == GONE) log_left(c);
    if (what == GONE || what == NO_MEMORY || what == REFUSED) return;
    while (us >> power) power++;
    n->lived += us, n->times[power < TIMES ? power : TIMES - 1]++;
    if (us > n->worst) n->worst = us;
}

void make_steps(tenant *t) {
    t->steps = calloc(1, sizeof *t->steps);
    if (t->steps) uv_mutex_init(&t->steps->mutex);
}

/* In a pool thread. */
void log_step(tenant *t, const wasmloop_did *did, const int64_t *emits, uint32_t n) {
    steps *s = t->steps;
    if (!s) return;
    uv_mutex_lock(&s->mutex);
    s->log[s->logged++ % LOG] = (logged){ *did, s->emitted, n };
    for (uint32_t i = 0; i < n; i++) s->kept[s->emitted++ % KEPT] = emits[i];
    uv_mutex_unlock(&s->mutex);
}

void free_steps(tenant *t) {
    if (t->steps) uv_mutex_destroy(&t->steps->mutex);
    free(t->steps);
}

/* ---- metrics ---- */

static const char *state_of(const tenant *t) {
    if (t->status == ABSENT) return "absent";
    if (!t->module.mark) return t->load ? "loading" : "refused";
    if (loop_did(t) >= WASMLOOP_OVER) return loop_did(t) == WASMLOOP_OVER ? "over" : "failed";
    return t->said ? "old" : "ready";
}

/* A quantile of the durations: within a bucket they count as spread evenly, and none exceeds the longest. */
static double quantile(const counted *t, double part) {
    double all = 0, seen = 0;
    for (int i = 0; i < TIMES; i++) all += (double)t->times[i];
    for (int i = 0; i < TIMES; i++) {
        double in = (double)t->times[i], low = i ? (double)(1ull << i) / 2 : 0, high = (double)(1ull << i);
        if (high > (double)t->worst || i == TIMES - 1) high = (double)t->worst;
        if (in > 0 && seen + in >= part * all) return (low + (high - low) * (part * all - seen) / in) / 1e6;
        seen += in;
    }
    return 0;
}

static void write_type(FILE *to, const char *name, const char *type, const char *help) {
    fprintf(to, "# HELP edge_%s %s\n# TYPE edge_%s %s\n", name, help, name, type);
}

static void write_server(FILE *to) {
    size_t loaded = 0;
    const struct mallinfo2 memory = mallinfo2();
    for (tenant *t = LIST_FIRST(&tenants); t; t = LIST_NEXT(t, next)) loaded++;
    const struct {
        const char *name, *type, *help;
        size_t value;
    } numbers[] = { { "tenants", "gauge", "Tenants that are loaded.", loaded }, { "clients", "gauge", "Connections that are open.", clients },
        { "threads_busy", "gauge", "Threads of the pool that have a task.", running },
        { "tasks_waiting", "gauge", "Tasks that wait for a thread.", waiting }, { "held_bytes", "gauge", "Bytes of bodies that are read.", held },
        { "allocated_bytes", "gauge", "Bytes that malloc has given out.", memory.uordblks + memory.hblkhd },
        { "log_lines_lost_total", "counter", "Lines of the access log that standard output didn't take.", lines_lost } };
    for (size_t k = 0; k < sizeof numbers / sizeof *numbers; k++) {
        write_type(to, numbers[k].name, numbers[k].type, numbers[k].help);
        fprintf(to, "edge_%s %zu\n", numbers[k].name, numbers[k].value);
    }
}

static void write_process_number(FILE *to, const char *name, const char *type, const char *help, double value) {
    fprintf(to, "# HELP process_%s %s\n# TYPE process_%s %s\nprocess_%s %.3f\n", name, help, name, type, name, value);
}

static double seconds(struct timeval used) { return (double)used.tv_sec + (double)used.tv_usec / 1e6; }

/* What Prometheus' client libraries export of each process, and the build. */
static void write_process(FILE *to) {
    struct rusage used;
    size_t resident = 0;
    uv_resident_set_memory(&resident);
    getrusage(RUSAGE_SELF, &used);
    write_type(to, "build_info", "gauge", "1, with the library's version.");
    fprintf(to, "edge_build_info{version=\"%s\"} 1\n", wasmloop_version());
    write_type(to, "responses_total", "counter", "Responses by the class of their status.");
    for (int k = 1; k < 6; k++) fprintf(to, "edge_responses_total{class=\"%dxx\"} %llu\n", k, U(answers[k]));
    write_process_number(to, "start_time_seconds", "gauge", "When the process began, in seconds since 1970.", (double)started);
    write_process_number(to, "resident_memory_bytes", "gauge", "Resident memory.", (double)resident);
    write_process_number(to, "cpu_seconds_total", "counter", "Processor time, user and system.", seconds(used.ru_utime) + seconds(used.ru_stime));
}

/* The durations as a histogram, which, unlike quantiles, can be added up over servers and cut by time: each other power of two, 64 us to 16.8 s. */
static void write_durations(FILE *to) {
    write_type(to, "duration_seconds", "histogram", "From a request's first byte to its answer.");
    for (tenant *t = LIST_FIRST(&tenants); t; t = LIST_NEXT(t, next)) {
        static const char form[] = "edge_duration_seconds_%s{tenant=\"%s\"%s} %.6f\n";
        char bound[32];
        uint64_t seen = 0;
        for (int k = 0; k < TIMES; k++) {
            seen += t->counted.times[k];
            if (k < 6 || k > 24 || k % 2) continue;
            snprintf(bound, sizeof bound, ",le=\"%.6f\"", (double)(1u << k) / 1e6);
            fprintf(to, form, "bucket", t->name, bound, (double)seen);
        }
        fprintf(to, form, "bucket", t->name, ",le=\"+Inf\"", (double)seen);
        fprintf(to, form, "sum", t->name, "", (double)t->counted.lived / 1e6);
        fprintf(to, form, "count", t->name, "", (double)seen);
    }
}

static void write_numbers(FILE *to) {
    static const struct {
        const char *name, *type, *help;
        size_t at;
        double unit;
    } numbers[] = { { "fuel_units_total", "counter", "Units of fuel used.", offsetof(tenant, counted.used), 1 },
        { "cpu_seconds_total", "counter", "Processor time in the pool's threads.", offsetof(tenant, counted.cpu), 1e-9 },
        { "received_bytes_total", "counter", "Bytes of bodies.", offsetof(tenant, counted.in), 1 },
        { "sent_bytes_total", "counter", "Bytes of replies.", offsetof(tenant, counted.out), 1 },
        { "loads_total", "counter", "How often a module was loaded.", offsetof(tenant, counted.loads), 1 },
        { "loop_turns_total", "counter", "Turns of the loop.", offsetof(tenant, counted.turns), 1 },
        { "loop_restarts_total", "counter", "How often a loop that failed was made anew.", offsetof(tenant, counted.restarts), 1 },
        { "latency_worst_seconds", "gauge", "The longest time of a request.", offsetof(tenant, counted.worst), 1e-6 } };
    for (size_t k = 0; k < sizeof numbers / sizeof *numbers; k++) {
        write_type(to, numbers[k].name, numbers[k].type, numbers[k].help);
        for (tenant *t = LIST_FIRST(&tenants); t; t = LIST_NEXT(t, next)) {
            uint64_t value = *(uint64_t *)((char *)t + numbers[k].at);
            fprintf(to, "edge_%s{tenant=\"%s\"} %.15g\n", numbers[k].name, t->name, (double)value * numbers[k].unit);
        }
    }
}

static void write_requests(FILE *to) {
    write_type(to, "requests_total", "counter", "Requests by what became of them.");
    for (tenant *t = LIST_FIRST(&tenants); t; t = LIST_NEXT(t, next))
        for (int k = 0; k < OUTCOMES; k++)
            fprintf(to, "edge_requests_total{tenant=\"%s\",outcome=\"%s\"} %llu\n", t->name, outcomes[k], U(t->counted.of[k]));
    write_type(to, "latency_seconds", "summary", "From a request's first byte to its answer.");
    for (tenant *t = LIST_FIRST(&tenants); t; t = LIST_NEXT(t, next)) {
        uint64_t answered = 0;
        for (int k = 0; k < TIMES; k++) answered += t->counted.times[k];
        fprintf(to, "edge_latency_seconds{tenant=\"%s\",quantile=\"0.5\"} %.6f\n", t->name, quantile(&t->counted, 0.5));
        fprintf(to, "edge_latency_seconds{tenant=\"%s\",quantile=\"0.99\"} %.6f\n", t->name, quantile(&t->counted, 0.99));
        fprintf(to, "edge_latency_seconds_sum{tenant=\"%s\"} %.6f\nedge_latency_seconds_count{tenant=\"%s\"} %llu\n", t->name,
            (double)t->counted.lived / 1e6, t->name, U(answered));
    }
    write_type(to, "tenant_tasks", "gauge", "Tasks of a tenant that wait or run.");
    for (tenant *t = LIST_FIRST(&tenants); t; t = LIST_NEXT(t, next))
        fprintf(to, "edge_tenant_tasks{tenant=\"%s\",are=\"waiting\"} %u\nedge_tenant_tasks{tenant=\"%s\",are=\"running\"} %u\n", t->name,
            t->waiting, t->name, t->running);
    write_type(to, "tenant_state", "gauge", "1 for the state that a tenant is in.");
    for (tenant *t = LIST_FIRST(&tenants); t; t = LIST_NEXT(t, next))
        fprintf(to, "edge_tenant_state{tenant=\"%s\",state=\"%s\"} 1\n", t->name, state_of(t));
}

static void write_plain(FILE *to, const char *said) {
    for (fputc('\t', to); said && *said; said++) fputc(*said >= ' ' && *said <= '~' ? *said : ' ', to);
}

static void write_tenants(FILE *to) {
    for (tenant *t = LIST_FIRST(&tenants); t; t = LIST_NEXT(t, next)) {
        fprintf(to, "%s\t%s\t%u", t->name, state_of(t), t->lives);
        write_plain(to, t->said), write_plain(to, t->failure);
        fputc('\n', to);
    }
}

static void write_step(FILE *to, const steps *s, const logged *l) {
    static const char *const phases[] = { "begin", "timers", "idle", "poll", "check", "closing" };
    static const char *const kinds[] = { "start", "main", "timer", "idle", "after", "async", "check", "close" };
    const wasmloop_did *d = &l->did;
    fprintf(to, "loop 0 ");
    if (d->what == WASMLOOP_ENTERED) {
        fprintf(to, "enter %s %llu", phases[d->phase], U(d->now));
    } else if (d->what == WASMLOOP_SKIPPED) {
        fprintf(to, "skip %s %u", kinds[d->kind], d->number);
    } else if (d->what == WASMLOOP_RAN) {
        fprintf(to, "run %s %u %s", kinds[d->kind], d->number, wasmloop_ending_name(d->ending));
        if (d->ending == WASMLOOP_TRAP) fprintf(to, " %u", d->trap);
        fprintf(to, " used %llu%s", U(d->used), l->count ? " emit" : "");
        for (uint64_t n = 0; n < l->count && s->emitted - l->first <= KEPT; n++)
            fprintf(to, " %lld", (long long)s->kept[(l->first + n) % KEPT]);
    } else {
        fprintf(to, "%s", d->what == WASMLOOP_OVER ? "over" : "failed");
    }
    fputc('\n', to);
}

/* The last steps of a loop, as `wasmloop script` prints them, for examples/picture.py. */
static void write_log_of(FILE *to, const tenant *t) {
    steps *s = t->steps;
    if (!s) return;
    uv_mutex_lock(&s->mutex);
    for (uint64_t i = s->logged > LOG ? s->logged - LOG : 0; i < s->logged; i++) write_step(to, s, &s->log[i % LOG]);
    uv_mutex_unlock(&s->mutex);
}

static bool write_file(FILE *to, const char *name) {
    char part[4096];
    FILE *file = open_named(name);
    if (!file) return false;
    for (size_t n; (n = fread(part, 1, sizeof part, file)) > 0;) fwrite(part, 1, n, to);
    fclose(file);
    return true;
}

/* Answers GET /-/PATH. */
void page(client *c, const char *path) {
    if (strcmp(path, "health") == 0) { /* load balancers ask it: 503 from the first SIGTERM on */
        say(c, draining ? 503 : 200, draining ? "draining\n" : "ok\n");
        return;
    }
    char *at = NULL;
    size_t length = 0;
    FILE *to = open_memstream(&at, &length);
    tenant *t = strncmp(path, "log/", 4) == 0 ? tenant_of(path + 4, false) : NULL;
    bool people = !*path, numbers = strcmp(path, "metrics") == 0, there = true;
    if (!to) {
        say(c, 503, "no memory\n");
        return;
    }
    if (numbers)
        write_server(to), write_process(to), write_numbers(to), write_requests(to), write_durations(to);
    else if (strcmp(path, "tenants") == 0)
        write_tenants(to);
    else if (t)
        write_log_of(to, t);
    else
        there = people && write_file(to, "dashboard.html");
    bool good = fclose(to) == 0;
    if (good && there) {
        c->text = at;
        answer(c, 200, numbers ? "text/plain; version=0.0.4" : people ? "text/html; charset=utf-8" : "text/plain", at, length);
        return;
    }
    free(at);
    say(c, good ? 404 : 503, good ? "no such page\n" : "no memory\n");
}
