/* An HTTP server that runs a module for each tenant, within limits, on libuv and an HTTP parser. README.md is its manual; edge.h says where to
 * start reading. This part starts it, shuts it down, and finds out what a request is for. */
#include <ctype.h>
#include <malloc.h>
#include <signal.h>
#include <stdlib.h>
#include <string.h>
#include <sys/resource.h>
#include <unistd.h>
#include "http.h"

enum { SWEEP_MS = 100, MOST_WORKERS = 128, FILES = 32 }; /* FILES: how many are kept for modules and limits, beside one for each thread */

uv_loop_t *uv;
const char *folder;
uint32_t workers = 4;
bool ending, draining;
static uint64_t grace;
static uv_timer_t drain;

static uv_timer_t sweeper;

static uint64_t number_in(int base, const char *text, uint64_t most) {
    char *end;
    uint64_t n = strtoull(text, &end, base);
    return isdigit((unsigned char)*text) && !*end && n <= most ? n : UINT64_MAX;
}

/* The number up to `most` that a text spells, or UINT64_MAX. */
uint64_t number_of(const char *text, uint64_t most) { return number_in(10, text, most); }

/* The headers of a request are complete: finds out its tenant and what it is for. Returns whether its body is needed: if not, it is answered. */
bool wants_all(client *c) {
    char path[sizeof c->path];
    strcpy(path, c->path);
    path[strcspn(path, "?")] = 0;
    char *from = path + (strncasecmp(path, "http://", 7) == 0 ? 7 + strcspn(path + 7, "/") : 0); /* it may be an absolute URL */
    char *name = from + (*from == '/'), *rest = name + strcspn(name, "/");
    if (*rest) *rest++ = 0;
    bool looks = strcmp(name, "-") == 0, gets = c->parser.method == HTTP_GET || c->parser.method == HTTP_HEAD;
    if (looks ? !gets : c->parser.method != HTTP_POST) {
        c->allow = looks ? "Allow: GET, HEAD\r\n" : "Allow: POST\r\n";
        say(c, 405, "method not allowed\n");
        return false;
    }
    if (looks) {
        page(c, rest);
        return false;
    }
    bool sends = strncmp(rest, "send/", 5) == 0, asks = strcmp(rest, "ask") == 0 || strncmp(rest, "ask/", 4) == 0;
    if (sends || asks) rest += asks && !rest[3] ? 3 : 4 + sends;
    uint64_t number = *rest ? number_of(rest, sends ? ASYNCS - 1 : UINT32_MAX) : 0;
    tenant *t = tenant_of(name, true);
    if (ending) {
        say(c, 503, "the server is shutting down\n");
    } else if (!t) {
        say(c, 404, "no such tenant\n");
    } else if (number == UINT64_MAX) {
        say(c, 400, sends ? "an async is a number from 0 to 15\n" : "an operation is a number below 2^32\n");
    } else {
        t->clients++;
        c->task.of = t;
        c->task.about.op = (uint32_t)number;
        c->does = sends ? send_to : asks ? ask : work;
        return true;
    }
    return false;
}

/* A request is complete. */
void request(client *c) {
    tenant *t = c->task.of;
    if (ending) {
        say(c, 503, "the server is shutting down\n");
        return;
    }
    t->counted.in += c->body.length;
    c->task.until = c->came + t->limits[DEADLINE] * MS;
    c->does(c, t, c->task.about.op);
}

/* During shutdown, running requests are finished, waiting ones are answered with 503, and the loop ends when nothing is left. */
static void on_sweep(uv_timer_t *timer) {
    clients_sweep();
    schedule();
    tenants_sweep(ending && clients == 0);
    log_flush();
    if (ending && clients == 0 && LIST_EMPTY(&tenants)) uv_timer_stop(timer);
}

static void end(uv_timer_t *timer) {
    (void)timer;
    if (!ending) serve_no_more();
    ending = true;
    on_sweep(&sweeper);
}

/* The first signal: /-/health is 503 for `-g` seconds, while load balancers notice; a second one, or then: it ends. */
static void on_signal(uv_signal_t *signal, int number) {
    (void)signal, (void)number;
    if (!draining) notify("STOPPING=1");
    if (draining || grace == 0) end(NULL);
    else uv_timer_start(&drain, end, grace * 1000, 0);
    draining = true;
}

/* Between the two notifications systemd takes it for reloading: `systemctl reload` waits for the second. */
static void on_reload(uv_signal_t *signal, int number) {
    char told[64];
    (void)signal, (void)number;
    snprintf(told, sizeof told, "RELOADING=1\nMONOTONIC_USEC=%llu", U(uv_hrtime() / 1000));
    if (!draining) notify(told);
    tenants_reload();
    if (!draining) notify("READY=1");
}

static void on_change(uv_fs_event_t *event, const char *file, int events, int status) {
    (void)event, (void)events;
    if (status == 0 && file) tenant_changed(file);
}

/* What an option's word is: a number, or 1 if it is good, or UINT64_MAX. */
static uint64_t value_of(int option, const char *word) {
    switch (option) {
    case 'j':
    case 'r': return 1;
    case 'a': return add_address(word) ? 1 : UINT64_MAX;
    case 'x': return add_proxy(word) ? 1 : UINT64_MAX;
    case 'm': return number_in(8, word, 0777);
    case '?': return UINT64_MAX;
    }
    return number_of(word, 1000000);
}

/* Parses the options. Returns the port, or 0. */
static int options(int argc, char **argv) {
    int port = 8080;
    for (int o; (o = getopt(argc, argv, "a:p:w:t:c:x:r:g:m:j")) != -1;) {
        uint64_t n = value_of(o, optarg);
        if (n == UINT64_MAX || n == 0) return 0;
        if (o == 'p') port = (int)n;
        if (o == 'w') workers = n < MOST_WORKERS ? (uint32_t)n : MOST_WORKERS;
        if (o == 'g') grace = n;
        if (o == 't') patience = n * 1000;
        if (o == 'c') most_clients = (uint32_t)n;
        if (o == 'm') socket_mode = (mode_t)n;
        if (o == 'j') log_json = true;
        if (o == 'r') setenv("WASMLOOP_RECORD", optarg, 1), setenv("WASMLOOP_RECORD_KEEP", "failed", 0);
    }
    folder = argv[optind];
    return optind == argc - 1 && port < 65536 ? port : 0;
}

/* ---- what must be there at the start ---- */

/* Allows as many open files as the system does: what is kept for modules and limits no client takes. Returns whether there are enough. */
static bool has_files(void) {
    struct rlimit files;
    uint64_t kept = FILES + workers;
    if (getrlimit(RLIMIT_NOFILE, &files) != 0) return true;
    files.rlim_cur = files.rlim_max;
    setrlimit(RLIMIT_NOFILE, &files);
    if (files.rlim_cur <= kept) {
        fprintf(stderr, "edge: %llu files may be open: more than %llu are needed (ulimit -n)\n", U(files.rlim_cur), U(kept));
        return false;
    }
    uint64_t open = files.rlim_cur - kept, most = open - open / SHARES;
    if (open < most_open) most_open = (uint32_t)open;
    if (most < most_clients) most_clients = (uint32_t)most;
    return true;
}

static void stand(void *gate) { uv_sem_wait(gate); }

static void do_nothing(uv_work_t *work) { (void)work; }

static void did_nothing(uv_work_t *work, int status) { (void)work, (void)status; }

/* Makes the threads of libuv's pool, which aborts where it can't: as many are made, and ended, before. Returns libuv's error. */
static int make_threads(void) {
    static uv_work_t first;
    uv_thread_t made[MOST_WORKERS];
    uv_sem_t gate;
    uint32_t n = 0;
    int told = uv_sem_init(&gate, 0);
    while (told == 0 && n < workers && (told = uv_thread_create(&made[n], stand, &gate)) == 0) n++;
    for (uint32_t i = 0; i < n; i++) uv_sem_post(&gate);
    for (uint32_t i = 0; i < n; i++) uv_thread_join(&made[i]);
    return told ? told : uv_queue_work(uv, &first, do_nothing, did_nothing);
}

/* Sets the number of pool threads, and keeps freed memory: the next instance has no page faults. */
static void provide(void) {
    char size[16];
    snprintf(size, sizeof size, "%u", workers);
    setenv("UV_THREADPOOL_SIZE", size, 1);
    mallopt(M_MMAP_THRESHOLD, 32 << 20);
    mallopt(M_TRIM_THRESHOLD, 256 << 20);
    signal(SIGPIPE, SIG_IGN);
    signal(SIGXFSZ, SIG_IGN); /* a log as long as a file may be is one on a full disk */
    started = time(NULL);
    grammar_begin();
    log_begin();
}

static void watch_signals(void) {
    static const struct {
        int number;
        uv_signal_cb does;
    } known[] = { { SIGINT, on_signal }, { SIGTERM, on_signal }, { SIGHUP, on_reload } };
    static uv_signal_t signals[sizeof known / sizeof *known];
    for (size_t i = 0; i < sizeof known / sizeof *known; i++) {
        uv_signal_init(uv, &signals[i]);
        uv_signal_start(&signals[i], known[i].does, known[i].number);
        uv_unref((uv_handle_t *)&signals[i]);
    }
}

/* Watches the folder. Returns libuv's error if there is none; without a watch SIGHUP remains. */
static int watch_folder(void) {
    static uv_fs_event_t changes;
    uv_fs_event_init(uv, &changes);
    uv_unref((uv_handle_t *)&changes);
    int told = uv_fs_event_start(&changes, on_change, folder, 0);
    if (told == UV_ENOENT || told == UV_ENOTDIR || told == UV_EACCES) return told;
    if (told != 0) fprintf(stderr, "edge: changes in %s are not seen without SIGHUP: %s\n", folder, uv_strerror(told));
    return 0;
}

/* Says what is wanting. Returns the status. */
static int wants(int told, const char *what) {
    fprintf(stderr, "edge: %s: %s\n", what, uv_strerror(told));
    return 1;
}

int main(int argc, char **argv) {
    static uv_loop_t own;
    int port = options(argc, argv), told;
    if (port == 0) {
        fprintf(stderr, "usage: edge [-a ADDRESS].. [-p PORT] [-m MODE] [-w WORKERS] [-t SECONDS] [-c CLIENTS] [-x PROXY].. [-r RECORDS] [-g SECONDS] [-j]"
                        " FOLDER\n");
        return 2;
    }
    if (!has_files()) return 1;
    provide();
    uv = &own;
    if ((told = uv_loop_init(uv)) != 0) return wants(told, "an event loop");
    if ((told = make_threads()) != 0) return wants(told, "the threads of its pool (-w)");
    if ((told = watch_folder()) != 0) return wants(told, folder);
    if (!serve(port)) {
        serve_no_more();
        return 1;
    }
    watch_signals();
    uv_timer_init(uv, &drain);
    uv_unref((uv_handle_t *)&drain);
    uv_timer_init(uv, &sweeper);
    uv_timer_start(&sweeper, on_sweep, SWEEP_MS, SWEEP_MS);
    notify("READY=1");
    return uv_run(uv, UV_RUN_DEFAULT);
}
