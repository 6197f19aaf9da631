/* Tenants and their files. A module that changes on disk is loaded beside the old one, which serves until then, and keeps serving if the new one
 * is rejected; a tenant whose file is removed is removed too. */
#include <errno.h>
#include <fcntl.h>
#include <search.h>
#include <stdlib.h>
#include <string.h>
#include <sys/stat.h>
#include <unistd.h>
#include "http.h"

#define MOST_FUEL 1000000000000000000u

struct tenants tenants;
static void *names; /* the tree of their names */

/* Opens a file of the folder. NULL, with errno: it can't be read, or is no regular file; to open a FIFO would wait for its writer. */
FILE *open_named(const char *name) {
    char path[512];
    struct stat is;
    snprintf(path, sizeof path, "%s/%s", folder, name);
    int fd = open(path, O_RDONLY | O_NONBLOCK | O_CLOEXEC);
    if (fd < 0) return NULL;
    errno = EINVAL;
    FILE *file = fstat(fd, &is) == 0 && S_ISREG(is.st_mode) ? fdopen(fd, "rb") : NULL;
    if (!file) close(fd);
    return file;
}

/* Opens NAME.KIND of the folder. */
FILE *open_file(const tenant *t, const char *kind) {
    char name[80];
    snprintf(name, sizeof name, "%s.%s", t->name, kind);
    return open_named(name);
}

/* ---- a module ---- */

/* In a pool thread: the bytes of its file, which stay until the thread reads another; NULL, with errno, if it can't be read. */
size_t read_module(const tenant *t, const uint8_t **bytes) {
    static _Thread_local uint8_t room[MOST_MODULE + 1];
    FILE *file = open_file(t, "wasm");
    *bytes = file ? room : NULL;
    if (!file) return 0;
    size_t length = fread(room, 1, sizeof room, file);
    fclose(file);
    return length;
}

/* In a pool thread. */
static void do_load(task *k) {
    wasmloop_fault fault;
    uint64_t n;
    const uint8_t *bytes;
    size_t length = read_module(k->of, &bytes);
    if (!bytes) {
        k->status = errno == ENOENT ? ABSENT : WASMLOOP_MEMORY;
        strcpy(k->said, errno == ENOENT ? "no such tenant" : "the file can't be read");
        return;
    }
    k->status = wasmloop_load(bytes, length, &k->handle, &fault);
    if (k->status == WASMLOOP_OK) return;
    if (k->status != WASMLOOP_REFUSED || wasmloop_explain(bytes, length, k->said, SAID - 1, &n) != WASMLOOP_OK)
        strcpy(k->said, wasmloop_status_name(k->status));
}

static void loaded(task *k) {
    tenant *t = k->of;
    bool anew = k->status == ABSENT || k->status == WASMLOOP_OK;
    wasmloop_shape shape = { 0 };
    t->load = NULL;
    t->status = k->status;
    t->changed |= k->status == WASMLOOP_MEMORY; /* what was wanting may come back: again at the next sweep */
    free(t->said);
    t->said = *k->said ? strdup(k->said) : NULL;
    if (anew) {
        wasmloop_drop(&t->module);
        t->module = k->handle;
        k->handle = (wasmloop_handle)WASMLOOP_HANDLE_INIT;
        wasmloop_shape_of(&t->module, &shape);
        t->lives = shape.main;
        t->counted.loads += k->status == WASMLOOP_OK;
    }
    end_task(k);
    if (anew || !t->module.mark) make_loop(t);
}

/* A number that is another one if its file was written or replaced; 0 if there is none. */
static uint64_t stamp_of(const tenant *t) {
    char path[512];
    struct stat is;
    snprintf(path, sizeof path, "%s/%s.wasm", folder, t->name);
    if (stat(path, &is) != 0) return 0;
    return (uint64_t)is.st_ino * 1000003u + (uint64_t)is.st_size * 10007u + (uint64_t)is.st_ctim.tv_sec * 1000000000u + (uint64_t)is.st_ctim.tv_nsec;
}

/* Loads its module, and again at the next sweep if the file changes meanwhile. */
static void load(tenant *t) {
    static const kind loads = { NULL, do_load, loaded };
    t->changed = true;
    if (t->load || ending || !(t->load = task_of(t, &loads))) return;
    t->changed = false;
    t->stamp = stamp_of(t);
    wait_for(t->load, true);
}

/* Answers a request for a tenant without a module. */
void refuse(client *c) {
    const tenant *t = c->task.of;
    fail(c, REFUSED, t->status == ABSENT ? 404 : t->status == WASMLOOP_MEMORY ? 503 : 500, t->said ? t->said : "no memory");
}

/* ---- its limits ---- */

static void read_limits(tenant *t) {
    static const struct {
        const char *key;
        uint64_t usual, least, most;
    } known[LIMITS] = { [FUEL] = { "fuel", 10000000, 1, MOST_FUEL },
        [CALLBACK] = { "callback", 1000000, 1, MOST_FUEL },
        [DEADLINE] = { "deadline", 1000, 1, 3600000 },
        [DEPTH] = { "depth", 64, 1, 128 },
        [QUEUE] = { "queue", 64, 1, MOST_WAITING },
        [RUN] = { "run", 1, 1, 128 },
        [REST] = { "rest", 1, 0, 1000 },
        [OUT] = { "out", 32768, 1, 1 << 30 } };
    char key[32], value[64];
    FILE *file = open_file(t, "conf");
    bool first = t->limits[FUEL] == 0, was = t->unread;
    t->unread = !file && errno != ENOENT; /* (its limits stay until it can be read) */
    if (t->unread && !was) fprintf(stderr, "edge: %s.conf: %s: the %s limits until it can be read\n", t->name, strerror(errno), first ? "usual" : "old");
    if (t->unread && !first) return;
    for (int i = 0; i < LIMITS; i++) t->limits[i] = known[i].usual;
    if (workers > 2) t->limits[RUN] = workers - 1;
    free(t->type);
    t->type = NULL;
    while (file && fscanf(file, "%31s %63s", key, value) == 2) {
        int i = 0;
        while (i < LIMITS && strcmp(key, known[i].key) != 0) i++;
        uint64_t n = i < LIMITS ? number_of(value, known[i].most) : UINT64_MAX;
        if (strcmp(key, "type") == 0)
            free(t->type), t->type = strdup(value);
        else if (n != UINT64_MAX && n >= known[i].least)
            t->limits[i] = n;
        else
            fprintf(stderr, "edge: %s.conf: %s %s is not a limit\n", t->name, key, value);
    }
    if (file) fclose(file);
}

/* ---- tenants come and go ---- */

static int by_name(const void *a, const void *b) { return strcmp(a, b); }

/* The tenant of a name, or NULL. With `make` it is created if its file exists. */
tenant *tenant_of(const char *name, bool make) {
    char **found = tfind(name, &names, by_name), path[512];
    if (found) return (tenant *)(*found - offsetof(tenant, name));
    size_t length = strspn(name, "abcdefghijklmnopqrstuvwxyz0123456789_-");
    if (!make || ending || length == 0 || length > 63 || name[length]) return NULL;
    snprintf(path, sizeof path, "%s/%s.wasm", folder, name);
    tenant *t = access(path, F_OK) == 0 ? calloc(1, sizeof *t + length + 1) : NULL;
    if (!t || !tsearch(strcpy(t->name, name), &names, by_name)) {
        free(t);
        return NULL;
    }
    TAILQ_INIT(&t->waits);
    TAILQ_INIT(&t->asks);
    LIST_INSERT_HEAD(&tenants, t, next);
    read_limits(t);
    load(t);
    return t;
}

/* A file of the folder was written or removed. */
void tenant_changed(const char *file) {
    char name[64], kind[8];
    tenant *t = sscanf(file, "%63[^.].%7s", name, kind) == 2 ? tenant_of(name, false) : NULL;
    if (t && strcmp(kind, "wasm") == 0) load(t);
    if (t && strcmp(kind, "conf") == 0) read_limits(t);
}

/* Reads all limits again, and the modules whose file is another one: some changes aren't seen, as those on another machine's disk. */
void tenants_reload(void) {
    for (tenant *t = LIST_FIRST(&tenants); t; t = LIST_NEXT(t, next)) {
        read_limits(t);
        t->changed |= stamp_of(t) != t->stamp;
    }
}

/* Does again what could not be done. Removes tenants without a file, or all, once no request needs them. */
void tenants_sweep(bool all) {
    for (tenant *t = LIST_FIRST(&tenants), *next; t; t = next) {
        next = LIST_NEXT(t, next);
        if (t->unread) read_limits(t);
        if (t->changed) load(t);
        if (t->lives && !t->loop && !t->load) make_loop(t); /* (there was no memory for it) */
        if ((t->status != ABSENT && !all) || t->waiting || t->running || t->clients || t->load) continue;
        LIST_REMOVE(t, next);
        tdelete(t->name, &names, by_name);
        free_loop(t);
        free_steps(t);
        wasmloop_drop(&t->module);
        free(t->type);
        free(t->said);
        free(t->failure);
        free(t);
    }
}
