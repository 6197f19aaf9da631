/* Eight threads on one handle of one module at once: each makes and runs jobs, loops, instances and second handles of it, and is answered
 * the same each time. Run it under ThreadSanitizer and under Helgrind (which alone sees the library's own reads and writes). With
 * -DWITH_DROP one thread drops the module meanwhile, which is a race and must be reported.
 *
 * usage: share_test FILE ROUNDS      FILE: a module with uv_work that returns for operation 0 on the bytes "abc" */
#include <pthread.h>
#include <stdio.h>
#include <stdlib.h>
#include <string.h>
#include "wasmloop.h"

enum { THREADS = 8 };

static wasmloop_handle shared = WASMLOOP_HANDLE_INIT;
static long rounds;

static void must(int holds, const char *what) {
    if (holds) return;
    printf("share_test: %s\n", what);
    exit(1);
}

/* (ThreadSanitizer doesn't see what the library reads) */
static const wasmloop_handle *seen(void) {
    const volatile uint64_t *mark = &shared.mark;
    must(*mark != 0, "the module is gone");
    return &shared;
}

static uint32_t work(void) {
    wasmloop_task task = { 1000000, 0, 64 };
    wasmloop_handle job = WASMLOOP_HANDLE_INIT;
    wasmloop_about about;
    must(wasmloop_work(seen(), &task, (const uint8_t *)"abc", 3, &job) == WASMLOOP_OK, "work");
    must(wasmloop_job_about(&job, &about) == WASMLOOP_OK && about.outcome == WASMLOOP_WORK_DONE, "job_about");
    must(wasmloop_drop(&job) == WASMLOOP_OK, "drop");
    return about.value;
}

static uint64_t loop(void) {
    wasmloop_limits limits = { 1000000, 1000000, 0, 64 };
    wasmloop_handle made = WASMLOOP_HANDLE_INIT;
    wasmloop_did did;
    uint64_t used = 0;
    must(wasmloop_loop(seen(), &limits, &made) == WASMLOOP_OK, "loop");
    for (int i = 0; i < 20; i++) {
        must(wasmloop_step(&made, &did) == WASMLOOP_OK, "step");
        used += did.used;
    }
    must(wasmloop_drop(&made) == WASMLOOP_OK, "drop");
    return used;
}

static void others(void) {
    wasmloop_call_limits limits = { 1000000, 64, 0 };
    wasmloop_handle instance = WASMLOOP_HANDLE_INIT, other = WASMLOOP_HANDLE_INIT;
    wasmloop_ended ended;
    wasmloop_shape shape;
    wasmloop_type type;
    must(wasmloop_instance(seen(), &limits, &instance, &ended) == WASMLOOP_OK, "instance");
    must(wasmloop_drop(&instance) == WASMLOOP_OK, "drop");
    must(wasmloop_share(seen(), &other) == WASMLOOP_OK, "share");
    must(wasmloop_drop(&other) == WASMLOOP_OK, "drop");
    must(wasmloop_shape_of(seen(), &shape) == WASMLOOP_OK && shape.work, "shape_of");
    must(wasmloop_function(seen(), "uv_work", &type) == WASMLOOP_OK && type.params == 1, "function");
}

static void *uses(void *drops) {
    uint32_t value = work();
    uint64_t used = loop();
    for (long i = 1; i < rounds; i++) {
        must(work() == value, "another value");
        must(loop() == used, "another amount of fuel");
        others();
#ifdef WITH_DROP
        if (drops && i == rounds / 2) {
            volatile uint64_t *mark = &shared.mark;
            *mark = *mark;
            wasmloop_drop(&shared);
            return NULL; /* (if it went on, it would end the process, perhaps before another thread has read) */
        }
#endif
    }
    (void)drops;
    return NULL;
}

int main(int argc, char **argv) {
    static uint8_t bytes[1 << 20];
    pthread_t threads[THREADS];
    wasmloop_fault fault;
    FILE *file = argc > 2 ? fopen(argv[1], "rb") : NULL;
    if (!file) return 2;
    size_t length = fread(bytes, 1, sizeof bytes, file);
    fclose(file);
    rounds = atol(argv[2]);
    must(wasmloop_load(bytes, length, &shared, &fault) == WASMLOOP_OK, "load");
    for (int i = 0; i < THREADS; i++) must(pthread_create(&threads[i], NULL, uses, i ? NULL : &shared) == 0, "thread");
    for (int i = 0; i < THREADS; i++) must(pthread_join(threads[i], NULL) == 0, "join");
    must(wasmloop_drop(&shared) == WASMLOOP_OK, "drop");
    printf("%d threads on one module, %ld times\n", THREADS, rounds);
    return 0;
}
