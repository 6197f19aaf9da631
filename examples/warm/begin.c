/* How long a request takes to begin: from wasmloop_job_new to the end of its first unit, and to the end of wasmloop_drop. Prints the median and
 * the fastest of COUNT requests (default: 1000), in microseconds.
 *
 * usage: begin MODULE [COUNT] */
#include <stdio.h>
#include <stdlib.h>
#include <time.h>
#include "wasmloop.h"

enum { MOST_BYTES = 1 << 20, MOST_COUNT = 100000 };

static double now(void)
{
    struct timespec it;
    clock_gettime(CLOCK_MONOTONIC, &it);
    return (double)it.tv_sec * 1e6 + (double)it.tv_nsec / 1e3;
}

static int by_size(const void *a, const void *b)
{
    double x = *(const double *)a, y = *(const double *)b;
    return (x > y) - (x < y);
}

static void tell(const char *what, double *took, size_t count)
{
    qsort(took, count, sizeof *took, by_size);
    printf("%s: %.1f us, the fastest %.1f\n", what, took[count / 2], took[0]);
}

/* One request: when it has begun and when it is dropped, from its beginning on. */
static int request(const wasmloop_handle *module, double *begun, double *dropped)
{
    const wasmloop_task task = { .fuel = 1000000, .op = 0, .depth = 128 };
    wasmloop_handle job = { 0 };
    uint32_t over;
    double start = now();
    if (wasmloop_job_new(module, &task, (const uint8_t *)"print(1)", 8, &job) != WASMLOOP_OK) return 0;
    int status = wasmloop_job_run_for(&job, 1, &over);
    *begun = now() - start;
    wasmloop_drop(&job);
    *dropped = now() - start;
    return status == WASMLOOP_OK && !over;
}

int main(int argc, char **argv)
{
    static uint8_t code[MOST_BYTES];
    static double begun[MOST_COUNT], dropped[MOST_COUNT];
    wasmloop_handle module = { 0 };
    wasmloop_fault fault;
    long count = argc > 2 ? strtol(argv[2], NULL, 10) : 1000;
    FILE *file = argc > 1 && count > 0 && count <= MOST_COUNT ? fopen(argv[1], "rb") : NULL;
    if (!file) {
        fprintf(stderr, "usage: begin MODULE [COUNT]\n");
        return 2;
    }
    size_t length = fread(code, 1, sizeof code, file);
    fclose(file);
    int is_right = wasmloop_load(code, length, &module, &fault) == WASMLOOP_OK;
    for (long k = 0; is_right && k < count; k++) is_right = request(&module, &begun[k], &dropped[k]);
    if (!is_right) {
        fprintf(stderr, "the module is rejected, or its work ends within one unit\n");
        return 1;
    }
    tell("begins", begun, (size_t)count);
    tell("begins and is dropped", dropped, (size_t)count);
    wasmloop_drop(&module);
    return 0;
}
