/* LOOPS loops of libuv in one thread, each with an idle, a turn of each in turn, for ROUNDS rounds of some 1,000 turns at least.
   usage: many_uv LOOPS ROUNDS
   Prints, of one loop: microseconds to make it, nanoseconds of a turn in the shortest round. */
#include <stdio.h>
#include <stdlib.h>
#include <time.h>
#include <uv.h>

static double now(void) {
    struct timespec at;
    clock_gettime(CLOCK_MONOTONIC, &at);
    return (double)at.tv_sec + (double)at.tv_nsec / 1e9;
}

static unsigned long ran;

static void on_idle(uv_idle_t *idle) { (void)idle, ran++; }

int main(int argc, char **argv) {
    if (argc != 3) return 2;
    int count = atoi(argv[1]), rounds = atoi(argv[2]), turns = count < 1000 ? 1000 / count : 1;
    uv_loop_t *loops = calloc((size_t)count, sizeof *loops);
    uv_idle_t *idles = calloc((size_t)count, sizeof *idles);
    if (!loops || !idles) return 2;
    double began = now();
    for (int i = 0; i < count; i++)
        if (uv_loop_init(&loops[i]) || uv_idle_init(&loops[i], &idles[i]) || uv_idle_start(&idles[i], on_idle)) return 1;
    double made = now() - began;
    double least = 1e9;
    for (int r = 0; r < rounds; r++) {
        began = now();
        for (int k = 0; k < turns; k++)
            for (int i = 0; i < count; i++) uv_run(&loops[i], UV_RUN_NOWAIT);
        double took = now() - began;
        if (took < least) least = took;
    }
    printf("%f %f\n", made / count * 1e6, least / turns / count * 1e9);
    return ran != (unsigned long)count * (unsigned long)turns * (unsigned long)rounds;
}
