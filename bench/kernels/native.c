/* Runs a kernel natively, so many times, and prints what it gives and the nanoseconds of the shortest run. */
#include <stdint.h>
#include <stdio.h>
#include <stdlib.h>
#include <time.h>

uint32_t run(void);

static int64_t now(void)
{
    struct timespec t;
    clock_gettime(CLOCK_MONOTONIC, &t);
    return t.tv_sec * 1000000000LL + t.tv_nsec;
}

int main(int argc, char **argv)
{
    int64_t least = INT64_MAX;
    uint32_t result = 0;
    for (int times = argc > 1 ? atoi(argv[1]) : 1; times > 0; times--) {
        int64_t start = now();
        result = run();
        int64_t took = now() - start;
        least = took < least ? took : least;
    }
    printf("%u %lld\n", result, (long long)least);
    return 0;
}
