/* What the programs over each engine share. */
#ifndef PEER_H
#define PEER_H
#include <inttypes.h>
#include <stdio.h>
#include <stdlib.h>
#include <string.h>
#include <time.h>

#define MOST (1 << 20)
#define DEADLINE UINT64_C(5000000)

/* By how many nanoseconds deadlines were missed. */
typedef struct lateness {
    uint64_t sum, worst;
} lateness;

static uint64_t now(void)
{
    struct timespec time;
    clock_gettime(CLOCK_MONOTONIC, &time);
    return (uint64_t)time.tv_sec * 1000000000 + (uint64_t)time.tv_nsec;
}

static size_t read_file(const char *name, uint8_t *bytes)
{
    FILE *file = fopen(name, "rb");
    if (!file) {
        perror(name);
        exit(2);
    }
    size_t length = fread(bytes, 1, MOST, file);
    fclose(file);
    return length;
}

static void least(uint64_t *fastest, uint64_t began)
{
    uint64_t took = now() - began;
    if (took < *fastest)
        *fastest = took;
}

static void stopped(lateness *all, uint64_t deadline)
{
    uint64_t late = now() - deadline;
    all->sum += late;
    if (late > all->worst)
        all->worst = late;
}

static void show_lateness(const lateness *all, int calls)
{
    printf("%" PRIu64 " %" PRIu64 "\n", all->sum / (uint64_t)calls, all->worst);
}

static uint64_t sum(const uint8_t *bytes, uint64_t length)
{
    uint64_t sum = UINT64_C(0xcbf29ce484222325);
    for (uint64_t k = 0; k < length; k++)
        sum = (sum ^ bytes[k]) * UINT64_C(0x100000001b3);
    return sum;
}

static long resident(void)
{
    long all, pages = 0;
    FILE *file = fopen("/proc/self/statm", "r");
    if (!file || fscanf(file, "%ld %ld", &all, &pages) != 2)
        exit(2);
    fclose(file);
    return pages * 4096;
}

#endif
