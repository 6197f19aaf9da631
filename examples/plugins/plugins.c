/* A plug-in host: each plug-in is a module, an operation and a file of input. A plug-in that fails is reported with its backtrace, and the
 * next one runs unaffected.
 *
 * usage: plugins [FUEL] PLUGIN.wasm OPERATION INPUT  [PLUGIN.wasm OPERATION INPUT]..
 */
#include <stdio.h>
#include <stdlib.h>
#include <string.h>
#include "wasmloop.h"

typedef struct text {
    uint8_t *at;
    size_t length;
} text;

static text read_file(const char *name, size_t most)
{
    text it = { malloc(most + 1), 0 };
    FILE *file = fopen(name, "rb");
    if (!file || !it.at) {
        perror(name);
        exit(1);
    }
    it.length = fread(it.at, 1, most + 1, file);
    fclose(file);
    if (it.length > most) {
        fprintf(stderr, "%s: more than %zu bytes\n", name, most);
        exit(1);
    }
    return it;
}

static int shown(uint64_t count, size_t room)
{
    return (int)(count < room ? count : room);
}

static void print_rejection(text bytes)
{
    char sentence[600];
    uint64_t count = 0;
    if (wasmloop_explain(bytes.at, bytes.length, sentence, sizeof sentence, &count) == WASMLOOP_OK)
        printf("  rejected: %.*s\n", shown(count, sizeof sentence), sentence);
}

static void print_failure(text bytes, wasmloop_handle *job, const wasmloop_about *about)
{
    char where[600];
    uint64_t count = 0;
    const char *trap = about->outcome == WASMLOOP_WORK_TRAP ? wasmloop_trap_name(about->value) : NULL;
    printf("  failed: %s%s%s, after %llu units\n", wasmloop_outcome_name(about->outcome), trap ? ": " : "",
           trap ? trap : "", (unsigned long long)about->used);
    if (wasmloop_stop_told(bytes.at, bytes.length, job, where, sizeof where, &count) == WASMLOOP_OK)
        printf("  %.*s\n", shown(count, sizeof where), where);
}

static void print_reply(wasmloop_handle *job, const wasmloop_about *about)
{
    uint8_t *reply = malloc(about->reply + 1);
    uint64_t count = 0;
    if (reply && wasmloop_job_reply(job, reply, about->reply, &count) == WASMLOOP_OK)
        printf("  returned %d, after %llu units, with %llu bytes%s%.*s\n", (int32_t)about->value, (unsigned long long)about->used,
               (unsigned long long)count, count ? ": " : "", shown(count, 60), (char *)reply);
    free(reply);
}

/* returns 0, or the status of the call that failed */
static int run(const char *name, uint32_t op, const char *input, uint64_t fuel)
{
    wasmloop_handle module = WASMLOOP_HANDLE_INIT, job = WASMLOOP_HANDLE_INIT;
    wasmloop_task task = { .fuel = fuel, .op = op, .depth = 64 };
    wasmloop_fault fault;
    wasmloop_about about;
    text bytes = read_file(name, 1 << 20), given = read_file(input, 1 << 20);
    printf("%s, operation %u, %zu bytes\n", name, op, given.length);
    int status = wasmloop_load(bytes.at, bytes.length, &module, &fault);
    if (status == WASMLOOP_REFUSED)
        print_rejection(bytes);
    if (status == WASMLOOP_OK)
        status = wasmloop_work(&module, &task, given.at, given.length, &job);
    if (status == WASMLOOP_OK)
        status = wasmloop_job_about(&job, &about);
    if (status != WASMLOOP_OK)
        printf("  not run: %s\n", wasmloop_status_name(status));
    else if (about.outcome == WASMLOOP_WORK_DONE)
        print_reply(&job, &about);
    else
        print_failure(bytes, &job, &about);
    wasmloop_drop(&job);
    wasmloop_drop(&module);
    free(bytes.at);
    free(given.at);
    return status;
}

int main(int argc, char **argv)
{
    uint64_t fuel = 1000000;
    int at = 1, failed = 0;
    if (argc % 3 == 2)
        fuel = strtoull(argv[at++], NULL, 10);
    for (; at + 2 < argc; at += 3)
        failed |= run(argv[at], (uint32_t)strtoul(argv[at + 1], NULL, 10), argv[at + 2], fuel) != WASMLOOP_OK;
    return failed;
}
