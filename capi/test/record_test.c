/* The recorder for hosts in C. A loop is recorded whether its module is loaded by wasmloop_load or by wasmloop_load_told. A record whose file cannot
 * be opened or written for a while has the beginning of its loop's history, and no hole. Link with record_wrap.c and its options.
 *
 * usage: WASMLOOP_RECORD=FOLDER record_test EXAMPLES FOLDER
 */
#include <signal.h>
#include <string.h>
#include <sys/resource.h>
#include "checks.h"

enum { CALLS = 9000 };

static uint8_t whole[1 << 20];

/* Sets the clock of a new loop many times. Of these calls a third, from the second third on, has a resource of the process limited. */
static void record_loop(const wasmloop_handle *module, int resource, rlim_t most) {
    wasmloop_handle loop = WASMLOOP_HANDLE_INIT;
    wasmloop_limits limits = { 1000, 1000, 0, 64 };
    struct rlimit usual;
    uint64_t now;
    IS(getrlimit(resource, &usual), 0);
    const struct rlimit limited = { most, usual.rlim_max };
    IS(wasmloop_loop(module, &limits, &loop), WASMLOOP_OK);
    for (unsigned n = 0; n < CALLS; n++) {
        if (n == CALLS / 3) IS(setrlimit(resource, &limited), 0);
        if (n == CALLS / 3 * 2) IS(setrlimit(resource, &usual), 0);
        IS(wasmloop_clock(&loop, n, &now), WASMLOOP_OK);
    }
    IS(wasmloop_drop(&loop), WASMLOOP_OK);
}

/* Reads a record, which begins as the whole one does. Returns its length. */
static size_t beginning(const char *name, size_t length) {
    size_t its = read_file(name);
    IS(its < length && memcmp(bytes, whole, its) == 0, 1);
    return its;
}

int main(int argc, char **argv) {
    wasmloop_handle told = WASMLOOP_HANDLE_INIT;
    wasmloop_fault fault;
    char why[100];
    uint64_t count;
    if (argc != 3) return 2;
    folder = argv[1];
    wasmloop_handle module = module_of("ticker.wasm");
    IS(wasmloop_load_told(bytes, read_file("ticker.wasm"), &told, &fault, why, sizeof why, &count), WASMLOOP_OK);
    folder = argv[2];
    signal(SIGXFSZ, SIG_IGN);
    record_loop(&told, RLIMIT_NOFILE, 100);         /* enough: it is recorded whole */
    const size_t length = read_file("loop.1");
    memcpy(whole, bytes, length);
    IS(length > CALLS * strlen("[\"clock\",0]"), 1);
    record_loop(&module, RLIMIT_NOFILE, 0);         /* no descriptor is free */
    IS(beginning("loop.2", length) > length / 4, 1);
    record_loop(&module, RLIMIT_FSIZE, length / 2); /* the disk is full: the last write is a short one */
    IS(beginning("loop.3", length), length / 2);
    IS(wasmloop_drop(&told), WASMLOOP_OK);
    IS(wasmloop_drop(&module), WASMLOOP_OK);
    return all_hold();
}
