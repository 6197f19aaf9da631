/* A turn in slices uses its units: a call that leaves the turn in progress has used all of them, where each 64 bytes that calls of "uv" copied count
 * as one (the next callback may have begun with less than a unit's worth left over). So the fuel of the same turn in one piece bounds the calls. The
 * clauses say it of a call that leaves a callback paused; of one that ends between two steps tests alone do.
 *
 * usage: turn_units EXAMPLES */
#include "checks.h"

static const wasmloop_limits limits = { 1000000, 1000000, 0, 64 };

static int is_over(const wasmloop_did *did) { return did->what == WASMLOOP_OVER || did->what == WASMLOOP_FAILED; }

/* Whether a step ends a turn. */
static int ends(const wasmloop_did *did) {
    switch (did->what) {
    case WASMLOOP_RAN: return did->emits || did->ending;
    case WASMLOOP_ENTERED: return did->phase == 1;
    case WASMLOOP_SKIPPED: return 0;
    default: return 1;
    }
}

/* The fuel of so many turns, step by step. */
static uint64_t fuel_of(const char *name, unsigned turns) {
    wasmloop_handle module = module_of(name), loop = WASMLOOP_HANDLE_INIT;
    wasmloop_did did = { 0 };
    uint64_t fuel = 0;
    IS(wasmloop_loop(&module, &limits, &loop), WASMLOOP_OK);
    for (unsigned k = 0; k < turns && !is_over(&did); k++) {
        do {
            IS(wasmloop_step(&loop, &did), WASMLOOP_OK);
            if (did.what == WASMLOOP_RAN) fuel += did.used;
        } while (!ends(&did));
    }
    wasmloop_drop(&loop);
    wasmloop_drop(&module);
    return fuel;
}

/* How many calls of `units` each so many turns take. */
static uint64_t calls_of(const char *name, uint64_t units, unsigned turns) {
    wasmloop_handle module = module_of(name), loop = WASMLOOP_HANDLE_INIT;
    wasmloop_turned turned = { .wait = 0 };
    uint64_t calls = 0;
    int status = WASMLOOP_OK;
    IS(wasmloop_loop(&module, &limits, &loop), WASMLOOP_OK);
    for (unsigned k = 0; k < turns && status == WASMLOOP_OK && !is_over(&turned.did); k++) {
        for (uint32_t over = 0; status == WASMLOOP_OK && !over; calls++)
            status = wasmloop_turn_for(&loop, 1000000, units, &over, &turned);
    }
    IS(status, WASMLOOP_OK);
    wasmloop_drop(&loop);
    wasmloop_drop(&module);
    return calls;
}

static void compare(const char *name, uint64_t units, unsigned turns, uint64_t copied) {
    uint64_t most = (fuel_of(name, turns) + copied / 64) / units + turns;
    IS(calls_of(name, units, turns) <= most, 1);
}

int main(int argc, char **argv) {
    if (argc < 2) return 2;
    folder = argv[1];
    for (uint64_t units = 2; units < 2000; units *= 3) {
        compare("digest.wasm", units, 40, 4096);
        compare("ticker.wasm", units, 40, 0);
    }
    compare("endless.wasm", 1000, 3, 0);
    compare("endless.wasm", 31, 3, 0);
    return all_hold();
}
