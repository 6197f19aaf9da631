/* Uses a copy of a handle behind the end of its object, which is as an access behind free: Valgrind must report it.
 *
 * usage: dangling_test FOLDER HOW      FOLDER: it has digest.wasm, which asks for work; HOW: drop, use or accept */
#include <string.h>
#include "checks.h"

/* The first job of a loop, once it has run. */
static wasmloop_handle job_of(wasmloop_handle *loop) {
    wasmloop_handle job = WASMLOOP_HANDLE_INIT;
    wasmloop_did did;
    while (wasmloop_next_job(loop, &job) == WASMLOOP_NONE)
        if (wasmloop_step(loop, &did) != WASMLOOP_OK || did.what >= WASMLOOP_OVER) exit(1);
    IS(wasmloop_job_run(&job), WASMLOOP_OK);
    return job;
}

int main(int argc, char **argv) {
    wasmloop_limits limits = { 1000000, 1000000, 0, 64 };
    wasmloop_handle loop = WASMLOOP_HANDLE_INIT;
    wasmloop_about about;
    if (argc != 3) return 2;
    folder = argv[1];
    wasmloop_handle module = module_of("digest.wasm");
    IS(wasmloop_loop(&module, &limits, &loop), WASMLOOP_OK);
    wasmloop_handle job = job_of(&loop), copy = job;
    IS(wasmloop_job_about(&copy, &about), WASMLOOP_OK);
    IS(strcmp(argv[2], "accept") ? wasmloop_drop(&job) : wasmloop_accept(&loop, &job), WASMLOOP_OK);
    if (strcmp(argv[2], "drop")) wasmloop_job_about(&copy, &about);
    else wasmloop_drop(&copy);
    IS(wasmloop_drop(&loop), WASMLOOP_OK);
    IS(wasmloop_drop(&module), WASMLOOP_OK);
    return all_hold();
}
