/* The calls of wasmloop.h that the server makes, over a greeting in C in place of any module: what the server costs by itself. */
#include <stdlib.h>
#include <string.h>
#include "wasmloop.h"

typedef struct job {
    size_t length;
    uint8_t text[65536 + 7];
} job;

int wasmloop_load(const uint8_t *bytes, size_t length, wasmloop_handle *module, wasmloop_fault *fault) {
    (void)bytes, (void)length, (void)fault;
    module->mark = 1;
    return WASMLOOP_OK;
}

int wasmloop_shape_of(const wasmloop_handle *module, wasmloop_shape *shape) {
    (void)module;
    *shape = (wasmloop_shape){ .work = 1 };
    return WASMLOOP_OK;
}

int wasmloop_job_new(const wasmloop_handle *module, const wasmloop_task *task, const uint8_t *bytes, size_t length, wasmloop_handle *handle) {
    job *j = malloc(sizeof j->length + 7 + length);
    (void)module, (void)task;
    if (!j) return WASMLOOP_MEMORY;
    j->length = length;
    if (length) memcpy(j->text + 7, bytes, length);
    *handle = (wasmloop_handle){ 2, j };
    return WASMLOOP_OK;
}

int wasmloop_job_run_for(wasmloop_handle *handle, uint64_t units, uint32_t *over) {
    (void)units;
    memcpy(((job *)handle->at)->text, "hello, ", 7);
    *over = 1;
    return WASMLOOP_OK;
}

int wasmloop_job_about(wasmloop_handle *handle, wasmloop_about *about) {
    *about = (wasmloop_about){ .outcome = WASMLOOP_WORK_DONE, .reply = ((job *)handle->at)->length + 7 };
    return WASMLOOP_OK;
}

int wasmloop_job_view(wasmloop_handle *handle, const uint8_t **bytes, uint64_t *count) {
    job *j = handle->at;
    *bytes = j->text;
    *count = j->length + 7;
    return WASMLOOP_OK;
}

int wasmloop_drop(wasmloop_handle *handle) {
    free(handle->at);
    *handle = (wasmloop_handle)WASMLOOP_HANDLE_INIT;
    return WASMLOOP_OK;
}

const char *wasmloop_outcome_name(uint32_t outcome) { return outcome == WASMLOOP_WORK_DONE ? "done" : "not run"; }
const char *wasmloop_status_name(int status) { return (void)status, "?"; }
const char *wasmloop_version(void) { return "plain"; }
const char *wasmloop_trap_name(uint32_t trap) { return (void)trap, "?"; }
const char *wasmloop_ending_name(uint32_t ending) { return (void)ending, "?"; }

/* Never called: there is no module with a loop, and none fails. */
#define NEVER(name, ...) int name(__VA_ARGS__) { return WASMLOOP_NONE; }
NEVER(wasmloop_explain, const uint8_t *a, size_t b, char *c, size_t d, uint64_t *e)
NEVER(wasmloop_load_told, const uint8_t *a, size_t b, wasmloop_handle *c, wasmloop_fault *d, char *e, size_t f, uint64_t *g)
NEVER(wasmloop_stop_told, const uint8_t *a, size_t b, wasmloop_handle *c, char *d, size_t e, uint64_t *f)
NEVER(wasmloop_share, const wasmloop_handle *a, wasmloop_handle *b)
NEVER(wasmloop_loop, const wasmloop_handle *a, const wasmloop_limits *b, wasmloop_handle *c)
NEVER(wasmloop_step, wasmloop_handle *a, wasmloop_did *b)
NEVER(wasmloop_step_for, wasmloop_handle *a, uint64_t b, uint32_t *c, wasmloop_did *d)
NEVER(wasmloop_turn, wasmloop_handle *a, uint32_t b, wasmloop_turned *c)
NEVER(wasmloop_turn_for, wasmloop_handle *a, uint32_t b, uint64_t c, uint32_t *d, wasmloop_turned *e)
NEVER(wasmloop_standing_of, wasmloop_handle *a, wasmloop_standing *b)
NEVER(wasmloop_emits, wasmloop_handle *a, int64_t *b, size_t c, uint32_t *d)
NEVER(wasmloop_clock, wasmloop_handle *a, uint64_t b, uint64_t *c)
NEVER(wasmloop_hint, wasmloop_handle *a, uint64_t *b)
NEVER(wasmloop_async_send, wasmloop_handle *a, uint32_t b)
NEVER(wasmloop_request, wasmloop_handle *a, uint32_t b, const uint8_t *c, size_t d, int32_t *e)
NEVER(wasmloop_cancel, wasmloop_handle *a, uint32_t b, int32_t *c)
NEVER(wasmloop_next_job, wasmloop_handle *a, wasmloop_handle *b)
NEVER(wasmloop_job_start, wasmloop_handle *a, wasmloop_handle *b)
NEVER(wasmloop_accept, wasmloop_handle *a, wasmloop_handle *b)
