/* Jobs and calls of instances in slices: each length of slice gives what one run gives, and what is paused tells where it stands. Prints
 * "all N checks hold", or the lines that don't. Run it under AddressSanitizer, which also looks for leaks.
 *
 * usage: slices_test FOLDER      (examples/ of this repository)
 */
#include <string.h>
#include "checks.h"

/* what is told of a job that is over */
struct told {
    wasmloop_about about;
    uint8_t reply[256];
    uint64_t length, sites;
    wasmloop_site site[17];
    int stopped;
};

static struct told told_of(wasmloop_handle *job) {
    struct told told;
    memset(&told, 0, sizeof told);
    IS(wasmloop_job_about(job, &told.about), WASMLOOP_OK);
    wasmloop_job_reply(job, told.reply, sizeof told.reply, &told.length);
    told.stopped = wasmloop_stop(job, told.site, 17, &told.sites);
    return told;
}

static wasmloop_handle job_of(wasmloop_handle *module, uint64_t fuel, uint32_t depth) {
    static const uint8_t text[] = "what is given";
    wasmloop_handle job = WASMLOOP_HANDLE_INIT;
    wasmloop_task task = { .fuel = fuel, .op = 0, .depth = depth };
    IS(wasmloop_job_new(module, &task, text, sizeof text - 1, &job), WASMLOOP_OK);
    return job;
}

static struct told at_once(wasmloop_handle *module, uint64_t fuel, uint32_t depth) {
    wasmloop_handle job = job_of(module, fuel, depth);
    IS(wasmloop_job_run(&job), WASMLOOP_OK);
    struct told told = told_of(&job);
    IS(wasmloop_drop(&job), WASMLOOP_OK);
    return told;
}

static struct told in_slices(wasmloop_handle *module, uint64_t fuel, uint32_t depth, uint64_t units) {
    wasmloop_handle job = job_of(module, fuel, depth);
    uint32_t over = 7;
    uint64_t used = 0;
    while (IS(wasmloop_job_run_for(&job, units, &over), WASMLOOP_OK), over == 0) used += units;
    IS(over, 1);
    struct told told = told_of(&job);
    IS(used <= told.about.used && told.about.used - used <= units, 1);
    IS(wasmloop_job_run_for(&job, units, &over), WASMLOOP_KIND);
    IS(over, 1);
    IS(wasmloop_drop(&job), WASMLOOP_OK);
    return told;
}

static void agrees(const char *name, uint64_t fuel, uint32_t depth) {
    wasmloop_handle module = module_of(name);
    struct told once = at_once(&module, fuel, depth);
    static const uint64_t lengths[] = { 1, 2, 3, 7, 64, 1000, 1000000, UINT64_MAX };
    for (size_t k = 0; k < sizeof lengths / sizeof *lengths; k++) {
        struct told sliced = in_slices(&module, fuel, depth, lengths[k]);
        IS(memcmp(&once, &sliced, sizeof once), 0);
    }
    IS(wasmloop_drop(&module), WASMLOOP_OK);
}

/* whether the innermost site, its place and the words for it have the same numbers */
static int is_one_place(const wasmloop_site *site, const wasmloop_place *place, const char *text, uint64_t imports) {
    unsigned long long function, instruction, byte;
    const char *number = strstr(text, "instruction "), *at = strstr(text, " at byte ");
    if (sscanf(text, "in function %llu", &function) != 1 || !number || sscanf(number, "instruction %llu", &instruction) != 1) return 0;
    if (!at || sscanf(at, " at byte %llu", &byte) != 1) return 0;
    return place->function == function && place->instruction == instruction && place->byte == byte
        && site->function + imports == function && site->operation == instruction;
}

/* a job that has used so much stands where one stops that has no more, in the innermost 17 sites, their places, and in words */
static void stands(const char *name, uint64_t units, unsigned slices) {
    static char text[2][4096];
    wasmloop_handle module = module_of(name), job = job_of(&module, 1000000, 64);
    size_t length = read_file(name);
    uint32_t over = 0;
    uint64_t used = 0;
    wasmloop_shape shape;
    IS(wasmloop_shape_of(&module, &shape), WASMLOOP_OK);
    for (unsigned k = 0; k < slices && over == 0; k++) {
        wasmloop_site sites[17];
        wasmloop_place places[2][17];
        uint64_t count = 7, words[2] = { 0, 0 };
        memset(sites, 0, sizeof sites);
        memset(places, 0, sizeof places);
        IS(wasmloop_job_run_for(&job, units, &over), WASMLOOP_OK);
        used += units;
        if (over) break;
        IS(wasmloop_stop(&job, sites, 17, &count), WASMLOOP_OK);
        IS(wasmloop_stop_places(&job, places[0], 17, &count), WASMLOOP_OK);
        IS(wasmloop_stop_told(bytes, length, &job, text[0], sizeof text[0] - 1, &words[0]), WASMLOOP_OK);
        text[0][words[0]] = 0;
        IS(is_one_place(&sites[0], &places[0][0], text[0], shape.imports), 1);
        wasmloop_handle once = job_of(&module, used, 64);
        IS(wasmloop_job_run(&once), WASMLOOP_OK);
        struct told told = told_of(&once);
        IS(told.about.outcome, WASMLOOP_WORK_SPENT);
        IS(wasmloop_stop_told(bytes, length, &once, text[1], sizeof text[1], &words[1]), WASMLOOP_OK);
        IS(wasmloop_stop_places(&once, places[1], 17, &count), WASMLOOP_OK);
        IS(wasmloop_drop(&once), WASMLOOP_OK);
        IS(count, told.sites);
        IS(memcmp(sites, told.site, sizeof sites), 0);
        IS(memcmp(places[0], places[1], sizeof places[0]), 0);
        IS(words[0] == words[1] && memcmp(text[0], text[1], words[0]) == 0, 1);
    }
    IS(wasmloop_drop(&job), WASMLOOP_OK);
    IS(wasmloop_drop(&module), WASMLOOP_OK);
}

/* a loop with an open request, and the job for it */
static void asked(wasmloop_handle *loop, wasmloop_handle *job) {
    static const wasmloop_limits limits = { 1000000, 1000000, 0, 64 };
    wasmloop_handle module = module_of("digest.wasm");
    wasmloop_did did;
    IS(wasmloop_loop(&module, &limits, loop), WASMLOOP_OK);
    IS(wasmloop_drop(&module), WASMLOOP_OK);
    while (wasmloop_next_job(loop, job) == WASMLOOP_NONE) IS(wasmloop_step(loop, &did), WASMLOOP_OK);
}

/* what is answered of a job between two slices */
static void paused(void) {
    wasmloop_handle loop = WASMLOOP_HANDLE_INIT, job = WASMLOOP_HANDLE_INIT, other = WASMLOOP_HANDLE_INIT;
    wasmloop_about about;
    wasmloop_site site;
    wasmloop_did did;
    uint8_t byte = 7;
    uint32_t over = 7;
    uint64_t count = 7;
    asked(&loop, &job);
    IS(wasmloop_job_start(&loop, &job), WASMLOOP_OK);
    IS(wasmloop_job_run_for(&job, 10, &over), WASMLOOP_OK);
    IS(over, 0);
    IS(wasmloop_job_about(&job, &about), WASMLOOP_OK);
    IS(about.outcome == WASMLOOP_NOT_RUN && about.used == 10 && about.request == 1, 1);
    IS(wasmloop_job_input(&job, &byte, 1, &count), WASMLOOP_KIND);
    IS(wasmloop_job_reply(&job, &byte, 1, &count), WASMLOOP_KIND);
    IS(byte == 7 && count == 7, 1);
    IS(wasmloop_stop(&job, &site, 1, &count), WASMLOOP_OK);
    IS(count >= 1, 1);
    IS(wasmloop_job_run(&job), WASMLOOP_KIND);
    IS(wasmloop_job_start(&loop, &job), WASMLOOP_KIND);
    IS(wasmloop_accept(&loop, &job), WASMLOOP_KIND);
    IS(wasmloop_step(&job, &did), WASMLOOP_KIND);
    IS(wasmloop_next_job(&loop, &job), WASMLOOP_KIND);
    IS(wasmloop_job_run_for(&job, 0, &over), WASMLOOP_RANGE);
    IS(wasmloop_job_run_for(&loop, 1, &over), WASMLOOP_KIND);
    IS(wasmloop_job_run_for(&other, 1, &over), WASMLOOP_EMPTY);
    IS(wasmloop_job_run_for(NULL, 1, &over), WASMLOOP_NULL);
    IS(wasmloop_job_run_for(&job, 1, NULL), WASMLOOP_NULL);
    IS(over, 0);
    IS(wasmloop_job_run_for(&job, UINT64_MAX, &over), WASMLOOP_OK);
    IS(over, 1);
    IS(wasmloop_job_about(&job, &about), WASMLOOP_OK);
    IS(about.outcome, WASMLOOP_WORK_DONE);
    IS(wasmloop_accept(&loop, &job), WASMLOOP_OK);
    IS(wasmloop_drop(&loop), WASMLOOP_OK);
}

/* a paused job may be dropped, before its loop and after it */
static void dropped(void) {
    for (int loop_first = 0; loop_first < 2; loop_first++) {
        wasmloop_handle loop = WASMLOOP_HANDLE_INIT, job = WASMLOOP_HANDLE_INIT;
        uint32_t over;
        asked(&loop, &job);
        IS(wasmloop_job_run_for(&job, 1, &over), WASMLOOP_OK);
        IS(over, 0);
        IS(wasmloop_drop(loop_first ? &loop : &job), WASMLOOP_OK);
        IS(wasmloop_drop(loop_first ? &job : &loop), WASMLOOP_OK);
        IS(wasmloop_job_run_for(&job, 1, &over), WASMLOOP_EMPTY);
    }
}

/* what is told of a call of an instance that is over, and what it leaves */
struct left {
    wasmloop_ended ended;
    uint64_t size, sum, sites;
    wasmloop_site site[128];
    int stopped;
};

static void look(wasmloop_handle *it, struct left *left) {
    static uint8_t memory[64 << 16];
    left->stopped = wasmloop_stop(it, left->site, 128, &left->sites);
    IS(wasmloop_size(it, &left->size), WASMLOOP_OK);
    IS(wasmloop_read(it, 0, memory, left->size), WASMLOOP_OK);
    for (uint64_t at = 0; at < left->size; at++) left->sum = left->sum * 31 + memory[at];
}

static wasmloop_handle instance_of(const char *name) {
    static const wasmloop_call_limits limits = { 1000000, 64, 0 };
    wasmloop_handle module = module_of(name), it = WASMLOOP_HANDLE_INIT;
    wasmloop_ended ended;
    IS(wasmloop_instance(&module, &limits, &it, &ended), WASMLOOP_OK);
    IS(wasmloop_drop(&module), WASMLOOP_OK);
    return it;
}

/* the arguments of each call, of which it takes the first ones */
static const uint64_t given[3] = { 3, 0, 0 };

static struct left called(wasmloop_handle *it, const char *name, size_t count, const wasmloop_call_limits *limits) {
    struct left left;
    memset(&left, 0, sizeof left);
    IS(wasmloop_call(it, name, given, count, limits, &left.ended), WASMLOOP_OK);
    look(it, &left);
    return left;
}

static struct left called_for(wasmloop_handle *it, const char *name, size_t count, const wasmloop_call_limits *limits, uint64_t units) {
    struct left left;
    uint32_t over = 7;
    uint64_t used = 0;
    memset(&left, 0, sizeof left);
    IS(wasmloop_call_begin(it, name, given, count, limits), WASMLOOP_OK);
    while (IS(wasmloop_call_run_for(it, units, &over, &left.ended), WASMLOOP_OK), over == 0) used += units;
    IS(over, 1);
    IS(used <= left.ended.used && left.ended.used - used <= units, 1);
    IS(wasmloop_call_run_for(it, units, &over, &left.ended), WASMLOOP_KIND);
    look(it, &left);
    return left;
}

static struct left called_at_first(wasmloop_handle *it, uint64_t number, size_t count, const wasmloop_call_limits *limits, uint64_t units) {
    struct left left;
    uint32_t over = 7;
    uint64_t used = 0;
    memset(&left, 0, sizeof left);
    IS(wasmloop_call_for(it, number, given, count, limits, units, &over, &left.ended), WASMLOOP_OK);
    while (over == 0) {
        used += units;
        IS(left.ended.used, 0); /* (nothing is written of a call that is paused) */
        IS(wasmloop_call_for(it, number, given, count, limits, units, &over, &left.ended), WASMLOOP_KIND);
        IS(wasmloop_call_run_for(it, units, &over, &left.ended), WASMLOOP_OK);
    }
    IS(over, 1);
    IS(used <= left.ended.used && left.ended.used - used <= units, 1);
    look(it, &left);
    return left;
}

/* two calls, the second over what the first one has left */
static void calls_agree(const char *file, const char *name, size_t count, uint64_t fuel, uint32_t depth) {
    static const uint64_t lengths[] = { 1, 2, 3, 7, 64, 1000, 1000000, UINT64_MAX };
    wasmloop_call_limits limits = { fuel, depth, 0 };
    wasmloop_handle once = instance_of(file);
    struct left first = called(&once, name, count, &limits), second = called(&once, name, count, &limits);
    for (size_t k = 0; k < sizeof lengths / sizeof *lengths; k++) {
        wasmloop_handle it = instance_of(file);
        struct left left = called_for(&it, name, count, &limits, lengths[k]);
        IS(memcmp(&first, &left, sizeof left), 0);
        left = called_for(&it, name, count, &limits, lengths[k]);
        IS(memcmp(&second, &left, sizeof left), 0);
        wasmloop_handle module = module_of(file), other = instance_of(file);
        uint64_t number = 7;
        IS(wasmloop_export_number(&module, name, &number), WASMLOOP_OK);
        left = called_at_first(&other, number, count, &limits, lengths[k]);
        IS(memcmp(&first, &left, sizeof left), 0);
        left = called_at_first(&other, number, count, &limits, lengths[k]);
        IS(memcmp(&second, &left, sizeof left), 0);
        IS(wasmloop_drop(&module), WASMLOOP_OK);
        IS(wasmloop_drop(&other), WASMLOOP_OK);
        IS(wasmloop_drop(&it), WASMLOOP_OK);
    }
    IS(wasmloop_drop(&once), WASMLOOP_OK);
}

/* a call that comes with bytes, of a function that asks for none, is a call */
static void bytes_change_nothing(const char *file, const char *name, size_t count) {
    static const wasmloop_call_limits limits = { 20000, 64, 0 };
    wasmloop_handle module = module_of(file), one = instance_of(file), other = instance_of(file);
    struct left without = called(&one, name, count, &limits), with;
    uint64_t number = 7;
    memset(&with, 0, sizeof with);
    IS(wasmloop_export_number(&module, name, &number), WASMLOOP_OK);
    IS(wasmloop_call_bytes(&other, number, given, count, (const uint8_t *)"abc", 3, &limits, &with.ended), WASMLOOP_OK);
    look(&other, &with);
    IS(memcmp(&without, &with, sizeof with), 0);
    IS(wasmloop_drop(&module), WASMLOOP_OK);
    IS(wasmloop_drop(&one), WASMLOOP_OK);
    IS(wasmloop_drop(&other), WASMLOOP_OK);
}

/* what is answered of an instance between two slices */
static void paused_call(void) {
    static const wasmloop_call_limits limits = { 1000000, 64, 0 };
    wasmloop_handle it = instance_of("sha256.wasm"), none = WASMLOOP_HANDLE_INIT, module = module_of("sha256.wasm");
    wasmloop_ended ended;
    wasmloop_number value;
    wasmloop_site site;
    wasmloop_place place;
    uint64_t args[1] = { 0 }, count = 7, open = 7;
    uint32_t over = 7;
    uint8_t byte = 7;
    IS(wasmloop_call_run_for(&it, 5, &over, &ended), WASMLOOP_KIND);
    IS(wasmloop_call_begin(&it, "uv_work", args, 1, &limits), WASMLOOP_OK);
    memset(&ended, 0xab, sizeof ended);
    for (int slice = 0; slice < 2; slice++) {
        IS(wasmloop_call_begin(&it, "uv_work", args, 1, &limits), WASMLOOP_KIND);
        IS(wasmloop_call(&it, "uv_work", args, 1, &limits, &ended), WASMLOOP_KIND);
        IS(wasmloop_write(&it, 0, &byte, 1), WASMLOOP_KIND);
        IS(wasmloop_size(&it, &count), WASMLOOP_OK);
        IS(count >= 65536 && count % 65536 == 0, 1);
        IS(wasmloop_read(&it, 0, &byte, 0), WASMLOOP_OK);
        IS(wasmloop_read(&it, (uint32_t)count, &byte, 1), WASMLOOP_RANGE);
        IS(wasmloop_global(&it, "memory", &value), WASMLOOP_NONE);
        IS(wasmloop_stop(&it, &site, 1, &open), slice ? WASMLOOP_OK : WASMLOOP_NONE);
        IS(wasmloop_stop_places(&it, &place, 1, &open), slice ? WASMLOOP_OK : WASMLOOP_NONE);
        IS(open, slice ? 1 : 7);
        IS(wasmloop_job_run_for(&it, 1, &over), WASMLOOP_KIND);
        IS(wasmloop_instance(&module, &limits, &it, &ended), WASMLOOP_KIND);
        IS(wasmloop_instance(&it, &limits, &none, &ended), WASMLOOP_KIND);
        IS(wasmloop_call_run_for(&it, 0, &over, &ended), WASMLOOP_RANGE);
        IS(wasmloop_call_run_for(&none, 1, &over, &ended), WASMLOOP_EMPTY);
        IS(wasmloop_call_run_for(&module, 1, &over, &ended), WASMLOOP_KIND);
        IS(wasmloop_call_run_for(NULL, 1, &over, &ended), WASMLOOP_NULL);
        IS(wasmloop_call_run_for(&it, 1, NULL, &ended), WASMLOOP_NULL);
        IS(wasmloop_call_run_for(&it, 1, &over, NULL), WASMLOOP_NULL);
        IS(over, slice ? 0 : 7);
        IS(wasmloop_call_run_for(&it, 10, &over, &ended), WASMLOOP_OK);
        IS(over, 0);
    }
    for (size_t k = 0; k < sizeof ended; k++) IS(((uint8_t *)&ended)[k], 0xab);
    IS(byte, 7);
    IS(wasmloop_call_run_for(&it, UINT64_MAX, &over, &ended), WASMLOOP_OK);
    IS(over, 1);
    IS(ended.ending, WASMLOOP_RETURN);
    IS(wasmloop_drop(&it), WASMLOOP_OK);
    IS(wasmloop_call_run_for(&it, 1, &over, &ended), WASMLOOP_EMPTY);
    /* one that is paused, and one of which nothing has run, may be dropped */
    for (int slices = 0; slices < 2; slices++) {
        it = instance_of("sha256.wasm");
        IS(wasmloop_call_begin(&it, "uv_work", args, 1, &limits), WASMLOOP_OK);
        if (slices) IS(wasmloop_call_run_for(&it, 1, &over, &ended), WASMLOOP_OK);
        IS(wasmloop_drop(&it), WASMLOOP_OK);
    }
    IS(wasmloop_drop(&module), WASMLOOP_OK);
}

/* whether two instances have the same memory */
static int have_one_memory(wasmloop_handle *a, wasmloop_handle *b) {
    static uint8_t memories[2][64 << 16];
    uint64_t sizes[2] = { 0, 1 };
    IS(wasmloop_size(a, &sizes[0]), WASMLOOP_OK);
    IS(wasmloop_size(b, &sizes[1]), WASMLOOP_OK);
    if (sizes[0] != sizes[1]) return 0;
    IS(wasmloop_read(a, 0, memories[0], sizes[0]), WASMLOOP_OK);
    IS(wasmloop_read(b, 0, memories[1], sizes[1]), WASMLOOP_OK);
    return memcmp(memories[0], memories[1], sizes[0]) == 0;
}

/* a call that has used so much stands where one stops that has no more, and has left the memory so */
static void call_stands(const char *name, uint64_t units, unsigned slices) {
    uint64_t args[1] = { 0 }, used = 0;
    wasmloop_call_limits limits = { .fuel = 1000000, .depth = 64 };
    wasmloop_handle it = instance_of(name);
    wasmloop_ended ended;
    uint32_t over = 0;
    IS(wasmloop_call_begin(&it, "uv_work", args, 1, &limits), WASMLOOP_OK);
    for (unsigned k = 0; k < slices; k++) {
        wasmloop_site paused[64], stopped[64];
        uint64_t count = 7, open = 8;
        memset(paused, 0, sizeof paused);
        memset(stopped, 0, sizeof stopped);
        IS(wasmloop_call_run_for(&it, units, &over, &ended), WASMLOOP_OK);
        used += units;
        if (over) break;
        IS(wasmloop_stop(&it, paused, 64, &count), WASMLOOP_OK);
        wasmloop_handle once = instance_of(name);
        wasmloop_call_limits less = { .fuel = used, .depth = 64 };
        IS(wasmloop_call(&once, "uv_work", args, 1, &less, &ended), WASMLOOP_OK);
        IS(ended.ending, WASMLOOP_SPENT);
        IS(wasmloop_stop(&once, stopped, 64, &open), WASMLOOP_OK);
        IS(have_one_memory(&it, &once), 1);
        IS(wasmloop_drop(&once), WASMLOOP_OK);
        IS(count, open);
        IS(memcmp(paused, stopped, sizeof paused), 0);
    }
    IS(wasmloop_drop(&it), WASMLOOP_OK);
}

/* how many calls were paused between two slices when they were ended */
static unsigned ended_paused;

/* A call that is ended has ended as one with just that fuel, and the next call is the same after both. */
static void call_is_ended(const char *name, uint64_t units, unsigned slices) {
    uint64_t args[1] = { 0 }, used = 0, count = 7, open = 8;
    wasmloop_call_limits limits = { .fuel = 1000000, .depth = 64 };
    wasmloop_handle it = instance_of(name), once = instance_of(name);
    wasmloop_site paused[64], stopped[64];
    wasmloop_ended ended, whole;
    uint32_t over = 0;
    memset(paused, 0, sizeof paused);
    memset(stopped, 0, sizeof stopped);
    IS(wasmloop_call_begin(&it, "uv_work", args, 1, &limits), WASMLOOP_OK);
    for (unsigned k = 0; k < slices && !over; k++) {
        IS(wasmloop_call_run_for(&it, units, &over, &ended), WASMLOOP_OK);
        used += units;
    }
    IS(wasmloop_call_end(&it, &ended), over ? WASMLOOP_KIND : WASMLOOP_OK);
    if (over) {
        IS(wasmloop_drop(&it), WASMLOOP_OK);
        IS(wasmloop_drop(&once), WASMLOOP_OK);
        return;
    }
    ended_paused += slices > 0;
    limits.fuel = used;
    IS(wasmloop_call(&once, "uv_work", args, 1, &limits, &whole), WASMLOOP_OK);
    IS(whole.ending, WASMLOOP_SPENT);
    IS(memcmp(&ended, &whole, sizeof ended), 0);
    IS(have_one_memory(&it, &once), 1);
    IS(wasmloop_stop(&once, stopped, 64, &open), WASMLOOP_OK);
    IS(wasmloop_stop(&it, paused, 64, &count), slices ? WASMLOOP_OK : WASMLOOP_NONE);
    if (slices) IS(count == open && memcmp(paused, stopped, sizeof paused) == 0, 1);
    limits.fuel = 1000000;
    IS(wasmloop_call(&it, "uv_work", args, 1, &limits, &ended), WASMLOOP_OK);
    IS(wasmloop_call(&once, "uv_work", args, 1, &limits, &whole), WASMLOOP_OK);
    IS(memcmp(&ended, &whole, sizeof ended), 0);
    IS(have_one_memory(&it, &once), 1);
    IS(wasmloop_drop(&it), WASMLOOP_OK);
    IS(wasmloop_drop(&once), WASMLOOP_OK);
}

/* when there is no call to be ended */
static void no_call_is_ended(void) {
    static const wasmloop_call_limits limits = { 1000000, 64, 0 };
    wasmloop_handle it = instance_of("sha256.wasm"), none = WASMLOOP_HANDLE_INIT, module = module_of("sha256.wasm");
    wasmloop_ended ended;
    uint64_t args[1] = { 0 };
    uint32_t over = 0;
    memset(&ended, 0xab, sizeof ended);
    IS(wasmloop_call_end(&it, &ended), WASMLOOP_KIND);
    IS(wasmloop_call_end(&module, &ended), WASMLOOP_KIND);
    IS(wasmloop_call_end(&none, &ended), WASMLOOP_EMPTY);
    IS(wasmloop_call_end(NULL, &ended), WASMLOOP_NULL);
    IS(wasmloop_call_end(&it, NULL), WASMLOOP_NULL);
    for (size_t k = 0; k < sizeof ended; k++) IS(((uint8_t *)&ended)[k], 0xab);
    IS(wasmloop_call_begin(&it, "uv_work", args, 1, &limits), WASMLOOP_OK);
    IS(wasmloop_call_end(&it, NULL), WASMLOOP_NULL);
    IS(wasmloop_call_run_for(&it, UINT64_MAX, &over, &ended), WASMLOOP_OK);
    IS(over, 1);
    IS(wasmloop_call_end(&it, &ended), WASMLOOP_KIND);
    IS(wasmloop_drop(&it), WASMLOOP_OK);
    IS(wasmloop_drop(&module), WASMLOOP_OK);
}

/* a module whose uv_work copies 65,536 bytes in, as often as its operation says, and returns 7 */
static const uint8_t copier[] = {
    0x00, 0x61, 0x73, 0x6d, 0x01, 0x00, 0x00, 0x00, 0x01, 0x0d, 0x02, 0x60, 0x03, 0x7f, 0x7f, 0x7f, 0x01, 0x7f, 0x60, 0x01, 0x7f, 0x01, 0x7f, /* types */
    0x02, 0x0e, 0x01, 0x02, 0x75, 0x76, 0x07, 0x69, 0x6e, 0x5f, 0x63, 0x6f, 0x70, 0x79, 0x00, 0x00, /* imports uv.in_copy */
    0x03, 0x02, 0x01, 0x01, 0x05, 0x03, 0x01, 0x00, 0x01, /* a function, and a memory of a page */
    0x07, 0x0b, 0x01, 0x07, 0x75, 0x76, 0x5f, 0x77, 0x6f, 0x72, 0x6b, 0x00, 0x01, /* exports uv_work */
    0x0a, 0x1d, 0x01, 0x1b, 0x00, 0x03, 0x40, 0x41, 0x00, 0x41, 0x00, 0x41, 0x80, 0x80, 0x04, 0x10, 0x00, 0x1a, /* loop: drop in_copy(0, 0, 65536) */
    0x20, 0x00, 0x41, 0x01, 0x6b, 0x22, 0x00, 0x0d, 0x00, 0x0b, 0x41, 0x07, 0x0b, /* br_if, where local 0 less 1 is not 0; then 7 */
};

/* A slice also ends once the calls in it have copied more than 64 bytes for each of its units: 98 times 65,536 bytes in one of 100,000 units,
 * and once in one of 12. The job's reply and fuel are those of one run. */
static void copies_end_slices(void) {
    static const uint8_t input[65536];
    static const struct { uint64_t units; unsigned copies; } cuts[] = { { 100000, 98 }, { 10000, 10 }, { 1024, 2 }, { 1023, 1 }, { 12, 1 } };
    wasmloop_handle module = WASMLOOP_HANDLE_INIT, job = WASMLOOP_HANDLE_INIT;
    wasmloop_task task = { .fuel = 1000000, .op = 1000, .depth = 1 };
    wasmloop_fault fault;
    IS(wasmloop_load(copier, sizeof copier, &module, &fault), WASMLOOP_OK);
    IS(wasmloop_work(&module, &task, input, sizeof input, &job), WASMLOOP_OK);
    struct told once = told_of(&job);
    IS(once.about.outcome, WASMLOOP_WORK_DONE);
    IS(wasmloop_drop(&job), WASMLOOP_OK);
    for (size_t k = 0; k < sizeof cuts / sizeof *cuts; k++) {
        uint32_t over = 0;
        unsigned slices = 0;
        IS(wasmloop_job_new(&module, &task, input, sizeof input, &job), WASMLOOP_OK);
        while (IS(wasmloop_job_run_for(&job, cuts[k].units, &over), WASMLOOP_OK), over == 0) slices++;
        struct told sliced = told_of(&job);
        IS(memcmp(&once, &sliced, sizeof once), 0);
        IS(slices, 1000 / cuts[k].copies);
        IS(wasmloop_drop(&job), WASMLOOP_OK);
    }
    IS(wasmloop_drop(&module), WASMLOOP_OK);
}

int main(int argc, char **argv) {
    if (argc != 2) return 2;
    folder = argv[1];
    static const char *const names[] = { "crc32.wasm", "sha256.wasm", "adds_one.wasm", "copies.wasm", "asks.wasm", "digest.wasm" };
    for (size_t k = 0; k < sizeof names / sizeof *names; k++) {
        agrees(names[k], 20000, 64);
        agrees(names[k], 20000, 1);
        for (uint64_t fuel = 0; fuel < 12; fuel++) agrees(names[k], fuel, 64);
        for (uint64_t units = 1; units < 100; units += 7) stands(names[k], units, 50);
    }
    static const char *const files[] = { "crc32.wasm", "sha256.wasm", "adds_one.wasm", "copies.wasm" };
    for (size_t k = 0; k < sizeof files / sizeof *files; k++) {
        calls_agree(files[k], "uv_work", 1, 20000, 64);
        calls_agree(files[k], "uv_work", 1, 20000, 1);
        for (uint64_t fuel = 0; fuel < 12; fuel++) calls_agree(files[k], "uv_work", 1, fuel, 64);
        for (uint64_t units = 1; units < 100; units += 7) call_stands(files[k], units, 50);
        for (unsigned slices = 0; slices < 20; slices++) call_is_ended(files[k], 1 + 3 * slices, slices);
    }
    calls_agree("countdown.wasm", "uv_main", 0, 20000, 64);
    calls_agree("digest.wasm", "uv_after_work", 3, 20000, 64);
    bytes_change_nothing("countdown.wasm", "uv_main", 0);
    bytes_change_nothing("digest.wasm", "uv_after_work", 3);
    paused();
    dropped();
    copies_end_slices();
    paused_call();
    no_call_is_ended();
    printf("slices: %u paused calls ended\n", ended_paused);
    IS(ended_paused >= 20, 1);
    return all_hold();
}
