/* Loops in slices: however steps and turns are cut, they are those of wasmloop_step and wasmloop_turn, over the examples and random changes of
 * their bytes. And what is answered while a callback is paused.
 *
 * usage: steps_test EXAMPLES [LOOPS]      LOOPS: how many random loops, 5,000 unless given */
#include <string.h>
#include "checks.h"

enum { GUESTS = 12, MOST_STEPS = 60, MEMORY = 64 << 16 };

static const char *const names[GUESTS] = { "digest.wasm", "countdown.wasm", "chatter.wasm", "ticker.wasm", "timer.wasm", "counts.wasm",
    "bucket.wasm", "table.wasm", "endless.wasm", "asks.wasm", "seven.wasm", "loads.wasm" };
static uint8_t codes[GUESTS][1 << 16];
static size_t lengths[GUESTS];
static uint64_t state = 88172645463325252u, cuts, turns_cut, ran;

static uint32_t draw(void) {
    state ^= state << 13, state ^= state >> 7, state ^= state << 17;
    return (uint32_t)(state >> 16);
}
static uint32_t below(uint32_t n) { return draw() % n; }

/* Two loops of one module, one of which is cut. */
struct pair { wasmloop_handle once, cut; };

/* The memory of a loop, as a number. */
static uint64_t sum_of(wasmloop_handle *loop) {
    static uint8_t memory[MEMORY];
    uint64_t size = 0, sum = 0, word;
    IS(wasmloop_size(loop, &size), WASMLOOP_OK);
    IS(wasmloop_read(loop, 0, memory, size), WASMLOOP_OK);
    for (uint64_t at = 0; at < size; at += sizeof word) {
        memcpy(&word, memory + at, sizeof word);
        sum = (sum ^ word) * 0x9e3779b97f4a7c15u;
    }
    return sum + size;
}

/* What can be asked of a loop. */
struct look {
    wasmloop_standing standing;
    wasmloop_number value[3];
    wasmloop_site site[128];
    int64_t emits[64];
    uint64_t hint, sites, memory;
    uint32_t count;
    int stopped, has[3];
};

static void look(wasmloop_handle *loop, struct look *it, int with_memory) {
    static const char *const globals[3] = { "count", "__heap_base", "g" };
    memset(it, 0, sizeof *it);
    IS(wasmloop_standing_of(loop, &it->standing), WASMLOOP_OK);
    IS(wasmloop_hint(loop, &it->hint), WASMLOOP_OK);
    IS(wasmloop_emits(loop, it->emits, 64, &it->count), WASMLOOP_OK);
    it->stopped = wasmloop_stop(loop, it->site, 128, &it->sites);
    for (int k = 0; k < 3; k++) it->has[k] = wasmloop_global(loop, globals[k], &it->value[k]);
    if (with_memory) it->memory = sum_of(loop);
}

static void same(struct pair *p, int with_memory) {
    static struct look once, cut;
    look(&p->once, &once, with_memory);
    look(&p->cut, &cut, with_memory);
    IS(memcmp(&once, &cut, sizeof once), 0);
}

/* Every other call on a loop whose callback is paused answers KIND, and writes nothing. */
static void answers_kind(wasmloop_handle *loop) {
    wasmloop_handle job = WASMLOOP_HANDLE_INIT, words = *loop;
    wasmloop_did did;
    wasmloop_turned turned;
    wasmloop_standing standing;
    wasmloop_shape shape;
    wasmloop_site site;
    wasmloop_place place;
    wasmloop_number value;
    wasmloop_ended ended;
    wasmloop_call_limits limits = { 1, 1, 0 };
    int64_t emit = 7;
    uint64_t count = 7;
    uint32_t few = 7;
    int32_t answer = 7;
    uint8_t byte = 7;
    IS(wasmloop_step(loop, &did), WASMLOOP_KIND);
    IS(wasmloop_turn(loop, 1, &turned), WASMLOOP_KIND);
    IS(wasmloop_emits(loop, &emit, 1, &few), WASMLOOP_KIND);
    IS(wasmloop_clock(loop, 1000000, &count), WASMLOOP_KIND);
    IS(wasmloop_hint(loop, &count), WASMLOOP_KIND);
    IS(wasmloop_async_send(loop, 0), WASMLOOP_KIND);
    IS(wasmloop_cancel(loop, 1, &answer), WASMLOOP_KIND);
    IS(wasmloop_request(loop, 1, &byte, 1, &answer), WASMLOOP_KIND);
    IS(wasmloop_standing_of(loop, &standing), WASMLOOP_KIND);
    IS(wasmloop_next_job(loop, &job), WASMLOOP_KIND);
    IS(wasmloop_job_start(loop, &job), WASMLOOP_EMPTY);
    IS(wasmloop_accept(loop, &job), WASMLOOP_EMPTY);
    IS(wasmloop_stop(loop, &site, 1, &count), WASMLOOP_KIND);
    IS(wasmloop_stop_places(loop, &place, 1, &count), WASMLOOP_KIND);
    IS(wasmloop_stop_told(&byte, 1, loop, (char *)&byte, 1, &count), WASMLOOP_KIND);
    IS(wasmloop_size(loop, &count), WASMLOOP_KIND);
    IS(wasmloop_read(loop, 0, &byte, 1), WASMLOOP_KIND);
    IS(wasmloop_write(loop, 0, &byte, 1), WASMLOOP_KIND);
    IS(wasmloop_global(loop, "g", &value), WASMLOOP_KIND);
    IS(wasmloop_shape_of(loop, &shape), WASMLOOP_KIND);
    IS(wasmloop_call_run_for(loop, 1, &few, &ended), WASMLOOP_KIND);
    IS(wasmloop_call(loop, "f", NULL, 0, &limits, &ended), WASMLOOP_KIND);
    IS(wasmloop_job_run_for(loop, 1, &few), WASMLOOP_KIND);
    IS(wasmloop_step_for(loop, 0, &few, &did), WASMLOOP_RANGE);
    IS(wasmloop_turn_for(loop, 0, 1, &few, &turned), WASMLOOP_RANGE);
    IS(wasmloop_turn_for(loop, 1, 0, &few, &turned), WASMLOOP_RANGE);
    IS(emit == 7 && count == 7 && few == 7 && answer == 7 && byte == 7 && !job.mark, 1);
    IS(memcmp(loop, &words, sizeof words), 0);
}

/* The units of a slice: many slices, few, or one. */
static uint64_t some_units(uint64_t fuel) {
    uint32_t which = below(8);
    return which == 0 ? UINT64_MAX : which < 4 ? 1 + below(20) : 1 + below((uint32_t)fuel / 4 + 1);
}

static wasmloop_did step_in_slices(wasmloop_handle *loop, uint64_t fuel) {
    uint64_t used = 0, units;
    uint32_t over = 7, slices = 0;
    wasmloop_did did, before;
    memset(&did, 0xab, sizeof did);
    before = did;
    /* (a callback in slices of one unit would take too long) */
    while (units = some_units(fuel) * (1 + slices / 20), IS(wasmloop_step_for(loop, units, &over, &did), WASMLOOP_OK), over == 0) {
        IS(memcmp(&did, &before, sizeof did), 0);
        if (below(50) == 0) answers_kind(loop);
        used += units;
        slices++;
    }
    IS(over, 1);
    if (slices) IS(did.what == WASMLOOP_RAN && used <= did.used && did.used - used <= units, 1);
    cuts += slices;
    return did;
}

static void steps_agree(struct pair *p, uint64_t fuel) {
    wasmloop_did once;
    IS(wasmloop_step(&p->once, &once), WASMLOOP_OK);
    wasmloop_did cut = step_in_slices(&p->cut, fuel);
    IS(memcmp(&once, &cut, sizeof once), 0);
    ran += once.what == WASMLOOP_RAN;
}

/* The callbacks of one call end in it, so a turn of which none does may have many. What is in the struct before a call does not count. */
static void turns_agree(struct pair *p, uint64_t fuel) {
    wasmloop_turned turned[2];
    uint32_t over = 0;
    unsigned calls = 0;
    memset(&turned[0], 0xab, sizeof *turned);
    IS(wasmloop_turn(&p->once, 1000000, &turned[0]), WASMLOOP_OK);
    for (; !over; calls++) {
        memset(&turned[1], calls % 2 ? 0 : 0xcd, sizeof *turned);
        IS(wasmloop_turn_for(&p->cut, 1000000, some_units(fuel) * (1 + calls / 20), &over, &turned[1]), WASMLOOP_OK);
        if (!over) IS(turned[1].wait, 0);
    }
    IS(memcmp(&turned[0], &turned[1], sizeof *turned), 0);
    turns_cut += calls > 1;
    cuts += calls - 1;
}

/* What the owner does with both loops in the same way. */
static void own(struct pair *p) {
    wasmloop_handle *both[2] = { &p->once, &p->cut };
    uint32_t which = below(6), number = below(3);
    uint64_t now[2] = { 0, 0 }, by = below(300);
    int told[2] = { 0, 0 };
    int32_t answer[2] = { 0, 0 };
    for (int k = 0; k < 2; k++) {
        wasmloop_handle job = WASMLOOP_HANDLE_INIT;
        if (which == 0) told[k] = wasmloop_async_send(both[k], number);
        if (which == 1) told[k] = wasmloop_cancel(both[k], number, &answer[k]);
        if (which == 2) told[k] = wasmloop_request(both[k], number, (const uint8_t *)"bytes", 5, &answer[k]);
        if (which < 4) IS(wasmloop_clock(both[k], 0, &now[k]), WASMLOOP_OK);
        if (which < 4) IS(wasmloop_clock(both[k], now[k] + by, &now[k]), WASMLOOP_OK);
        if (which < 3 || wasmloop_next_job(both[k], &job) != WASMLOOP_OK) continue;
        IS(wasmloop_job_run(&job), WASMLOOP_OK);
        told[k] = wasmloop_accept(both[k], &job);
        wasmloop_drop(&job);
    }
    IS(told[0] == told[1] && answer[0] == answer[1] && now[0] == now[1], 1);
}

static void loops_agree(const uint8_t *code, size_t length, uint64_t fuel, uint32_t depth) {
    wasmloop_limits limits = { fuel, 100000, 3, depth };
    wasmloop_handle module = WASMLOOP_HANDLE_INIT;
    wasmloop_fault fault;
    struct pair p = { WASMLOOP_HANDLE_INIT, WASMLOOP_HANDLE_INIT };
    wasmloop_standing standing = { 0 };
    if (wasmloop_load(code, length, &module, &fault) != WASMLOOP_OK) return;
    IS(wasmloop_loop(&module, &limits, &p.once), WASMLOOP_OK);
    IS(wasmloop_loop(&module, &limits, &p.cut), WASMLOOP_OK);
    IS(wasmloop_drop(&module), WASMLOOP_OK);
    for (int k = 0; k < MOST_STEPS && !standing.failed; k++) {
        if (below(3)) steps_agree(&p, fuel);
        else turns_agree(&p, fuel);
        same(&p, k % 16 == 0);
        own(&p);
        IS(wasmloop_standing_of(&p.once, &standing), WASMLOOP_OK);
    }
    same(&p, 1);
    IS(wasmloop_drop(&p.once), WASMLOOP_OK);
    IS(wasmloop_drop(&p.cut), WASMLOOP_OK);
}

/* An example, or one of which some bytes are changed. */
static void one_loop(void) {
    uint32_t which = below(GUESTS);
    size_t length = lengths[which];
    memcpy(bytes, codes[which], length);
    for (uint32_t changes = below(3); changes; changes--) bytes[below((uint32_t)length)] = (uint8_t)draw();
    loops_agree(bytes, length, 1 + below(below(2) ? 200 : 30000), 1 + below(64));
}

/* A loop whose first callback runs out of its fuel, and is paused before. */
static wasmloop_handle paused_loop(uint64_t fuel, uint32_t units) {
    wasmloop_limits limits = { fuel, 1000, 0, 64 };
    wasmloop_handle module = module_of("digest.wasm"), loop = WASMLOOP_HANDLE_INIT;
    wasmloop_did did;
    uint32_t over = 1;
    IS(wasmloop_loop(&module, &limits, &loop), WASMLOOP_OK);
    IS(wasmloop_drop(&module), WASMLOOP_OK);
    while (over) IS(wasmloop_step_for(&loop, units, &over, &did), WASMLOOP_OK);
    return loop;
}

/* A paused callback: what is answered, and that its loop may be dropped. */
static void paused(void) {
    wasmloop_handle loop = paused_loop(1000000, 1), none = WASMLOOP_HANDLE_INIT, module = module_of("digest.wasm");
    wasmloop_limits limits = { 1, 1, 0, 1 };
    wasmloop_turned turned = { .wait = 0 };
    wasmloop_did did;
    uint32_t over = 7;
    answers_kind(&loop);
    IS(wasmloop_loop(&module, &limits, &loop), WASMLOOP_KIND);
    IS(wasmloop_loop(&loop, &limits, &none), WASMLOOP_KIND);
    IS(wasmloop_step_for(&module, 1, &over, &did), WASMLOOP_KIND);
    IS(wasmloop_step_for(&none, 1, &over, &did), WASMLOOP_EMPTY);
    IS(wasmloop_step_for(NULL, 1, &over, &did), WASMLOOP_NULL);
    IS(wasmloop_step_for(&loop, 1, NULL, &did), WASMLOOP_NULL);
    IS(wasmloop_step_for(&loop, 1, &over, NULL), WASMLOOP_NULL);
    IS(wasmloop_turn_for(&module, 1, 1, &over, &turned), WASMLOOP_KIND);
    IS(wasmloop_turn_for(&none, 1, 1, &over, &turned), WASMLOOP_EMPTY);
    IS(wasmloop_turn_for(NULL, 1, 1, &over, &turned), WASMLOOP_NULL);
    IS(wasmloop_turn_for(&loop, 1, 1, NULL, &turned), WASMLOOP_NULL);
    IS(wasmloop_turn_for(&loop, 1, 1, &over, NULL), WASMLOOP_NULL);
    IS(over, 7);
    IS(wasmloop_step_for(&loop, UINT64_MAX, &over, &did), WASMLOOP_OK);
    IS(over == 1 && did.what == WASMLOOP_RAN && did.ending == WASMLOOP_RETURN, 1);
    IS(wasmloop_step(&loop, &did), WASMLOOP_OK);
    IS(wasmloop_drop(&loop), WASMLOOP_OK);
    IS(wasmloop_step_for(&loop, 1, &over, &did), WASMLOOP_EMPTY);
    loop = paused_loop(1000000, 1);
    IS(wasmloop_drop(&loop), WASMLOOP_OK);
    IS(wasmloop_drop(&module), WASMLOOP_OK);
}

/* A turn uses no more units in a call than it is given, and a step that began in one call may go on in another. */
static void turn_is_cut(void) {
    wasmloop_limits limits = { 1000000, 1000000, 0, 64 };
    wasmloop_handle module = module_of("digest.wasm"), loop = WASMLOOP_HANDLE_INIT;
    wasmloop_turned turned = { .wait = 0 };
    wasmloop_did did;
    uint32_t over = 0;
    unsigned pauses = 0;
    IS(wasmloop_loop(&module, &limits, &loop), WASMLOOP_OK);
    IS(wasmloop_drop(&module), WASMLOOP_OK);
    IS(wasmloop_turn_for(&loop, 10, 1, &over, &turned), WASMLOOP_OK);
    IS(over, 0);
    IS(wasmloop_turn(&loop, 10, &turned), WASMLOOP_KIND);
    IS(wasmloop_step_for(&loop, 1, &over, &did), WASMLOOP_OK);
    while (IS(wasmloop_turn_for(&loop, 10, 7, &over, &turned), WASMLOOP_OK), over == 0) pauses++;
    IS(pauses > 2, 1);
    /* whatever ended it, it is a step's end */
    IS(turned.did.what == WASMLOOP_RAN || turned.did.what == WASMLOOP_ENTERED, 1);
    IS(wasmloop_drop(&loop), WASMLOOP_OK);
}

/* A loop whose callbacks have sent to its asyncs does not wait for ever, though its host zeroes the struct in each turn, whole or in slices. */
static void zeroed(uint64_t units) {
    wasmloop_limits limits = { 1000000, 1000000, 0, 64 };
    wasmloop_handle module = module_of("chatter.wasm"), loop = WASMLOOP_HANDLE_INIT;
    wasmloop_turned turned = { .wait = 0 };
    uint64_t now = 0;
    IS(wasmloop_loop(&module, &limits, &loop), WASMLOOP_OK);
    IS(wasmloop_drop(&module), WASMLOOP_OK);
    for (int turn = 0; turn < 100 && turned.did.what != WASMLOOP_OVER && turned.wait != WASMLOOP_FOREVER; turn++) {
        uint32_t over = units == 0;
        IS(wasmloop_clock(&loop, now + turned.wait, &now), WASMLOOP_OK);
        do {
            memset(&turned, 0, sizeof turned);
            IS(units ? wasmloop_turn_for(&loop, 100, units, &over, &turned) : wasmloop_turn(&loop, 100, &turned), WASMLOOP_OK);
        } while (!over);
    }
    IS(turned.did.what, WASMLOOP_OVER);
    IS(wasmloop_drop(&loop), WASMLOOP_OK);
}

int main(int argc, char **argv) {
    if (argc < 2) return 2;
    folder = argv[1];
    for (int k = 0; k < GUESTS; k++) {
        lengths[k] = read_file(names[k]);
        if (lengths[k] > sizeof codes[k]) return 2;
        memcpy(codes[k], bytes, lengths[k]);
    }
    for (int k = 0; k < GUESTS; k++) loops_agree(codes[k], lengths[k], 1000000, 64);
    for (unsigned long more = argc > 2 ? strtoul(argv[2], NULL, 10) : 5000; more; more--) one_loop();
    paused();
    turn_is_cut();
    zeroed(0);
    zeroed(1);
    zeroed(50);
    printf("steps: %llu callbacks, %llu cuts, %llu turns cut\n", (unsigned long long)ran, (unsigned long long)cuts, (unsigned long long)turns_cut);
    IS(cuts >= 10000 || argc > 2, 1);
    return all_hold();
}
