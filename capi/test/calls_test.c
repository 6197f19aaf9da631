/* Each call with right handles, wrong kinds, empty and dropped ones, NULL, numbers at and past their limits, and memory that is
 * refused. Prints "all N checks hold", or the lines that don't. Run it under AddressSanitizer, which also looks for leaks.
 *
 * usage: calls_test FOLDER      (examples/ of this repository)
 */
#include <pthread.h>
#include <string.h>
#include "checks.h"

static const wasmloop_limits usual = { 1000000, 1000000, 0, 64 };

static wasmloop_handle loop_of(const char *name) {
    wasmloop_handle module = module_of(name), loop = WASMLOOP_HANDLE_INIT;
    IS(wasmloop_loop(&module, &usual, &loop), WASMLOOP_OK);
    IS(wasmloop_drop(&module), WASMLOOP_OK);
    return loop;
}

/* steps until a callback of this kind ran, or anything else than that a phase was entered or an entry skipped */
static wasmloop_did run_to(wasmloop_handle *loop, uint32_t kind) {
    wasmloop_did did;
    uint64_t moment;
    for (int i = 0; i < 1000; i++) {
        if (i % 10 == 9) IS(wasmloop_clock(loop, (uint64_t)i * 100, &moment), WASMLOOP_OK);
        IS(wasmloop_step(loop, &did), WASMLOOP_OK);
        if (did.what == WASMLOOP_OVER || did.what == WASMLOOP_FAILED || (did.what == WASMLOOP_RAN && did.kind == kind)) break;
    }
    return did;
}

static void loads(void) {
    wasmloop_handle module = WASMLOOP_HANDLE_INIT;
    wasmloop_fault fault;
    size_t length = read_file("countdown.wasm");
    IS(wasmloop_load(NULL, 1, &module, &fault), WASMLOOP_NULL);
    IS(wasmloop_load(bytes, length, NULL, &fault), WASMLOOP_NULL);
    IS(wasmloop_load(bytes, length, &module, NULL), WASMLOOP_NULL);
    IS(wasmloop_load(bytes, SIZE_MAX, &module, &fault), WASMLOOP_RANGE);
    IS(module.mark, 0);
    /* of more bytes than a module may have those behind one too many are not looked at */
    IS(wasmloop_load(bytes, PTRDIFF_MAX, &module, &fault), WASMLOOP_REFUSED);
    IS(fault.stage == 1 && strcmp(wasmloop_fault_name(1, fault.code), "Limit") == 0, 1);
    /* each front of a module: what is no module is refused, and the handle stays empty */
    for (size_t n = 0; n < length; n++) {
        uint8_t *front = malloc(n ? n : 1); /* so that a read past the end is seen */
        memcpy(front, bytes, n);
        memset(&fault, 0xff, sizeof fault);
        int told = wasmloop_load(n ? front : NULL, n, &module, &fault);
        free(front);
        if (told == WASMLOOP_OK) {
            IS(n >= 8, 1); /* it ends behind a section */
            IS(wasmloop_drop(&module), WASMLOOP_OK);
            continue;
        }
        IS(told, WASMLOOP_REFUSED);
        IS(fault.stage >= 1 && fault.stage <= 3, 1);
        IS(fault.byte <= n, 1);
        IS(module.mark, 0);
    }
    /* each byte changed in eight ways: accepted or refused, never more */
    for (size_t n = 0; n < length; n++) {
        for (int bit = 0; bit < 8; bit++) {
            bytes[n] ^= (uint8_t)(1 << bit);
            int told = wasmloop_load(bytes, length, &module, &fault);
            IS(told == WASMLOOP_OK || told == WASMLOOP_REFUSED, 1);
            IS(wasmloop_drop(&module), told == WASMLOOP_OK ? WASMLOOP_OK : WASMLOOP_EMPTY);
            bytes[n] ^= (uint8_t)(1 << bit);
        }
    }
    /* too long */
    static uint8_t long_one[(1 << 20) + 1];
    memcpy(long_one, bytes, length);
    IS(wasmloop_load(long_one, sizeof long_one, &module, &fault), WASMLOOP_REFUSED);
    IS(fault.stage, 1);
    IS(fault.code, 12);
    /* the bytes are copied */
    IS(wasmloop_load(bytes, length, &module, &fault), WASMLOOP_OK);
    memset(bytes, 0, length);
    /* full */
    read_file("countdown.wasm");
    IS(wasmloop_load(bytes, length, &module, &fault), WASMLOOP_KIND);
    IS(wasmloop_drop(&module), WASMLOOP_OK);
    IS(wasmloop_drop(&module), WASMLOOP_EMPTY);
    IS(wasmloop_drop(NULL), WASMLOOP_NULL);
    /* a mark that is none is an empty handle */
    wasmloop_handle odd = { 0x1234567890abcdef, (void *)16 };
    IS(wasmloop_drop(&odd), WASMLOOP_EMPTY);
    IS(odd.mark, 0);
}

static void loops(void) {
    wasmloop_handle module = module_of("countdown.wasm"), loop = WASMLOOP_HANDLE_INIT, none = WASMLOOP_HANDLE_INIT;
    wasmloop_limits limits = usual;
    IS(wasmloop_loop(NULL, &limits, &loop), WASMLOOP_NULL);
    IS(wasmloop_loop(&module, NULL, &loop), WASMLOOP_NULL);
    IS(wasmloop_loop(&module, &limits, NULL), WASMLOOP_NULL);
    IS(wasmloop_loop(&module, &limits, &module), WASMLOOP_KIND);
    IS(wasmloop_loop(&none, &limits, &loop), WASMLOOP_EMPTY);
    limits.depth = 0;
    IS(wasmloop_loop(&module, &limits, &loop), WASMLOOP_RANGE);
    limits.depth = 129;
    IS(wasmloop_loop(&module, &limits, &loop), WASMLOOP_RANGE);
    limits.depth = UINT32_MAX;
    IS(wasmloop_loop(&module, &limits, &loop), WASMLOOP_RANGE);
    IS(loop.mark, 0);
    limits.depth = 1;
    IS(wasmloop_loop(&module, &limits, &loop), WASMLOOP_OK);
    IS(wasmloop_loop(&module, &limits, &loop), WASMLOOP_KIND);
    IS(wasmloop_drop(&loop), WASMLOOP_OK);
    limits.depth = 128;
    limits.fuel = limits.work_fuel = UINT64_MAX;
    limits.number = UINT32_MAX;
    IS(wasmloop_loop(&module, &limits, &loop), WASMLOOP_OK);
    /* a loop is no module */
    IS(wasmloop_loop(&loop, &limits, &none), WASMLOOP_KIND);
    IS(wasmloop_drop(&module), WASMLOOP_OK);
    wasmloop_did did = run_to(&loop, 99);
    IS(did.what, WASMLOOP_OVER);
    wasmloop_standing standing;
    IS(wasmloop_standing_of(&loop, &standing), WASMLOOP_OK);
    IS(standing.alive, 0);
    IS(standing.failed, 0);
    IS(standing.outstanding, 0);
    IS(wasmloop_drop(&loop), WASMLOOP_OK);
    /* no fuel */
    module = module_of("countdown.wasm");
    limits.fuel = 0;
    IS(wasmloop_loop(&module, &limits, &loop), WASMLOOP_OK);
    did = run_to(&loop, WASMLOOP_RUN_MAIN);
    IS(did.ending, WASMLOOP_SPENT);
    IS(wasmloop_step(&loop, &did), WASMLOOP_OK);
    IS(did.what, WASMLOOP_FAILED);
    IS(wasmloop_standing_of(&loop, &standing), WASMLOOP_OK);
    IS(standing.failed, 1);
    int32_t answer;
    IS(wasmloop_cancel(&loop, 1, &answer), WASMLOOP_OK);
    IS(answer, -1);
    IS(wasmloop_drop(&loop), WASMLOOP_OK);
    IS(wasmloop_drop(&module), WASMLOOP_OK);
    /* a trap */
    loop = loop_of("endless.wasm");
    did = run_to(&loop, 99);
    IS(did.what, WASMLOOP_FAILED);
    IS(wasmloop_drop(&loop), WASMLOOP_OK);
}

/* each call that wants a loop, at a handle that has none */
static void refuse(wasmloop_handle *h, int want) {
    wasmloop_did did;
    wasmloop_standing standing;
    wasmloop_handle job = WASMLOOP_HANDLE_INIT;
    uint64_t moment = 7;
    uint32_t count = 7;
    int32_t answer = 7;
    int64_t room[2] = { 7, 7 };
    wasmloop_handle before = { 0, NULL };
    if (h) before = *h;
    memset(&did, 7, sizeof did);
    memset(&standing, 7, sizeof standing);
    wasmloop_did same = did;
    wasmloop_standing same_standing = standing;
    IS(wasmloop_step(h, &did), want);
    IS(memcmp(&did, &same, sizeof did), 0);
    IS(wasmloop_emits(h, room, 2, &count), want);
    IS(room[0] == 7 && room[1] == 7 && count == 7, 1);
    IS(wasmloop_clock(h, 5, &moment), want);
    IS(wasmloop_hint(h, &moment), want);
    IS(moment, 7);
    IS(wasmloop_async_send(h, 0), want);
    IS(wasmloop_cancel(h, 1, &answer), want);
    IS(wasmloop_request(h, 0, NULL, 0, &answer), want);
    IS(answer, 7);
    IS(wasmloop_standing_of(h, &standing), want);
    IS(memcmp(&standing, &same_standing, sizeof standing), 0);
    IS(wasmloop_next_job(h, &job), want);
    IS(job.mark, 0);
    if (h) IS(h->mark == before.mark && h->at == before.at, 1);
}

static void wrong_handles(void) {
    wasmloop_handle none = WASMLOOP_HANDLE_INIT, module = module_of("digest.wasm"), loop = loop_of("digest.wasm"), job = WASMLOOP_HANDLE_INIT;
    wasmloop_about about;
    refuse(&none, WASMLOOP_EMPTY);
    refuse(&module, WASMLOOP_KIND);
    refuse(NULL, WASMLOOP_NULL);
    run_to(&loop, WASMLOOP_RUN_MAIN);
    IS(wasmloop_next_job(&loop, NULL), WASMLOOP_NULL);
    IS(wasmloop_next_job(&loop, &loop), WASMLOOP_KIND);
    IS(wasmloop_next_job(&loop, &module), WASMLOOP_KIND);
    IS(wasmloop_next_job(&loop, &job), WASMLOOP_OK);
    IS(wasmloop_next_job(&loop, &job), WASMLOOP_KIND);
    refuse(&job, WASMLOOP_KIND);
    IS(wasmloop_loop(&job, &usual, &none), WASMLOOP_KIND);
    IS(wasmloop_step(&loop, NULL), WASMLOOP_NULL);
    IS(wasmloop_clock(&loop, 0, NULL), WASMLOOP_NULL);
    IS(wasmloop_hint(&loop, NULL), WASMLOOP_NULL);
    IS(wasmloop_cancel(&loop, 1, NULL), WASMLOOP_NULL);
    IS(wasmloop_standing_of(&loop, NULL), WASMLOOP_NULL);
    IS(wasmloop_emits(&loop, NULL, 1, NULL), WASMLOOP_NULL);
    /* jobs: of another kind, not run, run twice */
    IS(wasmloop_job_run(NULL), WASMLOOP_NULL);
    IS(wasmloop_job_run(&none), WASMLOOP_EMPTY);
    IS(wasmloop_job_run(&loop), WASMLOOP_KIND);
    IS(wasmloop_job_run(&module), WASMLOOP_KIND);
    IS(wasmloop_job_about(NULL, &about), WASMLOOP_NULL);
    IS(wasmloop_job_about(&job, NULL), WASMLOOP_NULL);
    IS(wasmloop_job_about(&none, &about), WASMLOOP_EMPTY);
    IS(wasmloop_job_about(&loop, &about), WASMLOOP_KIND);
    IS(wasmloop_job_about(&job, &about), WASMLOOP_OK);
    IS(about.request, 1);
    IS(about.outcome, WASMLOOP_NOT_RUN);
    IS(wasmloop_accept(&loop, &job), WASMLOOP_KIND);
    IS(wasmloop_accept(&loop, &loop), WASMLOOP_KIND);
    IS(wasmloop_accept(NULL, &job), WASMLOOP_NULL);
    IS(wasmloop_accept(&loop, NULL), WASMLOOP_NULL);
    IS(wasmloop_accept(&none, &job), WASMLOOP_EMPTY);
    IS(wasmloop_accept(&loop, &none), WASMLOOP_EMPTY);
    IS(wasmloop_accept(&module, &job), WASMLOOP_KIND);
    IS(wasmloop_accept(&loop, &module), WASMLOOP_KIND);
    IS(wasmloop_job_run(&job), WASMLOOP_OK);
    IS(wasmloop_job_run(&job), WASMLOOP_KIND);
    IS(wasmloop_job_about(&job, &about), WASMLOOP_OK);
    IS(about.outcome, WASMLOOP_WORK_DONE);
    /* another loop's reply */
    wasmloop_handle other = loop_of("countdown.wasm");
    IS(wasmloop_accept(&other, &job), WASMLOOP_STRANGER);
    IS(wasmloop_drop(&other), WASMLOOP_OK);
    IS(wasmloop_accept(&other, &job), WASMLOOP_EMPTY);
    IS(wasmloop_accept(&loop, &job), WASMLOOP_OK);
    IS(job.mark, 0);
    IS(wasmloop_accept(&loop, &job), WASMLOOP_EMPTY);
    IS(wasmloop_job_run(&job), WASMLOOP_EMPTY);
    /* a cancelled request's reply is a stranger */
    int32_t answer;
    IS(wasmloop_next_job(&loop, &job), WASMLOOP_OK);
    IS(wasmloop_job_about(&job, &about), WASMLOOP_OK);
    IS(wasmloop_cancel(&loop, about.request, &answer), WASMLOOP_OK);
    IS(answer, 0);
    IS(wasmloop_cancel(&loop, about.request, &answer), WASMLOOP_OK);
    IS(answer, -22);
    IS(wasmloop_cancel(&loop, 0, &answer), WASMLOOP_OK);
    IS(answer, -22);
    IS(wasmloop_cancel(&loop, UINT32_MAX, &answer), WASMLOOP_OK);
    IS(answer, -22);
    IS(wasmloop_job_run(&job), WASMLOOP_OK);
    IS(wasmloop_accept(&loop, &job), WASMLOOP_STRANGER);
    /* a job outlives its loop and its module */
    wasmloop_handle last = WASMLOOP_HANDLE_INIT;
    IS(wasmloop_next_job(&loop, &last), WASMLOOP_OK);
    IS(wasmloop_drop(&loop), WASMLOOP_OK);
    IS(wasmloop_drop(&module), WASMLOOP_OK);
    refuse(&loop, WASMLOOP_EMPTY);
    IS(wasmloop_job_run(&last), WASMLOOP_OK);
    IS(wasmloop_drop(&last), WASMLOOP_OK);
    IS(wasmloop_drop(&job), WASMLOOP_OK);
    IS(wasmloop_drop(&job), WASMLOOP_EMPTY);
}

static void emits_and_clocks(void) {
    wasmloop_handle loop = loop_of("chatter.wasm");
    wasmloop_did did = run_to(&loop, WASMLOOP_RUN_MAIN);
    uint32_t count = 0;
    uint64_t moment;
    IS(wasmloop_emits(&loop, NULL, 0, &count), WASMLOOP_OK);
    IS(count, did.emits);
    int64_t *one = malloc(sizeof *one); /* no more is written than there is room for */
    IS(wasmloop_emits(&loop, one, 1, &count), WASMLOOP_OK);
    IS(count, did.emits);
    free(one);
    int64_t all[70];
    memset(all, 0x55, sizeof all);
    IS(wasmloop_emits(&loop, all, 70, &count), WASMLOOP_OK);
    IS(all[count], 0x5555555555555555);
    IS(wasmloop_emits(&loop, all, SIZE_MAX, &count), WASMLOOP_RANGE);
    IS(wasmloop_clock(&loop, 40, &moment), WASMLOOP_OK);
    IS(moment, 40);
    IS(wasmloop_clock(&loop, 39, &moment), WASMLOOP_OK);
    IS(moment, 40);
    IS(wasmloop_clock(&loop, UINT64_MAX, &moment), WASMLOOP_OK);
    IS(moment, UINT64_MAX);
    IS(wasmloop_hint(&loop, &moment), WASMLOOP_OK);
    IS(wasmloop_async_send(&loop, 15), WASMLOOP_OK);
    IS(wasmloop_async_send(&loop, 16), WASMLOOP_RANGE);
    IS(wasmloop_async_send(&loop, UINT32_MAX), WASMLOOP_RANGE);
    /* a handle may be moved */
    wasmloop_handle *moved = malloc(sizeof *moved);
    *moved = loop;
    memset(&loop, 0, sizeof loop);
    IS(wasmloop_step(moved, &did), WASMLOOP_OK);
    IS(wasmloop_drop(moved), WASMLOOP_OK);
    free(moved);
}

/* jobs of one loop in threads of their own, beside the loop */
static void *in_thread(void *job) {
    return (void *)(intptr_t)wasmloop_job_run(job);
}

static void threads(void) {
    wasmloop_handle loop = loop_of("digest.wasm"), jobs[32];
    pthread_t ids[32];
    unsigned count = 0, taken = 0;
    memset(jobs, 0, sizeof jobs);
    run_to(&loop, WASMLOOP_RUN_MAIN);
    while (count < 32 && wasmloop_next_job(&loop, &jobs[count]) == WASMLOOP_OK) {
        IS(pthread_create(&ids[count], NULL, in_thread, &jobs[count]), 0);
        count++;
    }
    IS(count > 1, 1);
    for (unsigned i = 0; i < count; i++) {
        void *told;
        IS(pthread_join(ids[i], &told), 0);
        IS((intptr_t)told, WASMLOOP_OK);
        int answer = wasmloop_accept(&loop, &jobs[i]);
        IS(answer == WASMLOOP_OK || answer == WASMLOOP_STRANGER, 1);
        taken += answer == WASMLOOP_OK;
        wasmloop_drop(&jobs[i]);
    }
    IS(taken > 0, 1);
    IS(run_to(&loop, WASMLOOP_RUN_AFTER).what, WASMLOOP_RAN);
    IS(wasmloop_drop(&loop), WASMLOOP_OK);
}

/* work with no loop, its bytes, and modules that are shared */
static void works(void) {
    wasmloop_handle module = module_of("crc32.wasm"), none = WASMLOOP_HANDLE_INIT, job = WASMLOOP_HANDLE_INIT, other = WASMLOOP_HANDLE_INIT;
    wasmloop_task task = { 1000000, 0, 64 };
    wasmloop_about about;
    wasmloop_shape shape;
    wasmloop_site sites[20];
    uint64_t count = 7;
    static uint8_t word[65537], room[65537];
    for (size_t i = 0; i < sizeof word; i++) word[i] = (uint8_t)(i * 31);
    IS(wasmloop_work(NULL, &task, word, 1, &job), WASMLOOP_NULL);
    IS(wasmloop_work(&module, NULL, word, 1, &job), WASMLOOP_NULL);
    IS(wasmloop_work(&module, &task, NULL, 1, &job), WASMLOOP_NULL);
    IS(wasmloop_work(&module, &task, word, 1, NULL), WASMLOOP_NULL);
    IS(wasmloop_work(&module, &task, word, 1, &module), WASMLOOP_KIND);
    IS(wasmloop_work(&none, &task, word, 1, &job), WASMLOOP_EMPTY);
    IS(wasmloop_work(&module, &task, word, 65537, &job), WASMLOOP_RANGE);
    IS(wasmloop_work(&module, &task, word, SIZE_MAX, &job), WASMLOOP_RANGE);
    task.depth = 0;
    IS(wasmloop_work(&module, &task, word, 1, &job), WASMLOOP_RANGE);
    task.depth = 129;
    IS(wasmloop_work(&module, &task, word, 1, &job), WASMLOOP_RANGE);
    task.depth = 128;
    IS(job.mark, 0);
    IS(wasmloop_job_new(&module, &task, word, 65536, &job), WASMLOOP_OK);
    IS(wasmloop_job_new(&module, &task, word, 1, &job), WASMLOOP_KIND);
    IS(wasmloop_job_new(&job, &task, word, 1, &none), WASMLOOP_KIND);
    IS(wasmloop_job_input(&job, room, sizeof room, &count), WASMLOOP_OK);
    IS(count == 65536 && memcmp(room, word, 65536) == 0 && room[65536] == 0, 1);
    IS(wasmloop_job_input(&job, NULL, 0, &count), WASMLOOP_OK);
    IS(wasmloop_job_input(&job, NULL, 1, &count), WASMLOOP_NULL);
    IS(wasmloop_job_input(&job, room, SIZE_MAX, &count), WASMLOOP_RANGE);
    IS(wasmloop_job_reply(&job, room, 4, &count), WASMLOOP_NONE);
    IS(wasmloop_job_view(&job, &(const uint8_t *){ NULL }, &count), WASMLOOP_NONE);
    IS(wasmloop_job_reply(&module, room, 4, &count), WASMLOOP_KIND);
    IS(wasmloop_job_reply(&none, room, 4, &count), WASMLOOP_EMPTY);
    IS(wasmloop_job_reply(NULL, room, 4, &count), WASMLOOP_NULL);
    IS(wasmloop_job_about(&job, &about), WASMLOOP_OK);
    IS(about.request, 0);
    IS(about.used, 0);
    count = 7;
    IS(wasmloop_stop(&job, sites, 20, &count), WASMLOOP_NONE);
    IS(wasmloop_stop(&module, sites, 20, &count), WASMLOOP_KIND);
    IS(count, 7);
    IS(wasmloop_drop(&job), WASMLOOP_OK);
    /* its CRC-32, as IEEE 802.3 has it */
    IS(wasmloop_work(&module, &task, (const uint8_t *)"123456789", 9, &job), WASMLOOP_OK);
    IS(wasmloop_job_about(&job, &about), WASMLOOP_OK);
    IS(about.outcome, WASMLOOP_WORK_DONE);
    IS(about.value, 0xcbf43926);
    IS(about.used > 9 && about.used < task.fuel, 1);
    IS(wasmloop_stop(&job, sites, 20, &count), WASMLOOP_NONE);
    IS(wasmloop_drop(&job), WASMLOOP_OK);
    task.fuel = 3;
    IS(wasmloop_work(&module, &task, word, 100, &job), WASMLOOP_OK);
    IS(wasmloop_job_about(&job, &about), WASMLOOP_OK);
    IS(about.outcome, WASMLOOP_WORK_SPENT);
    IS(about.used, 3);
    memset(sites, 0x55, sizeof sites);
    IS(wasmloop_stop(&job, sites, 20, &count), WASMLOOP_OK);
    IS(count, 1);
    IS(sites[0].operation > 0 && sites[0].operation < 9 && sites[1].operation == 0x5555555555555555, 1);
    IS(wasmloop_stop(&job, NULL, 0, &count), WASMLOOP_OK);
    IS(count, 1);
    count = 7;
    IS(wasmloop_job_reply(&job, room, 4, &count), WASMLOOP_NONE);
    IS(count, 7);
    IS(wasmloop_drop(&job), WASMLOOP_OK);
    /* a second handle of the module outlives the first */
    IS(wasmloop_share(&module, NULL), WASMLOOP_NULL);
    IS(wasmloop_share(&module, &module), WASMLOOP_KIND);
    IS(wasmloop_share(&none, &other), WASMLOOP_EMPTY);
    IS(wasmloop_share(&module, &other), WASMLOOP_OK);
    IS(wasmloop_share(&module, &other), WASMLOOP_KIND);
    IS(wasmloop_drop(&module), WASMLOOP_OK);
    IS(wasmloop_shape_of(&other, &shape), WASMLOOP_OK);
    IS(shape.work, 1);
    IS(shape.main, 0);
    IS(wasmloop_shape_of(&module, &shape), WASMLOOP_EMPTY);
    IS(wasmloop_shape_of(&other, NULL), WASMLOOP_NULL);
    task.fuel = 1000000;
    IS(wasmloop_work(&other, &task, word, 1, &job), WASMLOOP_OK);
    IS(wasmloop_share(&job, &module), WASMLOOP_KIND);
    IS(wasmloop_shape_of(&job, &shape), WASMLOOP_KIND);
    IS(wasmloop_drop(&job), WASMLOOP_OK);
    IS(wasmloop_drop(&other), WASMLOOP_OK);
    /* the bytes of a reply, as far as there is room */
    module = module_of("sha256.wasm");
    IS(wasmloop_work(&module, &task, (const uint8_t *)"abc", 3, &job), WASMLOOP_OK);
    memset(room, 0x55, sizeof room);
    IS(wasmloop_job_reply(&job, room, 2, &count), WASMLOOP_OK);
    IS(count, 32);
    IS(room[0] == 0xba && room[1] == 0x78 && room[2] == 0x55, 1);
    IS(wasmloop_job_reply(&job, room, sizeof room, &count), WASMLOOP_OK);
    IS(room[31] == 0xad && room[32] == 0x55, 1);
    /* and where they are */
    const uint8_t *at = word;
    IS(wasmloop_job_view(&job, NULL, &count), WASMLOOP_NULL);
    IS(wasmloop_job_view(&job, &at, NULL), WASMLOOP_NULL);
    IS(wasmloop_job_view(&none, &at, &count), WASMLOOP_EMPTY);
    IS(wasmloop_job_view(&module, &at, &count), WASMLOOP_KIND);
    IS(at == word, 1);
    IS(wasmloop_job_view(&job, &at, &count), WASMLOOP_OK);
    IS(count == 32 && memcmp(at, room, 32) == 0, 1);
    IS(wasmloop_drop(&job), WASMLOOP_OK);
    IS(wasmloop_drop(&module), WASMLOOP_OK);
    module = module_of("countdown.wasm");
    IS(wasmloop_work(&module, &task, word, 1, &job), WASMLOOP_NO_WORK);
    IS(wasmloop_shape_of(&module, &shape), WASMLOOP_OK);
    IS(shape.main == 1 && shape.work == 0 && shape.table == 1 && shape.pages <= shape.most_pages && shape.most_pages <= 64, 1);
    IS(wasmloop_drop(&module), WASMLOOP_OK);
}

/* what modules lack, in the words of check */
static void warns(void) {
    /* a module that imports timer_start and queue_work and has nothing else */
    static const uint8_t lacking[] = { 0, 97, 115, 109, 1, 0, 0, 0, 1, 16, 2, 96, 4, 127, 127, 126, 126, 1, 127, 96, 3, 127, 127, 127, 1, 127,
        2, 34, 2, 2, 117, 118, 11, 116, 105, 109, 101, 114, 95, 115, 116, 97, 114, 116, 0, 0, 2, 117, 118, 10, 113, 117, 101, 117, 101, 95, 119, 111,
        114, 107, 0, 1 };
    static const char *const wanted[] = { "imports timer_start but has no table", "exports none of uv_main", "exports neither uv_work nor uv_after_work" };
    wasmloop_handle module = WASMLOOP_HANDLE_INIT, none = WASMLOOP_HANDLE_INIT, loop = loop_of("countdown.wasm");
    wasmloop_fault fault;
    uint64_t count = 7;
    char text[300];
    IS(wasmloop_load(lacking, sizeof lacking, &module, &fault), WASMLOOP_OK);
    for (uint32_t number = 0; number < 3; number++) {
        memset(text, 0, sizeof text);
        IS(wasmloop_warning(&module, number, text, sizeof text - 1, &count), WASMLOOP_OK);
        IS(count == strlen(text) && strstr(text, wanted[number]) != NULL, 1);
    }
    IS(wasmloop_warning(&module, 3, text, sizeof text, &count), WASMLOOP_NONE);
    IS(wasmloop_warning(&module, UINT32_MAX, text, sizeof text, &count), WASMLOOP_NONE);
    memset(text, 'x', sizeof text);
    IS(wasmloop_warning(&module, 0, text, 3, &count), WASMLOOP_OK);
    IS(count > 3 && memcmp(text, "thex", 4) == 0, 1);
    IS(wasmloop_warning(&module, 0, NULL, 0, &count), WASMLOOP_OK);
    count = 7;
    IS(wasmloop_warning(NULL, 0, text, 3, &count), WASMLOOP_NULL);
    IS(wasmloop_warning(&module, 0, NULL, 3, &count), WASMLOOP_NULL);
    IS(wasmloop_warning(&module, 0, text, 3, NULL), WASMLOOP_NULL);
    IS(wasmloop_warning(&none, 0, text, SIZE_MAX, &count), WASMLOOP_RANGE);
    IS(wasmloop_warning(&none, 0, text, 3, &count), WASMLOOP_EMPTY);
    IS(wasmloop_warning(&loop, 0, text, 3, &count), WASMLOOP_KIND);
    IS(count == 7 && memcmp(text, "thex", 4) == 0, 1);
    IS(wasmloop_drop(&module), WASMLOOP_OK);
    module = module_of("crc32.wasm");
    IS(wasmloop_warning(&module, 0, text, sizeof text, &count), WASMLOOP_NONE);
    IS(wasmloop_drop(&module), WASMLOOP_OK);
    IS(wasmloop_drop(&loop), WASMLOOP_OK);
}

/* requests of the loop's owner: what they answer, and where they come out */
static void requests(void) {
    wasmloop_handle loop = loop_of("digest.wasm"), module = module_of("digest.wasm"), none = WASMLOOP_HANDLE_INIT, job = WASMLOOP_HANDLE_INIT;
    static const uint8_t word[65537];
    const uint8_t *abc = (const uint8_t *)"abc";
    wasmloop_standing standing;
    wasmloop_about about;
    int32_t answer = 7;
    int64_t emits[4];
    uint32_t count;
    IS(wasmloop_request(NULL, 0, abc, 3, &answer), WASMLOOP_NULL);
    IS(wasmloop_request(&loop, 0, NULL, 3, &answer), WASMLOOP_NULL);
    IS(wasmloop_request(&loop, 0, abc, 3, NULL), WASMLOOP_NULL);
    IS(wasmloop_request(&none, 0, abc, SIZE_MAX, &answer), WASMLOOP_RANGE);
    IS(wasmloop_request(&none, 0, abc, 3, &answer), WASMLOOP_EMPTY);
    IS(wasmloop_request(&module, 0, abc, 3, &answer), WASMLOOP_KIND);
    IS(answer, 7);
    IS(wasmloop_drop(&module), WASMLOOP_OK);
    /* before the first step; the guest's own four come behind */
    IS(wasmloop_request(&loop, 0, abc, 3, &answer), WASMLOOP_OK);
    IS(answer, 1);
    IS(wasmloop_request(&loop, 0, word, 65537, &answer), WASMLOOP_OK);
    IS(answer, -22);
    IS(wasmloop_request(&loop, UINT32_MAX, word, 65536, &answer), WASMLOOP_OK);
    IS(answer, 2);
    IS(wasmloop_request(&loop, 5, NULL, 0, &answer), WASMLOOP_OK);
    IS(answer, 3);
    run_to(&loop, WASMLOOP_RUN_MAIN);
    for (int number = 8; number < 33; number++) {
        IS(wasmloop_request(&loop, 0, abc, 3, &answer), WASMLOOP_OK);
        IS(answer, number);
    }
    IS(wasmloop_request(&loop, 0, abc, 3, &answer), WASMLOOP_OK);
    IS(answer, -11);
    IS(wasmloop_standing_of(&loop, &standing), WASMLOOP_OK);
    IS(standing.alive == 1 && standing.outstanding == 32, 1);
    IS(wasmloop_cancel(&loop, 2, &answer), WASMLOOP_OK);
    IS(answer, 0);
    /* each is handed out once, as it was made, and its callback is given its number once */
    IS(wasmloop_next_job(&loop, &job), WASMLOOP_OK);
    IS(wasmloop_job_about(&job, &about), WASMLOOP_OK);
    IS(about.request == 1 && about.op == 0 && about.bytes == 3, 1);
    IS(wasmloop_job_run(&job), WASMLOOP_OK);
    IS(wasmloop_accept(&loop, &job), WASMLOOP_OK);
    for (uint32_t number = 3; number < 33; number++) {
        if (number == 6) continue; /* the guest has cancelled it */
        IS(wasmloop_next_job(&loop, &job), WASMLOOP_OK);
        IS(wasmloop_job_about(&job, &about), WASMLOOP_OK);
        IS(about.request == number && about.op == (number == 3 ? 5 : 0), 1);
        IS(wasmloop_drop(&job), WASMLOOP_OK);
    }
    IS(wasmloop_next_job(&loop, &job), WASMLOOP_NONE);
    wasmloop_did did = run_to(&loop, WASMLOOP_RUN_AFTER);
    IS(did.kind == WASMLOOP_RUN_AFTER && did.number == 1, 1);
    IS(wasmloop_emits(&loop, emits, 4, &count), WASMLOOP_OK);
    IS(count == 4 && emits[0] == 1 && emits[1] == 0 && (uint32_t)emits[2] == 0xba7816bf && (uint32_t)emits[3] == 0x8f01cfea, 1);
    IS(run_to(&loop, WASMLOOP_RUN_AFTER).number, 2);
    IS(run_to(&loop, WASMLOOP_RUN_AFTER).number, 6);
    IS(wasmloop_drop(&loop), WASMLOOP_OK);
    IS(wasmloop_request(&loop, 0, abc, 3, &answer), WASMLOOP_EMPTY);
    /* a module that exports neither function, and a loop that is over */
    loop = loop_of("countdown.wasm");
    IS(wasmloop_request(&loop, 0, abc, 3, &answer), WASMLOOP_OK);
    IS(answer, -38);
    IS(run_to(&loop, 99).what, WASMLOOP_OVER);
    IS(wasmloop_request(&loop, 0, abc, 3, &answer), WASMLOOP_OK);
    IS(answer, -1);
    IS(wasmloop_drop(&loop), WASMLOOP_OK);
    /* and one that has failed */
    loop = loop_of("endless.wasm");
    IS(run_to(&loop, 99).what, WASMLOOP_FAILED);
    IS(wasmloop_request(&loop, 0, abc, 3, &answer), WASMLOOP_OK);
    IS(answer, -1);
    IS(wasmloop_drop(&loop), WASMLOOP_OK);
}

/* turns: each ends where the timers phase is entered, or before it where a callback puts out values */
static void turns(void) {
    wasmloop_handle loop = loop_of("countdown.wasm"), none = WASMLOOP_HANDLE_INIT;
    wasmloop_turned turned = { .wait = 9 };
    uint32_t turns = 0, ran = 0;
    uint64_t now = 0;
    IS(wasmloop_turn(NULL, 1, &turned), WASMLOOP_NULL);
    IS(wasmloop_turn(&loop, 1, NULL), WASMLOOP_NULL);
    IS(wasmloop_turn(&loop, 0, &turned), WASMLOOP_RANGE);
    IS(wasmloop_turn(&none, 0, &turned), WASMLOOP_RANGE);
    IS(wasmloop_turn(&none, 1, &turned), WASMLOOP_EMPTY);
    IS(turned.wait == 9 && turned.did.what == 0, 1);
    for (int i = 0; i < 1000 && turned.did.what != WASMLOOP_OVER; i++) {
        IS(wasmloop_turn(&loop, 100, &turned), WASMLOOP_OK);
        ran += turned.did.what == WASMLOOP_RAN;
        if (turned.did.what == WASMLOOP_RAN) IS(turned.did.emits > 0 && turned.wait == 0 && turned.callbacks > 0, 1);
        if (turned.did.what != WASMLOOP_ENTERED) continue;
        turns++;
        IS(turned.did.phase, WASMLOOP_TIMERS);
        IS(turned.callbacks == 0 || turned.wait == 0, 1);
        if (turned.wait && turned.wait != WASMLOOP_FOREVER) IS(wasmloop_clock(&loop, now += turned.wait, &now), WASMLOOP_OK);
    }
    IS(turned.did.what, WASMLOOP_OVER);
    IS(turns > 1 && ran > 1, 1);
    IS(wasmloop_drop(&loop), WASMLOOP_OK);
    /* one callback at a time */
    loop = loop_of("digest.wasm");
    memset(&turned, 0, sizeof turned);
    IS(wasmloop_turn(&loop, 1, &turned), WASMLOOP_OK);
    IS(turned.did.what == WASMLOOP_RAN && turned.callbacks == 1, 1);
    IS(wasmloop_drop(&loop), WASMLOOP_OK);
}

/* where several statuses hold */
static void orders(void) {
    wasmloop_handle module = module_of("crc32.wasm"), none = WASMLOOP_HANDLE_INIT, loop = loop_of("digest.wasm");
    wasmloop_limits no_depth = { 1, 1, 0, 0 };
    wasmloop_call_limits no_calls = { 1, 0, 0 };
    wasmloop_task task = { 1, 0, 0 };
    wasmloop_ended ended;
    wasmloop_did did;
    wasmloop_turned turned;
    uint32_t count;
    wasmloop_handle copy = module;
    IS(wasmloop_loop(&module, NULL, &module), WASMLOOP_NULL);
    IS(wasmloop_job_new(&none, &task, bytes, SIZE_MAX, &none), WASMLOOP_KIND);
    IS(wasmloop_job_new(&none, &task, bytes, SIZE_MAX, &loop), WASMLOOP_RANGE);
    IS(wasmloop_async_send(&none, 16), WASMLOOP_RANGE);
    IS(wasmloop_stop(&none, NULL, SIZE_MAX, NULL), WASMLOOP_NULL);
    IS(wasmloop_loop(&none, &no_depth, &loop), WASMLOOP_KIND);
    IS(wasmloop_job_new(&none, &task, bytes, 1, &loop), WASMLOOP_KIND);
    IS(wasmloop_instance(&none, &no_calls, &loop, &ended), WASMLOOP_KIND);
    wasmloop_handle into = WASMLOOP_HANDLE_INIT;
    IS(wasmloop_loop(&none, &no_depth, &into), WASMLOOP_RANGE);
    IS(wasmloop_job_new(&none, &task, bytes, 1, &into), WASMLOOP_RANGE);
    IS(wasmloop_instance(&loop, &no_calls, &into, &ended), WASMLOOP_RANGE);
    IS(wasmloop_call(&none, "uv_work", NULL, 0, &no_calls, &ended), WASMLOOP_RANGE);
    IS(wasmloop_call_begin(&none, "uv_work", NULL, 0, &no_calls), WASMLOOP_RANGE);
    IS(wasmloop_call_run_for(&none, 0, &count, &ended), WASMLOOP_RANGE);
    IS(wasmloop_call_run_for(&none, 0, NULL, &ended), WASMLOOP_NULL);
    IS(wasmloop_call_for(&none, 0, NULL, 0, &no_calls, 1, &count, &ended), WASMLOOP_RANGE);
    IS(wasmloop_call_for(&none, 0, NULL, 1, &no_calls, 0, &count, &ended), WASMLOOP_NULL);
    IS(wasmloop_step_for(&none, 0, &count, &did), WASMLOOP_RANGE);
    IS(wasmloop_step_for(&none, 0, NULL, &did), WASMLOOP_NULL);
    IS(wasmloop_turn_for(&none, 1, 0, &count, &turned), WASMLOOP_RANGE);
    IS(wasmloop_turn_for(&none, 0, 1, NULL, &turned), WASMLOOP_NULL);
    IS(wasmloop_accept(&module, &none), WASMLOOP_EMPTY);
    IS(wasmloop_accept(&none, &module), WASMLOOP_EMPTY);
    IS(wasmloop_job_start(&module, &none), WASMLOOP_EMPTY);
    IS(memcmp(&copy, &module, sizeof copy) == 0 && into.mark == 0 && none.mark == 0, 1);
    IS(wasmloop_drop(&module), WASMLOOP_OK);
    IS(wasmloop_drop(&loop), WASMLOOP_OK);
}

/* a first slice, the end of a call and exports, where there is no such thing: nothing is written */
static void no_calls(void) {
    static const wasmloop_call_limits limits = { 1000000, 64, 0 }, flat = { 1000000, 0, 0 };
    wasmloop_handle module = module_of("crc32.wasm"), none = WASMLOOP_HANDLE_INIT, it = WASMLOOP_HANDLE_INIT, loop = loop_of("digest.wasm");
    wasmloop_ended ended, blank;
    wasmloop_listed listed = { 7, 7, 7 };
    wasmloop_type type;
    uint64_t args[9] = { 0 }, number = 7, memory = 7;
    uint32_t over = 7;
    char name[8] = "xxxxxxx";
    IS(wasmloop_instance(&module, &limits, &it, &ended), WASMLOOP_OK);
    IS(wasmloop_export_number(&module, "uv_work", &number), WASMLOOP_OK);
    for (uint64_t k = 0; wasmloop_export_at(&module, k, NULL, 0, &listed, &type) == WASMLOOP_OK; k++)
        if (listed.kind == 2) memory = k;
    IS(memory != 7, 1);
    memset(&ended, 0xab, sizeof ended);
    blank = ended;
    wasmloop_handle *const others[] = { &none, &module, &loop };
    for (int k = 0; k < 3; k++) {
        int want = k ? WASMLOOP_KIND : WASMLOOP_EMPTY;
        IS(wasmloop_call_for(others[k], number, args, 1, &limits, 1, &over, &ended), want);
        IS(wasmloop_call_end(others[k], &ended), want);
    }
    IS(wasmloop_export_at(&none, 0, name, 1, &listed, &type), WASMLOOP_EMPTY);
    IS(wasmloop_export_at(&it, 0, name, 1, &listed, &type), WASMLOOP_KIND);
    IS(wasmloop_export_at(&module, UINT64_MAX, name, 1, &listed, &type), WASMLOOP_NONE);
    IS(name[0], 'x');
    IS(wasmloop_call_end(&it, &ended), WASMLOOP_KIND);
    const struct { uint64_t number; size_t count; uint64_t first; int want; } wrong[] = {
        { UINT64_MAX, 1, 0, WASMLOOP_NONE }, { memory, 1, 0, WASMLOOP_NONE }, { number, 0, 0, WASMLOOP_ARGUMENTS }, { number, 9, 0, WASMLOOP_ARGUMENTS },
        { number, 1, UINT64_C(1) << 32, WASMLOOP_ARGUMENTS },
    };
    for (size_t k = 0; k < sizeof wrong / sizeof *wrong; k++) {
        args[0] = wrong[k].first;
        IS(wasmloop_call_for(&it, wrong[k].number, args, wrong[k].count, &limits, 1, &over, &ended), wrong[k].want);
    }
    args[0] = 0;
    IS(wasmloop_call_for(&it, number, args, 1, &limits, 0, &over, &ended), WASMLOOP_RANGE);
    IS(wasmloop_call_for(&it, number, args, 1, &flat, 1, &over, &ended), WASMLOOP_RANGE);
    IS(over == 7 && memcmp(&ended, &blank, sizeof ended) == 0, 1);
    /* while a call is in progress */
    IS(wasmloop_call_for(&it, number, args, 1, &limits, 1, &over, &ended), WASMLOOP_OK);
    IS(over, 0);
    IS(memcmp(&ended, &blank, sizeof ended), 0);
    IS(wasmloop_call_for(&it, number, args, 1, &limits, 1, &over, &ended), WASMLOOP_KIND);
    IS(wasmloop_call_end(&it, &ended), WASMLOOP_OK);
    IS(ended.ending == WASMLOOP_SPENT && ended.used == 1 && ended.results == 0, 1);
    IS(wasmloop_drop(&it), WASMLOOP_OK);
    IS(wasmloop_drop(&loop), WASMLOOP_OK);
    IS(wasmloop_drop(&module), WASMLOOP_OK);
}

/* where a failed loop stopped */
static void stops(void) {
    wasmloop_handle module = module_of("countdown.wasm"), loop = WASMLOOP_HANDLE_INIT;
    wasmloop_limits few = usual;
    wasmloop_site sites[4];
    uint64_t count = 7;
    /* three units reach the fourth operation; functions are counted without the four imports */
    few.fuel = 3;
    IS(wasmloop_loop(&module, &few, &loop), WASMLOOP_OK);
    IS(wasmloop_drop(&module), WASMLOOP_OK);
    run_to(&loop, 99);
    memset(sites, 0x55, sizeof sites);
    IS(wasmloop_stop(&loop, sites, 4, &count), WASMLOOP_OK);
    IS(count, 1);
    IS(sites[0].function, 2);
    IS(sites[0].operation, 3);
    IS(sites[1].function == 0x5555555555555555, 1);
    IS(wasmloop_drop(&loop), WASMLOOP_OK);
    loop = loop_of("endless.wasm");
    run_to(&loop, 99);
    memset(sites, 0x55, sizeof sites);
    IS(wasmloop_stop(&loop, sites, 4, &count), WASMLOOP_OK);
    IS(count, usual.depth);
    for (int i = 0; i < 4; i++) IS(sites[i].function == 0 && sites[i].operation == 0, 1);
    IS(wasmloop_stop(&loop, NULL, 4, &count), WASMLOOP_NULL);
    IS(wasmloop_stop(&loop, sites, SIZE_MAX, &count), WASMLOOP_RANGE);
    IS(wasmloop_drop(&loop), WASMLOOP_OK);
    IS(wasmloop_stop(&loop, sites, 4, &count), WASMLOOP_EMPTY);
}

/* the same with the byte of each instruction */
static void stop_places(void) {
    wasmloop_handle loop = loop_of("endless.wasm"), none = WASMLOOP_HANDLE_INIT, module = module_of("endless.wasm");
    wasmloop_shape shape;
    wasmloop_place places[4];
    uint64_t count = 7;
    size_t length = read_file("endless.wasm");
    IS(wasmloop_shape_of(&module, &shape), WASMLOOP_OK);
    IS(wasmloop_stop_places(&loop, places, 4, &count), WASMLOOP_NONE);
    IS(wasmloop_stop_places(NULL, places, 4, &count), WASMLOOP_NULL);
    IS(wasmloop_stop_places(&loop, NULL, 4, &count), WASMLOOP_NULL);
    IS(wasmloop_stop_places(&loop, places, 4, NULL), WASMLOOP_NULL);
    IS(wasmloop_stop_places(&none, places, SIZE_MAX, &count), WASMLOOP_RANGE);
    IS(wasmloop_stop_places(&none, places, 4, &count), WASMLOOP_EMPTY);
    IS(wasmloop_stop_places(&module, places, 4, &count), WASMLOOP_KIND);
    IS(count, 7);
    run_to(&loop, 99);
    memset(places, 0x55, sizeof places);
    IS(wasmloop_stop_places(&loop, places, 3, &count), WASMLOOP_OK);
    IS(count, usual.depth);
    for (int i = 0; i < 3; i++) IS(places[i].function == shape.imports && places[i].instruction == 0 && places[i].byte < length, 1);
    IS(places[0].byte == places[2].byte && places[3].function == 0x5555555555555555, 1);
    IS(wasmloop_stop_places(&loop, NULL, 0, &count), WASMLOOP_OK);
    IS(wasmloop_drop(&loop), WASMLOOP_OK);
    IS(wasmloop_drop(&module), WASMLOOP_OK);
}

/* the memory and the globals of a loop: before its first step, and after it has failed */
static void inspects(void) {
    static uint8_t memories[2][64 << 16];
    static const wasmloop_call_limits limits = { 1000000, 64, 0 };
    wasmloop_handle module = module_of("digest.wasm"), loop = WASMLOOP_HANDLE_INIT, instance = WASMLOOP_HANDLE_INIT, none = WASMLOOP_HANDLE_INIT;
    wasmloop_limits few = usual;
    wasmloop_ended ended;
    wasmloop_number value;
    wasmloop_standing standing;
    uint64_t size = 7, fresh = 8;
    few.fuel = 20;
    IS(wasmloop_loop(&module, &few, &loop), WASMLOOP_OK);
    IS(wasmloop_instance(&module, &limits, &instance, &ended), WASMLOOP_OK);
    IS(wasmloop_size(&none, &size), WASMLOOP_EMPTY);
    IS(wasmloop_size(&module, &size), WASMLOOP_KIND);
    IS(wasmloop_read(&module, 0, memories[0], 1), WASMLOOP_KIND);
    IS(wasmloop_global(&module, "memory", &value), WASMLOOP_KIND);
    IS(size, 7);
    IS(wasmloop_size(&instance, &fresh), WASMLOOP_OK);
    for (int turn = 0; turn < 2; turn++) {
        IS(wasmloop_size(&loop, &size), WASMLOOP_OK);
        IS(size >= fresh && size <= sizeof memories[0], 1);
        IS(wasmloop_read(&loop, 0, memories[0], size), WASMLOOP_OK);
        IS(wasmloop_read(&loop, 1, memories[1], size), WASMLOOP_RANGE);
        IS(wasmloop_read(&loop, (uint32_t)size, NULL, 0), WASMLOOP_OK);
        IS(wasmloop_read(&loop, (uint32_t)size, memories[1], 1), WASMLOOP_RANGE);
        IS(wasmloop_write(&loop, 0, memories[0], 1), WASMLOOP_KIND);
        IS(wasmloop_global(&loop, "memory", &value), WASMLOOP_NONE);
        if (turn) break;
        IS(wasmloop_read(&instance, 0, memories[1], size), WASMLOOP_OK);
        IS(memcmp(memories[0], memories[1], size), 0);
        IS(run_to(&loop, 99).what, WASMLOOP_FAILED);
        IS(wasmloop_standing_of(&loop, &standing), WASMLOOP_OK);
        IS(standing.failed, 1);
    }
    IS(wasmloop_drop(&loop), WASMLOOP_OK);
    IS(wasmloop_drop(&instance), WASMLOOP_OK);
    IS(wasmloop_drop(&module), WASMLOOP_OK);
}

/* where it stopped, in words */
static void stops_told(void) {
    wasmloop_handle loop = loop_of("endless.wasm"), none = WASMLOOP_HANDLE_INIT, module = module_of("crc32.wasm"), job = WASMLOOP_HANDLE_INIT;
    wasmloop_task task = { 3, 0, 64 };
    uint64_t count = 7, room = 0;
    char text[2000] = "";
    size_t length = read_file("endless.wasm");
    IS(wasmloop_stop_told(bytes, length, &loop, text, sizeof text, &count), WASMLOOP_NONE);
    run_to(&loop, 99);
    IS(wasmloop_stop_told(bytes, length, &loop, text, sizeof text - 1, &room), WASMLOOP_OK);
    IS(room == strlen(text) && strncmp(text, "in function ", 12) == 0 && strstr(text, "instruction 0 (") && strstr(text, "; called by function "), 1);
    IS(strstr(text, "; and 47 more") != NULL, 1);
    memset(text, 'x', sizeof text);
    IS(wasmloop_stop_told(bytes, length, &loop, text, 2, &count), WASMLOOP_OK);
    IS(count == room && memcmp(text, "inx", 3) == 0, 1);
    IS(wasmloop_stop_told(bytes, length, &loop, NULL, 0, &count), WASMLOOP_OK);
    count = 7;
    IS(wasmloop_stop_told(NULL, 1, &loop, text, 2, &count), WASMLOOP_NULL);
    IS(wasmloop_stop_told(bytes, length, NULL, text, 2, &count), WASMLOOP_NULL);
    IS(wasmloop_stop_told(bytes, length, &loop, NULL, 2, &count), WASMLOOP_NULL);
    IS(wasmloop_stop_told(bytes, length, &loop, text, 2, NULL), WASMLOOP_NULL);
    IS(wasmloop_stop_told(bytes, SIZE_MAX, &none, text, 2, &count), WASMLOOP_RANGE);
    IS(wasmloop_stop_told(bytes, length, &none, text, SIZE_MAX, &count), WASMLOOP_RANGE);
    IS(wasmloop_stop_told(bytes, length, &none, text, 2, &count), WASMLOOP_EMPTY);
    IS(wasmloop_stop_told(bytes, length, &module, text, 2, &count), WASMLOOP_KIND);
    /* another module's bytes */
    IS(wasmloop_stop_told(bytes, length - 1, &loop, text, 2, &count), WASMLOOP_REFUSED);
    IS(count == 7 && memcmp(text, "inx", 3) == 0, 1);
    /* those that the module keeps */
    IS(wasmloop_stop_told(NULL, 0, &loop, text, 2, &count), WASMLOOP_OK);
    IS(count == room && memcmp(text, "inx", 3) == 0, 1);
    IS(wasmloop_drop(&loop), WASMLOOP_OK);
    /* a job: not run, stopped, and returned */
    IS(wasmloop_job_new(&module, &task, NULL, 0, &job), WASMLOOP_OK);
    length = read_file("crc32.wasm");
    IS(wasmloop_stop_told(bytes, length, &job, text, sizeof text, &count), WASMLOOP_NONE);
    IS(wasmloop_job_run(&job), WASMLOOP_OK);
    memset(text, 0, sizeof text);
    IS(wasmloop_stop_told(bytes, length, &job, text, sizeof text, &count), WASMLOOP_OK);
    IS(count == strlen(text) && strncmp(text, "in function ", 12) == 0 && strstr(text, " at byte "), 1);
    IS(wasmloop_drop(&job), WASMLOOP_OK);
    task.fuel = 1000000;
    IS(wasmloop_work(&module, &task, NULL, 0, &job), WASMLOOP_OK);
    IS(wasmloop_stop_told(bytes, length, &job, text, sizeof text, &count), WASMLOOP_NONE);
    IS(wasmloop_drop(&job), WASMLOOP_OK);
    IS(wasmloop_drop(&module), WASMLOOP_OK);
}

/* a job's start is told to its loop; sentences and names */
static void tells(void) {
    wasmloop_handle loop = loop_of("digest.wasm"), job = WASMLOOP_HANDLE_INIT, none = WASMLOOP_HANDLE_INIT;
    wasmloop_about about;
    wasmloop_site sites[4];
    uint64_t count = 7;
    int32_t answer;
    char text[200];
    run_to(&loop, WASMLOOP_RUN_MAIN);
    IS(wasmloop_stop(&loop, sites, 4, &count), WASMLOOP_NONE);
    IS(wasmloop_next_job(&loop, &job), WASMLOOP_OK);
    IS(wasmloop_job_start(&loop, NULL), WASMLOOP_NULL);
    IS(wasmloop_job_start(&loop, &loop), WASMLOOP_KIND);
    IS(wasmloop_job_start(&loop, &none), WASMLOOP_EMPTY);
    IS(wasmloop_job_start(&none, &job), WASMLOOP_EMPTY);
    /* a loop of another number doesn't take the request's number for one of its own */
    wasmloop_handle module = module_of("digest.wasm"), other = WASMLOOP_HANDLE_INIT;
    wasmloop_limits second = usual;
    second.number = 1;
    IS(wasmloop_loop(&module, &second, &other), WASMLOOP_OK);
    IS(wasmloop_drop(&module), WASMLOOP_OK);
    run_to(&other, WASMLOOP_RUN_MAIN);
    IS(wasmloop_job_start(&other, &job), WASMLOOP_STRANGER);
    IS(wasmloop_cancel(&other, 1, &answer), WASMLOOP_OK);
    IS(answer, 0);
    IS(wasmloop_drop(&other), WASMLOOP_OK);
    IS(wasmloop_job_start(&loop, &job), WASMLOOP_OK);
    IS(wasmloop_job_start(&loop, &job), WASMLOOP_STRANGER);
    IS(wasmloop_job_about(&job, &about), WASMLOOP_OK);
    IS(wasmloop_cancel(&loop, about.request, &answer), WASMLOOP_OK);
    IS(answer, -16);
    IS(wasmloop_job_run(&job), WASMLOOP_OK);
    IS(wasmloop_job_start(&loop, &job), WASMLOOP_KIND);
    IS(wasmloop_accept(&loop, &job), WASMLOOP_OK);
    IS(wasmloop_next_job(&loop, &job), WASMLOOP_OK);
    IS(wasmloop_job_about(&job, &about), WASMLOOP_OK);
    IS(wasmloop_cancel(&loop, about.request, &answer), WASMLOOP_OK);
    IS(answer, 0);
    IS(wasmloop_job_start(&loop, &job), WASMLOOP_STRANGER);
    IS(wasmloop_drop(&job), WASMLOOP_OK);
    IS(wasmloop_drop(&loop), WASMLOOP_OK);
    IS(wasmloop_explain((const uint8_t *)"asm", 3, text, sizeof text, &count), WASMLOOP_OK);
    IS(count > 10 && count < sizeof text && memcmp(text, "byte ", 5) == 0, 1);
    memset(text, 'x', sizeof text);
    IS(wasmloop_explain((const uint8_t *)"asm", 3, text, 2, &count), WASMLOOP_OK);
    IS(text[1] == 'y' && text[2] == 'x', 1);
    IS(wasmloop_explain(bytes, read_file("endless.wasm"), text, sizeof text, &count), WASMLOOP_NONE);
    IS(wasmloop_explain(NULL, 1, text, 2, &count), WASMLOOP_NULL);
    IS(wasmloop_explain(bytes, 1, text, SIZE_MAX, &count), WASMLOOP_RANGE);
    IS(strcmp(wasmloop_status_name(WASMLOOP_NO_WORK), "NO_WORK"), 0);
    IS(wasmloop_status_name(13) == NULL && wasmloop_status_name(-1) == NULL, 1);
    IS(strcmp(wasmloop_trap_name(7), "a function of another type"), 0);
    IS(wasmloop_trap_name(8) == NULL && wasmloop_trap_name(0) == NULL, 1);
    IS(strcmp(wasmloop_fault_name(1, 12), "Limit"), 0);
    IS(strcmp(wasmloop_fault_name(2, 11), "Nesting"), 0);
    IS(strcmp(wasmloop_fault_name(3, 5), "Segments"), 0);
    IS(wasmloop_fault_name(3, 6) == NULL && wasmloop_fault_name(4, 1) == NULL, 1);
    IS(strcmp(wasmloop_outcome_name(WASMLOOP_WORK_MEMORY), "nomemory"), 0);
    IS(strcmp(wasmloop_ending_name(WASMLOOP_SPENT), "spent"), 0);
}

int main(int argc, char **argv) {
    folder = argc > 1 ? argv[1] : "examples";
    loads();
    loops();
    wrong_handles();
    emits_and_clocks();
    threads();
    works();
    stops();
    stop_places();
    inspects();
    stops_told();
    tells();
    warns();
    requests();
    turns();
    orders();
    no_calls();
    return all_hold();
}
