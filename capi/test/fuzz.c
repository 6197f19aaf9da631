/* Random sequences of all calls of wasmloop.h on ten handles, beside a model of what each handle has, which foretells each status. What
 * is handed to a call is checked behind its end; a call that doesn't answer OK must leave handles and results as they were. Of every eighth
 * call some allocations may be refused (malloc and realloc are wrapped by the linker), and MEMORY is answered only then.
 *
 * usage: fuzz SEED SEQUENCES FILE..      FILE: modules. Ends with 1 where something is not as foretold. */
#include <stdio.h>
#include <stdlib.h>
#include <string.h>
#include "wasmloop.h"

enum { SLOTS = 10, STEPS = 200, FILES = 64, GUARD = 0xa5, NAMES = 13 };
/* PAUSED: a job between two slices; CALLING: an instance, between two of a call; STEPPING: a loop, between two of a callback */
enum { NOTHING, MODULE, LOOP, JOB, PAUSED, INSTANCE, CALLING, STEPPING };

typedef struct slot {
    wasmloop_handle handle;
    int kind, has_run;
    unsigned long loop, id; /* a job's loop, by the slot's id, or 0 */
    uint32_t number;        /* the number of a loop, or of a job's loop */
    int file;               /* of which it was loaded, or -1 */
    uint64_t used, fuel;    /* of a paused job or call, or at most of a paused callback; and of such a call, or of a loop's callbacks */
    uint32_t counted;       /* the callbacks that turns of a loop have run in its iteration */
} slot;

typedef struct file {
    uint8_t *bytes;
    size_t length;
    int is_module;
    wasmloop_shape shape;
} file;

static slot slots[SLOTS];
static file files[FILES];
static int file_count;
static unsigned long ids, calls, pauses, paused_calls, paused_steps, given, answered[16], wrong;
static uint64_t state;
static const char *const names[NAMES] = { "uv_work", "uv_main", "uv_after_work", "memory", "add", "put", "get", "divide", "spin", "deep", "grow", "count", "" };

static uint32_t draw(void) {
    state ^= state << 13, state ^= state >> 7, state ^= state << 17;
    return (uint32_t)(state >> 16);
}
static uint32_t below(uint32_t n) { return draw() % n; }

/* Refused memory. */

void *__real_malloc(size_t size);
void *__real_realloc(void *block, size_t size);
static long left = -1;
static int refused;

static int is_out(void) {
    if (left < 0) return 0;
    if (left > 0) { left--; return 0; }
    return refused = 1;
}
void *__wrap_malloc(size_t size) { return is_out() ? NULL : __real_malloc(size); }
void *__wrap_realloc(void *block, size_t size) { return is_out() ? NULL : __real_realloc(block, size); }

static void begin(void) {
    refused = 0;
    left = below(8) ? -1 : (long)below(16);
}
static int ended(int status) {
    left = -1;
    calls++;
    if (status >= 0 && status < 16) answered[status]++;
    return status;
}
#define CALL(call) (begin(), ended(call))

/* What is wrong. */

static void fail(const char *what, long got, long wanted) {
    if (wrong++ < 20) printf("fuzz: %s: %ld, not %ld (call %lu)\n", what, got, wanted, calls);
}
static void is(const char *what, long got, long wanted) {
    if (got != wanted) fail(what, got, wanted);
}
/* MEMORY is right where memory was refused. */
static int told(const char *what, int got, int wanted) {
    if (got != wanted && !(got == WASMLOOP_MEMORY && refused)) fail(what, got, wanted);
    return got == WASMLOOP_OK;
}
static int told_one(const char *what, int got, int wanted, int other) { return told(what, got, got == other ? other : wanted); }
static void untouched(const char *what, const void *from, size_t length) {
    for (size_t i = 0; i < length; i++)
        if (((const uint8_t *)from)[i] != GUARD) { fail(what, ((const uint8_t *)from)[i], GUARD); return; }
}
static void *room_for(size_t length) {
    uint8_t *room = malloc(length + 16);
    if (!room) exit(2);
    return memset(room, GUARD, length + 16);
}
static void done_with(const char *what, void *room, size_t length, size_t written) {
    size_t from = written < length ? written : length;
    untouched(what, (uint8_t *)room + from, length + 16 - from);
    free(room);
}

/* The statuses that stand in the header's head. */

static int of_kind(const slot *it, int kind) {
    return it->kind == NOTHING ? WASMLOOP_EMPTY : it->kind == kind ? WASMLOOP_OK : WASMLOOP_KIND;
}
static int in_empty(const slot *into, const slot *from, int is_in_range, int kind) {
    return into == from ? WASMLOOP_KIND : into->kind ? WASMLOOP_KIND : !is_in_range ? WASMLOOP_RANGE : of_kind(from, kind);
}
static void fill(slot *it, int kind) {
    wasmloop_handle handle = it->handle;
    memset(it, 0, sizeof *it);
    it->handle = handle, it->kind = kind, it->id = ++ids;
}
static void empty(slot *it) { memset(it, 0, sizeof *it); }
static int is_depth(uint32_t depth) { return depth >= 1 && depth <= 128; }
static uint32_t depth(void) { return below(16) ? 1 + below(128) : below(200); }

/* Modules. */

static void explains(const uint8_t *bytes, size_t length, int is_refused) {
    size_t room = below(300);
    uint64_t count = GUARD;
    char *into = room_for(room);
    int status = CALL(wasmloop_explain(bytes, length, into, room, &count));
    if (told("explain", status, is_refused ? WASMLOOP_OK : WASMLOOP_NONE)) is("explain says something", count > 0 && count < 4000, 1);
    done_with("explain", into, room, status == WASMLOOP_OK ? count : 0);
}

static void load(slot *it) {
    int number = below(file_count);
    const file *from = &files[number];
    size_t length = below(8) ? from->length : below((uint32_t)from->length + 1);
    uint8_t *bytes = malloc(length ? length : 1);
    memcpy(bytes, from->bytes, length);
    int changes = below(4) ? 0 : below(4);
    for (int i = 0; i < changes && length; i++) bytes[below((uint32_t)length)] ^= (uint8_t)draw();
    int is_same = length == from->length && !memcmp(bytes, from->bytes, length);
    wasmloop_fault fault;
    memset(&fault, GUARD, sizeof fault);
    size_t room = below(300);
    uint64_t count = GUARD;
    char *into = room_for(room);
    int tells = below(2);
    int status = tells ? CALL(wasmloop_load_told(length ? bytes : NULL, length, &it->handle, &fault, into, room, &count))
        : CALL(wasmloop_load(length ? bytes : NULL, length, &it->handle, &fault));
    if (tells && status == WASMLOOP_REFUSED) is("load_told says something", count > 0 && count < 4000, 1);
    else is("load says nothing", count, GUARD);
    done_with("load_told", into, room, tells && status == WASMLOOP_REFUSED ? count : 0);
    if (it->kind) told("load", status, WASMLOOP_KIND);
    else if (is_same) told("load", status, from->is_module ? WASMLOOP_OK : WASMLOOP_REFUSED);
    else told_one("load", status, WASMLOOP_OK, WASMLOOP_REFUSED);
    if (status == WASMLOOP_REFUSED) {
        is("a fault's stage", fault.stage >= 1 && fault.stage <= 3, 1);
        is("a fault's byte", fault.byte <= length, 1);
        is("a fault's name", wasmloop_fault_name(fault.stage, fault.code) != NULL, 1);
    } else untouched("load's fault", &fault, sizeof fault);
    if (status == WASMLOOP_OK) fill(it, MODULE), it->file = is_same ? number : -1;
    if (status == WASMLOOP_OK || status == WASMLOOP_REFUSED) explains(bytes, length, status == WASMLOOP_REFUSED);
    free(bytes);
}

static void share(slot *from, slot *into) {
    int status = CALL(wasmloop_share(&from->handle, &into->handle));
    if (!told("share", status, in_empty(into, from, 1, MODULE))) return;
    fill(into, MODULE), into->file = from->file;
}

static void shape(slot *it) {
    wasmloop_shape shape;
    memset(&shape, GUARD, sizeof shape);
    int status = CALL(wasmloop_shape_of(&it->handle, &shape));
    if (!told("shape_of", status, of_kind(it, MODULE))) { untouched("shape", &shape, sizeof shape); return; }
    is("pages", shape.pages <= shape.most_pages && shape.most_pages <= 64, 1);
    if (it->file >= 0) is("shape", memcmp(&shape, &files[it->file].shape, sizeof shape), 0);
}

/* An export: at most as much of its name is written as there is room for. */
static void export(slot *it) {
    wasmloop_listed listed;
    wasmloop_type type;
    memset(&listed, GUARD, sizeof listed), memset(&type, GUARD, sizeof type);
    size_t room = below(20);
    uint8_t *name = room_for(room);
    int status = CALL(wasmloop_export_at(&it->handle, below(8) ? below(6) : draw(), (char *)name, room, &listed, &type));
    if (it->kind == MODULE) told_one("export_at", status, WASMLOOP_OK, WASMLOOP_NONE);
    else told("export_at", status, of_kind(it, MODULE));
    done_with("export_at", name, room, status == WASMLOOP_OK ? listed.length : 0);
    if (status != WASMLOOP_OK) { untouched("listed", &listed, sizeof listed), untouched("type", &type, sizeof type); return; }
    is("an export's kind", listed.kind < 4 && !listed.zero, 1);
    if (listed.kind) untouched("type", &type, sizeof type);
    else is("a type's counts", type.params <= 256 && type.results <= 16, 1);
}

static void function(slot *it) {
    wasmloop_type type;
    memset(&type, GUARD, sizeof type);
    const char *name = names[below(NAMES)];
    int status = CALL(wasmloop_function(&it->handle, name, &type));
    uint64_t number = GUARD;
    is("a function's number", CALL(wasmloop_export_number(&it->handle, name, &number)), status);
    is("a number", status == WASMLOOP_OK ? number < 1024 : number == GUARD, 1);
    if (it->kind == MODULE) told_one("function", status, WASMLOOP_OK, WASMLOOP_NONE);
    else told("function", status, of_kind(it, MODULE));
    if (status != WASMLOOP_OK) { untouched("type", &type, sizeof type); return; }
    is("a type's counts", type.params <= 256 && type.results <= 16, 1);
    for (int i = 0; i < 16; i++) is("a type's result", type.result[i] >= 1 && type.result[i] <= 2, i < (int)type.results);
}

/* Loops. */

static void make_loop(slot *from, slot *into) {
    wasmloop_limits limits = { below(100000), below(300000), below(3), depth() };
    int status = CALL(wasmloop_loop(&from->handle, &limits, &into->handle));
    if (!told("loop", status, in_empty(into, from, is_depth(limits.depth), MODULE))) return;
    fill(into, LOOP), into->number = limits.number, into->file = from->file, into->fuel = limits.fuel;
}

static int is_between_slices(slot *it) { return it->kind == PAUSED || it->kind == CALLING; }

static void reads_stop(slot *it, int status, int stopped) {
    if (is_between_slices(it)) told("stop of what is paused", status, it->used ? WASMLOOP_OK : WASMLOOP_NONE);
    else if (stopped >= 0) told("stop", status, stopped ? WASMLOOP_OK : WASMLOOP_NONE);
    else if (it->kind == LOOP || it->kind == JOB || it->kind == INSTANCE) told_one("stop", status, WASMLOOP_OK, WASMLOOP_NONE);
    else told("stop", status, of_kind(it, LOOP));
}

/* The places of the sites that `stop` has told, as many as it kept. */
static void stop_places(slot *it, int stopped, const wasmloop_site *sites, uint64_t kept) {
    wasmloop_place places[128];
    uint64_t count = GUARD;
    memset(places, GUARD, sizeof places);
    int status = CALL(wasmloop_stop_places(&it->handle, places, 128, &count));
    told("stop_places", status, stopped);
    if (status != WASMLOOP_OK) { untouched("places", places, sizeof places); return; }
    for (uint64_t i = 0; i < kept; i++) {
        if (it->file >= 0) is("a place's function", (long)places[i].function, (long)(sites[i].function + files[it->file].shape.imports));
        if (it->file >= 0) is("a place's byte", places[i].byte >= 8 && places[i].byte < files[it->file].length, 1);
        is("a place's instruction", (long)places[i].instruction, (long)sites[i].operation);
    }
}

/* `stopped`: whether the last run is known to have stopped, or -1 */
static void stop(slot *it, int stopped) {
    size_t room = below(140), length = room * sizeof(wasmloop_site);
    uint64_t count = GUARD;
    wasmloop_site *into = room_for(length);
    int status = CALL(wasmloop_stop(&it->handle, into, room, &count));
    reads_stop(it, status, stopped);
    if (status == WASMLOOP_OK) is("a stop's count", count >= 1 && count <= 128, 1);
    uint64_t kept = status != WASMLOOP_OK ? 0 : it->kind == JOB && count > 17 ? 17 : count;
    stop_places(it, status, into, kept < room ? kept : room);
    done_with("stop", into, length, kept * sizeof(wasmloop_site));
}

/* The same in words, by the bytes of some file. */
static void stop_told(slot *it) {
    size_t room = below(400);
    uint64_t count = GUARD;
    char *into = room_for(room);
    int number = it->file >= 0 && below(4) ? it->file : (int)below(file_count), by_own = !below(4);
    int status = by_own ? CALL(wasmloop_stop_told(NULL, 0, &it->handle, into, room, &count))
        : CALL(wasmloop_stop_told(files[number].bytes, files[number].length, &it->handle, into, room, &count));
    int stops = it->kind == LOOP || it->kind == INSTANCE || (it->kind == JOB && it->has_run);
    int fits = by_own || number == it->file ? WASMLOOP_OK : WASMLOOP_REFUSED;
    if (is_between_slices(it)) told("stop_told of what is paused", status, it->used ? fits : WASMLOOP_NONE);
    else if (it->kind == JOB && !it->has_run) told("stop_told of a job that was not run", status, WASMLOOP_NONE);
    else if (!stops) told("stop_told", status, of_kind(it, LOOP));
    else if (status != WASMLOOP_NONE) told("stop_told", status, fits);
    if (status == WASMLOOP_OK) is("a place in words", count >= 12 && count < 4000 && !memcmp(into, "in function ", room < 12 ? room : 12), 1);
    done_with("stop_told", into, room, status == WASMLOOP_OK ? count : 0);
}

static void warnings(slot *it) {
    size_t room = below(200);
    uint64_t count = GUARD;
    char *into = room_for(room);
    uint32_t number = below(5);
    int status = CALL(wasmloop_warning(&it->handle, number, into, room, &count));
    if (it->kind != MODULE) told("warning", status, of_kind(it, MODULE));
    else told_one("warning", status, number < 3 ? WASMLOOP_OK : WASMLOOP_NONE, WASMLOOP_NONE);
    if (status == WASMLOOP_OK) is("a warning in words", count > 40 && count < 300, 1);
    done_with("warning", into, room, status == WASMLOOP_OK ? count : 0);
}

static void emits(slot *it, uint32_t wanted) {
    size_t room = below(70), length = room * 8;
    uint32_t count = GUARD;
    int64_t *into = room_for(length);
    int status = CALL(wasmloop_emits(&it->handle, into, room, &count));
    if (told("emits", status, of_kind(it, LOOP)) && wanted <= 64) is("emits", count, wanted);
    done_with("emits", into, length, status == WASMLOOP_OK ? count * 8 : 0);
}

static void standing(slot *it, const wasmloop_did *did) {
    wasmloop_standing told_of;
    memset(&told_of, GUARD, sizeof told_of);
    int status = CALL(wasmloop_standing_of(&it->handle, &told_of));
    if (!told("standing_of", status, of_kind(it, LOOP))) { untouched("standing", &told_of, sizeof told_of); return; }
    is("outstanding", told_of.outstanding <= 32, 1);
    if (!did) return;
    if (did->what == WASMLOOP_OVER) is("over, and not alive", told_of.alive | told_of.failed, 0);
    if (did->what == WASMLOOP_FAILED) is("failed", told_of.failed, 1);
    if (did->what == WASMLOOP_RAN) is("failed by a callback", told_of.failed, did->ending != WASMLOOP_RETURN);
}

static void did_right(slot *it, const wasmloop_did *did) {
    is("did.what", did->what >= WASMLOOP_ENTERED && did->what <= WASMLOOP_FAILED && !did->zero, 1);
    standing(it, did);
    if (did->what != WASMLOOP_RAN) return;
    is("did.emits", did->emits <= 64 && did->ending <= WASMLOOP_SPENT, 1);
    emits(it, did->emits);
    stop(it, did->ending != WASMLOOP_RETURN);
}

static void step(slot *it) {
    for (uint32_t more = below(20); more < 20; more++) {
        wasmloop_did did;
        memset(&did, GUARD, sizeof did);
        int status = CALL(wasmloop_step(&it->handle, &did));
        if (!told("step", status, of_kind(it, LOOP))) { untouched("did", &did, sizeof did); return; }
        did_right(it, &did);
        if (did.what >= WASMLOOP_OVER) return;
    }
}

/* What is in the struct before a turn does not count. */
static wasmloop_turned some_turned(void) {
    wasmloop_turned turned = { 0 };
    turned.wait = draw(), turned.callbacks = draw(), turned.zero = draw();
    return turned;
}

/* How many callbacks ended in a call of wasmloop_turn or _turn_for. */
static uint32_t counted(slot *it, const wasmloop_turned *turned, int is_over, uint32_t most) {
    uint32_t count = turned->callbacks - it->counted;
    is("a turn's callbacks", count <= most && turned->callbacks >= it->counted && !turned->zero, 1);
    it->counted = is_over && turned->did.what == WASMLOOP_ENTERED ? 0 : turned->callbacks;
    return count;
}

static void turn(slot *it) {
    wasmloop_turned turned = some_turned(), before = turned;
    uint32_t most = below(5);
    int status = CALL(wasmloop_turn(&it->handle, most, &turned));
    if (!told("turn", status, most ? of_kind(it, LOOP) : WASMLOOP_RANGE)) { is("turned", memcmp(&turned, &before, sizeof turned), 0); return; }
    counted(it, &turned, 1, most);
    wasmloop_standing standing = { 0 };
    wasmloop_standing_of(&it->handle, &standing);
    if (standing.failed) is("a failed loop's wait", turned.wait == WASMLOOP_FOREVER, 1);
    else is("a turn's wait", turned.wait == 0 || !turned.callbacks, 1);
    did_right(it, &turned.did);
}

static uint64_t some_units(void) { return below(16) ? below(below(4) ? 12 : 4000) : UINT64_MAX; }
static int kind_for_slices(const slot *it) { return it->kind == STEPPING ? WASMLOOP_OK : of_kind(it, LOOP); }

/* What is so of a step that ended in a slice of so many units. */
static void sliced_right(slot *it, const wasmloop_did *did, uint64_t units) {
    is("a callback's fuel", did->used <= it->fuel, 1);
    is("the units of its slices", did->used <= it->used || did->used - it->used <= units, 1);
    it->used = 0;
}

static void step_for(slot *it) {
    for (uint32_t more = below(6); more < 6; more++) {
        uint64_t units = some_units();
        uint32_t over = GUARD;
        int wanted = kind_for_slices(it);
        wasmloop_did did;
        memset(&did, GUARD, sizeof did);
        int status = CALL(wasmloop_step_for(&it->handle, units, &over, &did));
        if (status == WASMLOOP_MEMORY && it->kind == STEPPING) fail("a later slice of a step takes no memory", status, WASMLOOP_OK);
        if (!told("step_for", status, units ? wanted : WASMLOOP_RANGE)) is("over", over, GUARD);
        if (status != WASMLOOP_OK || !over) untouched("did", &did, sizeof did);
        if (status != WASMLOOP_OK) return;
        is("over", over <= 1, 1);
        it->kind = over ? LOOP : STEPPING;
        if (!over) { paused_steps++, it->used += units; continue; }
        sliced_right(it, &did, units);
        did_right(it, &did);
        if (did.what >= WASMLOOP_OVER) return;
    }
}

static void turn_for(slot *it) {
    wasmloop_turned turned = some_turned(), before = turned;
    wasmloop_standing standing = { 0 };
    uint32_t most = below(5), over = GUARD;
    uint64_t units = some_units();
    int was_stepping = it->kind == STEPPING, status = CALL(wasmloop_turn_for(&it->handle, most, units, &over, &turned)), was_refused = refused;
    if (status == WASMLOOP_MEMORY && was_stepping) fail("a turn under way takes no memory at first", status, WASMLOOP_OK);
    if (!told("turn_for", status, most && units ? kind_for_slices(it) : WASMLOOP_RANGE)) {
        is("turned", memcmp(&turned, &before, sizeof turned) || over != GUARD, 0);
        return;
    }
    is("over", over <= 1, 1);
    uint32_t count = counted(it, &turned, over, most);
    it->kind = wasmloop_standing_of(&it->handle, &standing) == WASMLOOP_KIND ? STEPPING : LOOP;
    if (over || count) it->used = 0;
    if (over) { is("a turn that is over", it->kind, LOOP); did_right(it, &turned.did); return; }
    is("the wait of a turn that isn't over", turned.wait == 0, 1);
    if (it->kind == STEPPING) paused_steps++, it->used += units;
    else is("a turn between two steps", turned.did.what == WASMLOOP_RAN || (was_refused && turned.did.what), 1);
}

static void clock_and_hint(slot *it) {
    uint64_t now = 1, later = 1, ms = 1;
    int wanted = of_kind(it, LOOP);
    if (told("clock", CALL(wasmloop_clock(&it->handle, 0, &now)), wanted) && told("clock", CALL(wasmloop_clock(&it->handle, now + below(1000), &later)), wanted))
        is("the clock goes on", later >= now, 1);
    told("hint", CALL(wasmloop_hint(&it->handle, &ms)), wanted);
}

static void sends(slot *it) {
    uint32_t number = below(20);
    told("async_send", CALL(wasmloop_async_send(&it->handle, number)), number >= 16 ? WASMLOOP_RANGE : of_kind(it, LOOP));
}

static void cancels(slot *it) {
    int32_t answer = 7;
    int status = CALL(wasmloop_cancel(&it->handle, below(40), &answer));
    if (told("cancel", status, of_kind(it, LOOP))) is("a cancel's answer", answer == 0 || answer == -22 || answer == -16 || answer == -1, 1);
    else is("a cancel that is not done", answer, 7);
}

static void requests(slot *it) {
    size_t length = below(8) ? below(300) : 65530 + below(12);
    uint8_t *bytes = calloc(1, length + 1);
    wasmloop_standing before = { 0 }, after = { 0 };
    int32_t answer = 0;
    wasmloop_standing_of(&it->handle, &before);
    int status = CALL(wasmloop_request(&it->handle, draw(), length ? bytes : NULL, length, &answer)), was_refused = refused;
    free(bytes);
    if (!told("request", status, of_kind(it, LOOP))) { is("a request that is not made", answer, 0); return; }
    wasmloop_standing_of(&it->handle, &after);
    is("outstanding", (long)after.outstanding, (long)before.outstanding + (answer > 0));
    given += answer > 0;
    if (answer == -12) is("a request for which there is no memory", was_refused, 1);
    if (answer > 0) is("a request that is made", length <= 65536 && before.outstanding < 32 && !after.failed, 1);
    if (answer == -11) is("requests of a loop", (long)before.outstanding, 32);
    if (answer == -22) is("a request of too many bytes", length > 65536, 1);
    is("a request's answer", answer > 0 || answer == -38 || answer == -22 || answer == -11 || answer == -12 || answer == -1, 1);
    if (answer == -38 && it->file >= 0) is("a request of a module that takes none", files[it->file].shape.work && files[it->file].shape.after_work, 0);
}

/* Jobs. */

static void next_job(slot *from, slot *into) {
    int wanted = in_empty(into, from, 1, LOOP);
    int status = CALL(wasmloop_next_job(&from->handle, &into->handle));
    if (!told_one("next_job", status, wanted, wanted == WASMLOOP_OK ? WASMLOOP_NONE : wanted)) return;
    fill(into, JOB), into->loop = from->id, into->number = from->number, into->file = from->file;
    wasmloop_about about;
    is("about", wasmloop_job_about(&into->handle, &about), WASMLOOP_OK);
    is("a new job", about.request >= 1 && about.slot < 32 && !about.outcome && !about.used && about.loop == from->number, 1);
}

static void make_job(slot *from, slot *into) {
    wasmloop_task task = { below(300000), draw(), depth() };
    size_t length = below(20) ? below(300) : 65530 + below(12);
    uint8_t *bytes = calloc(1, length + 1);
    int runs = below(2), is_in_range = is_depth(task.depth) && length <= 65536;
    int wanted = in_empty(into, from, is_in_range, MODULE), no_work = wanted == WASMLOOP_OK ? WASMLOOP_NO_WORK : wanted;
    if (wanted == WASMLOOP_OK && from->file >= 0) wanted = no_work = files[from->file].shape.work ? WASMLOOP_OK : WASMLOOP_NO_WORK;
    int status = CALL(runs ? wasmloop_work(&from->handle, &task, length ? bytes : NULL, length, &into->handle)
                           : wasmloop_job_new(&from->handle, &task, length ? bytes : NULL, length, &into->handle));
    free(bytes);
    if (!told_one("job_new", status, wanted, no_work)) return;
    fill(into, JOB), into->has_run = runs, into->file = from->file;
    wasmloop_about about;
    is("about", wasmloop_job_about(&into->handle, &about), WASMLOOP_OK);
    is("a lone job", !about.request && about.bytes == length && about.op == task.op && about.used <= task.fuel && !about.outcome == !runs, 1);
}

static void start(slot *loop, slot *job) {
    int wanted = loop == job ? WASMLOOP_KIND : of_kind(job, JOB) == WASMLOOP_EMPTY ? WASMLOOP_EMPTY : of_kind(loop, LOOP);
    if (wanted == WASMLOOP_OK && (job->kind != JOB || job->has_run)) wanted = WASMLOOP_KIND;
    int status = CALL(wasmloop_job_start(&loop->handle, &job->handle));
    if (wanted != WASMLOOP_OK) { told("job_start", status, wanted); return; }
    if (job->loop != loop->id && (!job->loop || job->number != loop->number)) told("job_start of another loop's", status, WASMLOOP_STRANGER);
    else told_one("job_start", status, WASMLOOP_OK, WASMLOOP_STRANGER);
}

static void accept(slot *loop, slot *job) {
    int wanted = loop == job ? WASMLOOP_KIND : of_kind(job, JOB) == WASMLOOP_EMPTY ? WASMLOOP_EMPTY : of_kind(loop, LOOP);
    if (wanted == WASMLOOP_OK && (job->kind != JOB || !job->has_run)) wanted = WASMLOOP_KIND;
    int status = CALL(wasmloop_accept(&loop->handle, &job->handle));
    if (wanted != WASMLOOP_OK) { told("accept", status, wanted); return; }
    if (job->loop == loop->id) { if (told_one("accept", status, WASMLOOP_OK, WASMLOOP_STRANGER)) empty(job); return; }
    if (job->loop && job->number == loop->number) { if (told_one("accept", status, WASMLOOP_STRANGER, WASMLOOP_OK)) empty(job); return; }
    told("accept of another loop's", status, WASMLOOP_STRANGER);
}

static void ran(slot *it, int was_refused) {
    it->has_run = 1;
    wasmloop_about about;
    is("about", wasmloop_job_about(&it->handle, &about), WASMLOOP_OK);
    is("an outcome", about.outcome >= WASMLOOP_WORK_DONE && about.outcome <= WASMLOOP_WORK_MEMORY, 1);
    if (about.outcome == WASMLOOP_WORK_MEMORY) is("no memory", was_refused, 1);
    stop(it, about.outcome >= WASMLOOP_WORK_TRAP && about.outcome <= WASMLOOP_WORK_SPENT);
}

/* A slice, or some: one that leaves a job paused has used some of its units, and the last one no more. */
static void run_for(slot *it) {
    for (uint32_t more = below(6); more < 6; more++) {
        uint64_t units = below(16) ? below(4000) : UINT64_MAX;
        uint32_t over = GUARD;
        int wanted = it->kind == PAUSED ? WASMLOOP_OK : of_kind(it, JOB);
        if (wanted == WASMLOOP_OK && it->has_run) wanted = WASMLOOP_KIND;
        int status = CALL(wasmloop_job_run_for(&it->handle, units, &over)), was_refused = refused;
        if (!told("job_run_for", status, units ? wanted : WASMLOOP_RANGE)) { is("over", over, GUARD); return; }
        is("over", over <= 1, 1);
        it->kind = over ? JOB : PAUSED;
        wasmloop_about about;
        is("about", wasmloop_job_about(&it->handle, &about), WASMLOOP_OK);
        is("the units of a slice", about.used >= it->used && about.used - it->used <= units, 1);
        if (over) { ran(it, was_refused); return; }
        is("a paused job", about.outcome == WASMLOOP_NOT_RUN && about.used > it->used, 1);
        pauses++, it->used = about.used;
    }
}

static void run(slot *it) {
    int wanted = of_kind(it, JOB);
    if (wanted == WASMLOOP_OK && it->has_run) wanted = WASMLOOP_KIND;
    int status = CALL(wasmloop_job_run(&it->handle)), was_refused = refused;
    if (told("job_run", status, wanted)) ran(it, was_refused);
}

static void reads(slot *it) {
    wasmloop_about about;
    memset(&about, GUARD, sizeof about);
    int wanted = of_kind(it, JOB), is_job = wanted == WASMLOOP_OK;
    int described = it->kind == PAUSED ? WASMLOOP_OK : wanted;
    if (!told("job_about", CALL(wasmloop_job_about(&it->handle, &about)), described)) untouched("about", &about, sizeof about);
    if (it->kind == PAUSED) is("a paused job's fuel", about.outcome == WASMLOOP_NOT_RUN && about.used == it->used, 1);
    if (is_job) is("has run", about.outcome != WASMLOOP_NOT_RUN, it->has_run);
    int replied = is_job && about.outcome != WASMLOOP_WORK_DONE ? WASMLOOP_NONE : wanted;
    size_t room = below(8) ? below(400) : 66000;
    uint64_t count = GUARD, seen = GUARD;
    const uint8_t *at = (const uint8_t *)&count;
    uint8_t *into = room_for(room), *again = room_for(room);
    if (told("job_input", CALL(wasmloop_job_input(&it->handle, into, room, &count)), wanted)) is("input", (long)count, (long)about.bytes);
    done_with("job_input", into, room, is_job ? count : 0);
    int status = CALL(wasmloop_job_reply(&it->handle, again, room, &count));
    if (told("job_reply", status, replied)) is("reply", (long)count, (long)about.reply);
    if (told("job_view", CALL(wasmloop_job_view(&it->handle, &at, &seen)), replied)) {
        is("view", (long)seen, (long)about.reply);
        is("the bytes seen", memcmp(at, again, seen < room ? seen : room), 0);
    } else is("a view that is not had", at == (const uint8_t *)&count && seen == GUARD, 1);
    done_with("job_reply", again, room, status == WASMLOOP_OK ? count : 0);
}

/* Instances. */

static void ended_right(const wasmloop_ended *it, uint64_t fuel) {
    is("an ending", it->ending <= WASMLOOP_SPENT && it->used <= fuel && it->results <= 16, 1);
    if (it->ending != WASMLOOP_RETURN) is("no results", (long)it->results, 0);
}

static void make_instance(slot *from, slot *into) {
    wasmloop_call_limits limits = { below(100000), depth(), 0 };
    wasmloop_ended told_of;
    memset(&told_of, GUARD, sizeof told_of);
    int wanted = in_empty(into, from, is_depth(limits.depth), MODULE), other = wanted == WASMLOOP_OK ? WASMLOOP_NOT_STARTED : wanted;
    int status = CALL(wasmloop_instance(&from->handle, &limits, &into->handle, &told_of));
    int is_made = told_one("instance", status, wanted, other);
    if (!is_made && status != WASMLOOP_NOT_STARTED) { untouched("ended", &told_of, sizeof told_of); return; }
    ended_right(&told_of, limits.fuel);
    is("started", told_of.ending == WASMLOOP_RETURN, is_made);
    if (is_made) fill(into, INSTANCE), into->file = from->file;
}

static void call(slot *it) {
    wasmloop_call_limits limits = { below(100000), depth(), 0 };
    wasmloop_ended told_of;
    memset(&told_of, GUARD, sizeof told_of);
    uint64_t args[4] = { draw(), draw(), draw(), (uint64_t)draw() << 20 };
    int wanted = is_depth(limits.depth) ? of_kind(it, INSTANCE) : WASMLOOP_RANGE;
    int status = below(2) ? CALL(wasmloop_call(&it->handle, names[below(NAMES)], args, below(5), &limits, &told_of))
                          : CALL(wasmloop_call_at(&it->handle, below(8), args, below(5), &limits, &told_of));
    if (wanted == WASMLOOP_OK && (status == WASMLOOP_NONE || status == WASMLOOP_ARGUMENTS)) wanted = status;
    if (!told("call", status, wanted)) { untouched("ended", &told_of, sizeof told_of); return; }
    ended_right(&told_of, limits.fuel);
    stop(it, told_of.ending != WASMLOOP_RETURN);
}

/* A call with bytes: what is not made leaves the last reply. */
static void call_bytes(slot *it) {
    wasmloop_call_limits limits = { below(100000), depth(), 0 };
    wasmloop_ended told_of;
    memset(&told_of, GUARD, sizeof told_of);
    uint64_t args[4] = { draw(), draw(), draw(), (uint64_t)draw() << 20 }, before = GUARD, after = GUARD;
    const uint8_t *at = NULL, *seen = NULL;
    size_t length = below(8) ? below(300) : 65530 + below(12);
    uint8_t *word = room_for(length);
    int wanted = is_depth(limits.depth) && length <= 65536 ? of_kind(it, INSTANCE) : WASMLOOP_RANGE;
    told("view", CALL(wasmloop_view(&it->handle, &at, &before)), it->kind == CALLING ? WASMLOOP_OK : of_kind(it, INSTANCE));
    int status = CALL(wasmloop_call_bytes(&it->handle, below(8), args, below(5), word, length, &limits, &told_of));
    if (wanted == WASMLOOP_OK && (status == WASMLOOP_NONE || status == WASMLOOP_ARGUMENTS)) wanted = status;
    int is_made = told("call_bytes", status, wanted);
    done_with("call_bytes", word, length, 0);
    CALL(wasmloop_view(&it->handle, &seen, &after));
    if (!is_made) {
        untouched("ended", &told_of, sizeof told_of);
        is("a reply that stays", seen == at && after == before, 1);
        return;
    }
    ended_right(&told_of, limits.fuel);
    stop(it, told_of.ending != WASMLOOP_RETURN);
    is("the length of a reply", after <= 65536, 1);
}

/* Begins a call, and makes it in slices: one that leaves it paused has used its units, and the last one no more. */
static void begin_call(slot *it) {
    wasmloop_call_limits limits = { below(100000), depth(), 0 };
    uint64_t args[4] = { draw(), draw(), draw(), (uint64_t)draw() << 20 };
    int wanted = is_depth(limits.depth) ? of_kind(it, INSTANCE) : WASMLOOP_RANGE;
    int status = CALL(wasmloop_call_begin(&it->handle, names[below(NAMES)], args, below(5), &limits));
    if (wanted == WASMLOOP_OK && (status == WASMLOOP_NONE || status == WASMLOOP_ARGUMENTS)) wanted = status;
    if (told("call_begin", status, wanted)) it->kind = CALLING, it->used = 0, it->fuel = limits.fuel;
}

/* Ends a call that is in progress, or tries to. */
static void end_call(slot *it) {
    wasmloop_ended told_of;
    memset(&told_of, GUARD, sizeof told_of);
    int status = CALL(wasmloop_call_end(&it->handle, &told_of));
    if (!told("call_end", status, of_kind(it, CALLING))) { untouched("ended", &told_of, sizeof told_of); return; }
    it->kind = INSTANCE;
    ended_right(&told_of, it->fuel);
    is("an ended call is spent", told_of.ending, WASMLOOP_SPENT);
    is("an ended call's fuel", told_of.used == it->used, 1);
    stop(it, it->used > 0);
}

/* A call and its first slice. */
static void first_slice(slot *it) {
    wasmloop_call_limits limits = { below(100000), depth(), 0 };
    wasmloop_ended told_of;
    memset(&told_of, GUARD, sizeof told_of);
    uint64_t args[4] = { draw(), draw(), draw(), (uint64_t)draw() << 20 }, units = some_units();
    uint32_t over = GUARD;
    int wanted = is_depth(limits.depth) && units ? of_kind(it, INSTANCE) : WASMLOOP_RANGE;
    int status = CALL(wasmloop_call_for(&it->handle, below(8), args, below(5), &limits, units, &over, &told_of));
    if (wanted == WASMLOOP_OK && (status == WASMLOOP_NONE || status == WASMLOOP_ARGUMENTS)) wanted = status;
    if (!told("call_for", status, wanted)) is("over", over, GUARD);
    if (status != WASMLOOP_OK || !over) untouched("ended", &told_of, sizeof told_of);
    if (status != WASMLOOP_OK) return;
    is("over", over <= 1, 1);
    if (!over) {
        paused_calls++, it->kind = CALLING, it->used = units, it->fuel = limits.fuel;
        is("a paused call's fuel", units < limits.fuel, 1);
        return;
    }
    ended_right(&told_of, limits.fuel);
    is("the units of its slice", told_of.used <= units, 1);
    stop(it, told_of.ending != WASMLOOP_RETURN);
}

static void call_for(slot *it) {
    if (!below(16)) { end_call(it); return; }
    for (uint32_t more = below(6); more < 6; more++) {
        uint64_t units = below(16) ? below(4000) : UINT64_MAX;
        uint32_t over = GUARD;
        wasmloop_ended told_of;
        memset(&told_of, GUARD, sizeof told_of);
        int status = CALL(wasmloop_call_run_for(&it->handle, units, &over, &told_of));
        if (status == WASMLOOP_MEMORY) fail("a slice of a call takes no memory", status, WASMLOOP_OK);
        if (!told("call_run_for", status, units ? of_kind(it, CALLING) : WASMLOOP_RANGE)) is("over", over, GUARD);
        if (status != WASMLOOP_OK || !over) untouched("ended", &told_of, sizeof told_of);
        if (status != WASMLOOP_OK) return;
        is("over", over <= 1, 1);
        if (!over) {
            paused_calls++, it->used += units;
            is("a paused call's fuel", it->used < it->fuel, 1);
            if (below(8)) continue;
            end_call(it);
            return;
        }
        it->kind = INSTANCE;
        ended_right(&told_of, it->fuel);
        is("the units of its slices", told_of.used >= it->used && told_of.used - it->used <= units, 1);
        stop(it, told_of.ending != WASMLOOP_RETURN);
        return;
    }
}

/* Whether it has an instance that can be inspected. */
static int has_instance(const slot *it) { return it->kind == INSTANCE || it->kind == CALLING || it->kind == LOOP; }

static void memory(slot *it) {
    uint64_t bytes = 0;
    uint8_t written[64], *into = room_for(64);
    uint32_t length = below(64);
    int wanted = has_instance(it) ? WASMLOOP_OK : of_kind(it, INSTANCE), writes = of_kind(it, INSTANCE);
    for (uint32_t i = 0; i < length; i++) written[i] = (uint8_t)draw();
    told("size", CALL(wasmloop_size(&it->handle, &bytes)), wanted);
    uint64_t held = 0;
    if (told("held", CALL(wasmloop_held(&it->handle, &held)), it->kind ? WASMLOOP_OK : WASMLOOP_EMPTY) && has_instance(it))
        is("the bytes of an instance", held >= bytes + 8 * (65536 + 1 + 128) && held <= bytes + 8 * (65536 + 1 + 128 + 4096) + 65536, 1);
    uint32_t at = below(4) && bytes ? below((uint32_t)bytes) : draw();
    int is_past = (uint64_t)at + length > bytes;
    if (wanted == WASMLOOP_OK && is_past) wanted = WASMLOOP_RANGE;
    if (writes == WASMLOOP_OK && is_past) writes = WASMLOOP_RANGE;
    int wrote = told("write", CALL(wasmloop_write(&it->handle, at, written, length)), writes);
    if (told("read", CALL(wasmloop_read(&it->handle, at, into, length)), wanted) && wrote) is("what was written", memcmp(into, written, length), 0);
    done_with("read", into, 64, wanted == WASMLOOP_OK ? length : 0);
}

static void global(slot *it) {
    wasmloop_number value;
    memset(&value, GUARD, sizeof value);
    int status = CALL(wasmloop_global(&it->handle, names[below(NAMES)], &value));
    if (has_instance(it)) told_one("global", status, WASMLOOP_OK, WASMLOOP_NONE);
    else told("global", status, of_kind(it, INSTANCE));
    if (status != WASMLOOP_OK) { untouched("global", &value, sizeof value); return; }
    is("a global's value", (value.value_type == 1 && value.number <= UINT32_MAX) || value.value_type == 2, 1);
}

/* How a run ended, as a text: of the numbers that have a name. */

static uint64_t end_of_text(uint64_t used, uint8_t *text, uint64_t count) {
    char told[40];
    int length = snprintf(told, sizeof told, "after %lu unit%s", (unsigned long)used, used == 1 ? "" : "s");
    return count > (uint64_t)length && !memcmp(text + count - (uint64_t)length, told, (size_t)length);
}

static void text_of(const char *what, int of_job, uint32_t number, uint32_t trap, int wanted) {
    size_t room = below(100);
    uint64_t count = GUARD, used = below(1000);
    uint8_t *into = room_for(room);
    int status = of_job ? CALL(wasmloop_outcome_text(number, trap, used, (char *)into, room, &count))
        : CALL(wasmloop_ended_text(number, trap, used, (char *)into, room, &count));
    if (!told(what, status, wanted)) is("the text's length", (long)count, GUARD);
    else if (count <= room) is("how a text ends", (long)end_of_text(used, into, count), 1);
    done_with(what, into, room, status == WASMLOOP_OK ? count : 0);
}

static void texts(slot *a, slot *b) {
    uint32_t ending = below(8), outcome = below(8), trap = below(10);
    int has_name = trap >= 1 && trap <= 7, number = (int)below(16) - 1;
    (void)a, (void)b;
    text_of("ended_text", 0, ending, trap, ending > WASMLOOP_SPENT || (ending == WASMLOOP_TRAP && !has_name) ? WASMLOOP_RANGE : WASMLOOP_OK);
    text_of("outcome_text", 1, outcome, trap, outcome > WASMLOOP_WORK_MEMORY || (outcome == WASMLOOP_WORK_TRAP && !has_name) ? WASMLOOP_RANGE : WASMLOOP_OK);
    is("a status has a sentence if it has a name", !wasmloop_status_text(number), !wasmloop_status_name(number));
}

/* Sequences. */

static void drop(slot *it) {
    told("drop", CALL(wasmloop_drop(&it->handle)), it->kind ? WASMLOOP_OK : WASMLOOP_EMPTY);
    empty(it);
}

static void load_into(slot *a, slot *b) { (void)a, load(b); }
static void drops(slot *a, slot *b) { (void)b, drop(a); }
static void shapes(slot *a, slot *b) { (void)b, shape(a); }
static void functions(slot *a, slot *b) { (void)b, function(a); }
static void steps(slot *a, slot *b) { (void)b, step(a); }
static void turns(slot *a, slot *b) { (void)b, turn(a); }
static void steps_for(slot *a, slot *b) { (void)b, step_for(a); }
static void turns_for(slot *a, slot *b) { (void)b, turn_for(a); }
static void owns(slot *a, slot *b) { (void)b, clock_and_hint(a), sends(a), cancels(a); }
static void looks(slot *a, slot *b) { (void)b, emits(a, GUARD), standing(a, NULL), stop(a, -1); }
static void runs(slot *a, slot *b) { (void)b, run(a); }
static void reads_job(slot *a, slot *b) { (void)b, reads(a); }
static void slices(slot *a, slot *b) { (void)b, run_for(a); }
static void tells(slot *a, slot *b) { (void)b, stop_told(a), warnings(a); }
static void asks(slot *a, slot *b) { (void)b, requests(a); }
static void globals(slot *a, slot *b) { (void)b, global(a); }
static void call_of(slot *a, slot *b) { (void)b, call(a); }
static void calls_bytes(slot *a, slot *b) { (void)b, call_bytes(a); }
static void begins(slot *a, slot *b) { (void)b, begin_call(a); }
static void calls_for(slot *a, slot *b) { (void)b, call_for(a); }
static void first_slices(slot *a, slot *b) { (void)b, first_slice(a); }
static void exports(slot *a, slot *b) { (void)b, export(a); }
static void memories(slot *a, slot *b) { (void)b, memory(a); }

/* The calls, and of what kind the two handles are mostly given. */
static const struct { void (*call)(slot *, slot *); int first, second; } all[] = {
    { load_into, NOTHING, NOTHING }, { load_into, NOTHING, NOTHING }, { load_into, NOTHING, NOTHING }, { load_into, NOTHING, NOTHING },
    { make_job, MODULE, NOTHING }, { make_job, MODULE, NOTHING }, { make_instance, MODULE, NOTHING }, { make_loop, MODULE, NOTHING },
    { drops, JOB, NOTHING }, { drops, LOOP, NOTHING },
    { drops, INSTANCE, NOTHING }, { drops, MODULE, NOTHING }, { share, MODULE, NOTHING }, { shapes, MODULE, NOTHING },
    { functions, MODULE, NOTHING }, { make_loop, MODULE, NOTHING }, { make_loop, MODULE, NOTHING }, { steps, LOOP, NOTHING },
    { steps, LOOP, NOTHING }, { steps, LOOP, NOTHING }, { turns, LOOP, NOTHING }, { turns, LOOP, NOTHING },
    { owns, LOOP, NOTHING }, { looks, LOOP, NOTHING }, { next_job, LOOP, NOTHING }, { next_job, LOOP, NOTHING },
    { next_job, LOOP, NOTHING }, { make_job, MODULE, NOTHING }, { start, LOOP, JOB }, { start, LOOP, JOB },
    { runs, JOB, NOTHING }, { runs, JOB, NOTHING }, { reads_job, JOB, NOTHING }, { accept, LOOP, JOB },
    { accept, LOOP, JOB }, { make_instance, MODULE, NOTHING }, { call_of, INSTANCE, NOTHING }, { call_of, INSTANCE, NOTHING },
    { memories, INSTANCE, NOTHING }, { globals, INSTANCE, NOTHING }, { asks, LOOP, NOTHING }, { asks, LOOP, NOTHING },
    { slices, JOB, NOTHING }, { slices, JOB, NOTHING }, { slices, PAUSED, NOTHING }, { slices, PAUSED, NOTHING },
    { drops, PAUSED, NOTHING }, { runs, PAUSED, NOTHING }, { reads_job, PAUSED, NOTHING }, { accept, LOOP, PAUSED },
    { begins, INSTANCE, NOTHING }, { begins, INSTANCE, NOTHING }, { calls_for, CALLING, NOTHING }, { calls_for, CALLING, NOTHING },
    { begins, CALLING, NOTHING }, { call_of, CALLING, NOTHING }, { memories, CALLING, NOTHING }, { globals, CALLING, NOTHING },
    { looks, CALLING, NOTHING }, { looks, PAUSED, NOTHING }, { drops, CALLING, NOTHING }, { memories, LOOP, NOTHING }, { globals, LOOP, NOTHING },
    { steps_for, LOOP, NOTHING }, { steps_for, LOOP, NOTHING }, { steps_for, STEPPING, NOTHING }, { steps_for, STEPPING, NOTHING },
    { turns_for, LOOP, NOTHING }, { turns_for, LOOP, NOTHING }, { turns_for, STEPPING, NOTHING }, { turns_for, STEPPING, NOTHING },
    { steps, STEPPING, NOTHING }, { turns, STEPPING, NOTHING }, { owns, STEPPING, NOTHING }, { looks, STEPPING, NOTHING },
    { next_job, STEPPING, NOTHING }, { start, STEPPING, JOB }, { accept, STEPPING, JOB }, { asks, STEPPING, NOTHING },
    { memories, STEPPING, NOTHING }, { globals, STEPPING, NOTHING }, { tells, STEPPING, NOTHING }, { drops, STEPPING, NOTHING },
    { first_slices, INSTANCE, NOTHING }, { first_slices, INSTANCE, NOTHING }, { first_slices, CALLING, NOTHING },
    { exports, MODULE, NOTHING }, { exports, INSTANCE, NOTHING }, { texts, NOTHING, NOTHING },
    { calls_bytes, INSTANCE, NOTHING }, { calls_bytes, INSTANCE, NOTHING }, { calls_bytes, CALLING, NOTHING },
    { tells, CALLING, NOTHING }, { tells, LOOP, NOTHING }, { tells, INSTANCE, NOTHING }, { tells, JOB, NOTHING }, { tells, MODULE, NOTHING },
};

/* A handle's words change only where the model's kind does. */
static void kept(const slot *it, const slot *before) {
    if (it->kind == before->kind && it->id == before->id) is("a handle's words", memcmp(&it->handle, &before->handle, sizeof it->handle), 0);
    is("a handle's mark", it->handle.mark != 0, it->kind != NOTHING);
    static const uint32_t kinds[] = { WASMLOOP_HOLDS_NOTHING, WASMLOOP_HOLDS_MODULE, WASMLOOP_HOLDS_LOOP, WASMLOOP_HOLDS_JOB,
        WASMLOOP_HOLDS_JOB + WASMLOOP_HOLDS_PAUSED, WASMLOOP_HOLDS_INSTANCE, WASMLOOP_HOLDS_INSTANCE + WASMLOOP_HOLDS_PAUSED,
        WASMLOOP_HOLDS_LOOP + WASMLOOP_HOLDS_PAUSED };
    uint32_t kind = GUARD;
    is("kind", CALL(wasmloop_kind(&it->handle, &kind)), WASMLOOP_OK);
    is("what a handle holds", kind, kinds[it->kind]);
}

static slot *some(int kind) {
    for (int tries = 0; tries < 20; tries++) {
        slot *it = &slots[below(SLOTS)];
        if (it->kind == kind) return it;
    }
    return &slots[below(SLOTS)];
}

static void sequence(void) {
    for (int i = 0; i < STEPS; i++) {
        uint32_t which = below(sizeof all / sizeof *all);
        slot *a = below(8) ? some(all[which].first) : &slots[below(SLOTS)];
        slot *b = below(8) ? some(all[which].second) : &slots[below(SLOTS)];
        slot a_before = *a, b_before = *b;
        all[which].call(a, b);
        kept(a, &a_before), kept(b, &b_before);
    }
    for (int i = 0; i < SLOTS; i++) drop(&slots[i]);
}

static void read_file(const char *path) {
    FILE *from = fopen(path, "rb");
    file *it = &files[file_count++];
    if (!from) { perror(path); exit(2); }
    it->bytes = malloc(1 << 20);
    it->length = fread(it->bytes, 1, 1 << 20, from);
    fclose(from);
    wasmloop_handle module = WASMLOOP_HANDLE_INIT;
    wasmloop_fault fault;
    it->is_module = wasmloop_load(it->bytes, it->length, &module, &fault) == WASMLOOP_OK;
    if (it->is_module) wasmloop_shape_of(&module, &it->shape);
    wasmloop_drop(&module);
}

int main(int count, char **words) {
    if (count < 4 || count > 3 + FILES) { fputs("usage: fuzz SEED SEQUENCES FILE..\n", stderr); return 2; }
    state = strtoull(words[1], NULL, 10) * 0x9e3779b97f4a7c15u + 1;
    for (int i = 3; i < count; i++) read_file(words[i]);
    for (unsigned long more = strtoul(words[2], NULL, 10); more; more--) sequence();
    printf("fuzz: %lu calls, %lu not as foretold; %lu slices of jobs, %lu of calls and %lu of callbacks that paused, %lu requests of the owner;", calls, wrong, pauses, paused_calls,
        paused_steps, given);
    for (int i = 0; i < 13; i++) printf(" %s %lu", wasmloop_status_name(i), answered[i]);
    puts("");
    return wrong != 0;
}
