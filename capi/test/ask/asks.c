/* A guest that asks at any depth of calls: in loops, in recursion, through function pointers, with locals and arrays that must be there
 * afterwards. It runs a program of bytes; the native build of the same file says what it should ask and return. */
#include "ask.h"

enum { MOST = 400, DEPTH = 10, QUESTION = 40, ANSWER = 24 };

static uint8_t program[256];
static const uint8_t *at, *end;
static int32_t left; /* steps, so that each program ends */

typedef uint64_t action(uint64_t it, int32_t depth);
static action step;

static uint8_t next(void) { return at < end ? *at++ : 0; }

static uint64_t mixed(uint64_t it, uint64_t with)
{
    it ^= with + 0x9e3779b97f4a7c15u + (it << 6) + (it >> 2);
    return it * 0xff51afd7ed558ccdu;
}

static uint64_t asks(uint64_t it, int32_t depth)
{
    uint8_t question[QUESTION], answer[ANSWER] = { 0 };
    uint32_t length = next() % (QUESTION + 1), room = next() % (ANSWER + 1);
    for (uint32_t i = 0; i < QUESTION; i++)
        question[i] = (uint8_t)(it >> i % 8 * 8 ^ i);
    it = mixed(it, (uint64_t)(int64_t)ask(question, length, answer, room));
    for (uint32_t i = 0; i < ANSWER; i++)
        it = mixed(it, answer[i]);
    for (uint32_t i = 0; i < QUESTION; i++)
        it = mixed(it, question[i]);
    return mixed(it, (uint64_t)depth);
}

static uint64_t repeats(uint64_t it, int32_t depth)
{
    const uint8_t *from = at + 1;
    for (int32_t i = 0, count = next() % 4; i < count; i++) {
        at = from < end ? from : end;
        it = mixed(step(it, depth), (uint64_t)i);
    }
    return it;
}

static uint64_t both(uint64_t it, int32_t depth)
{
    uint64_t first = it * 3, second = it >> 7;
    uint32_t low = (uint32_t)it, high = (uint32_t)(it >> 32);
    uint64_t left_one = step(first ^ low, depth), right_one = step(second + high, depth);
    return mixed(mixed(left_one, right_one), mixed(first, second) + low - high);
}

static uint64_t adds(uint64_t it, int32_t depth) { return mixed(it, next() + (uint64_t)depth); }

static uint64_t chooses(uint64_t it, int32_t depth)
{
    switch (next() % 4) {
    case 0: return asks(it, depth);
    case 1: return asks(asks(it, depth) + 1, depth);
    case 2: return it & 1 ? step(it, depth) : adds(it, depth);
    default: return it;
    }
}

static uint64_t step(uint64_t it, int32_t depth)
{
    static action *const actions[] = { asks, repeats, both, adds, chooses };
    if (!depth || left-- <= 0)
        return it;
    return actions[next() % (sizeof actions / sizeof *actions)](it, depth - 1);
}

#ifdef __wasm__
#define EXPORT(name) __attribute__((export_name(#name)))
#else
#define EXPORT(name)
int32_t (*ask_by)(const void *question, uint32_t length, void *answer, uint32_t room);
int32_t ask(const void *question, uint32_t length, void *answer, uint32_t room) { return ask_by(question, length, answer, room); }
#endif

EXPORT(program_at) uint8_t *program_at(void) { return program; }

EXPORT(run) int64_t run(int32_t length, int64_t seed)
{
    uint64_t it = (uint64_t)seed;
    at = program;
    end = program + length;
    left = MOST;
    while (at < end && left > 0)
        it = mixed(it, step(it, DEPTH));
    return (int64_t)it;
}

/* Called while a question waits: it can't ask. */
EXPORT(other) int32_t other(int32_t number)
{
    int32_t told = 0;
    return ask(&number, sizeof number, &told, sizeof told) * 1000 + told;
}
