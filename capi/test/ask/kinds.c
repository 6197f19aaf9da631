/* A plug-in with each kind of function that `bind` knows. */
#include "kinds.h"

static int64_t sum;
#ifdef ALLOCATOR
extern unsigned char __heap_base;
static uintptr_t top;
static int32_t held;

/* Hands out memory in a row, and begins anew once all was given back. */
void *malloc(size_t size)
{
    if (!held++)
        top = (uintptr_t)&__heap_base;
    size_t needs = top + size, there = __builtin_wasm_memory_size(0) << 16;
    if (needs > there && __builtin_wasm_memory_grow(0, (needs - there + 65535) >> 16) == (size_t)-1)
        return NULL;
    top += size;
    return (void *)(needs - size);
}

void free(void *at) { held -= at != NULL; }
#else
static _Alignas(16) uint8_t place[200000];

void *room(uint32_t size) { return size <= sizeof place ? place : NULL; }
#endif

int64_t add(int32_t by) { return sum += by; }
uint8_t narrow(int8_t a, uint16_t b, bool c) { return (uint8_t)(a * 3 + b * 5 + c); }

int32_t words(const char *text)
{
    int32_t count = 0;
    for (bool inside = false; *text; text++) {
        count += *text != ' ' && !inside;
        inside = *text != ' ';
    }
    return count;
}

uint32_t crc(const uint8_t *data, uint32_t data_size)
{
    uint32_t it = ~0u;
    for (uint32_t i = 0; i < data_size; i++) {
        it ^= data[i];
        for (int bit = 0; bit < 8; bit++)
            it = it >> 1 ^ (it & 1 ? 0xedb88320u : 0);
    }
    return ~it;
}

int32_t twice(const uint8_t *data, uint32_t data_size, uint8_t *into, uint32_t into_room)
{
    for (uint32_t i = 0; i < 2 * data_size && i < into_room; i++)
        into[i] = data[i % data_size];
    return data_size > 60000 ? -7 : (int32_t)(2 * data_size);
}

int32_t upper(const char *from, uint32_t from_size, char *into, uint32_t into_room)
{
    for (uint32_t i = 0; i < from_size && i < into_room; i++)
        into[i] = from[i] >= 'a' && from[i] <= 'z' ? from[i] - 32 : from[i];
    return (int32_t)from_size;
}

const char *version(void) { return "1.2, of more than a few letters, so that it is read in several parts, as long texts are"; }

int32_t middle(const point *a, const point *b, point *result)
{
    if (a->x > b->x)
        return -1;
    result->x = a->x + (b->x - a->x) / 2;
    result->y = a->y / 2 + b->y / 2;
    return 0;
}

void swapped(const struct mixed *it, struct mixed *result)
{
    struct mixed made = { (int8_t)it->d, ~it->b, !it->c, (uint16_t)it->a };
    *result = made;
}

bool is_even(uint64_t n) { return n % 2 == 0; }
void forget(void) { sum = 0; }
