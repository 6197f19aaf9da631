/* The guest that the hosts of this folder load: as a plug-in (its exports), and as a work function (uv_work). The hostile ones are here too. */
#include "uv.h"
#define EXPORT(name) __attribute__((export_name(#name)))

static char place[UV_MAX_BYTES];

EXPORT(room) void *room(uint32_t size) { return size <= sizeof place ? place : 0; }

/* numbers in, a number out */
EXPORT(score) int64_t score(int64_t x) { return (x * 31 + 7) % 1009; }

/* as score, after a hundred rounds of it */
EXPORT(heavy) int64_t heavy(int64_t x)
{
    for (int i = 0; i < 100; i++)
        x = (x * 31 + 7) % 1009 + i;
    return x;
}

static int64_t total;
EXPORT(running) int64_t running(int64_t x) { return total += x; }   /* keeps its state */
EXPORT(spin) int64_t spin(int64_t x) { for (;;) __asm__ volatile("" : "+r"(x)); }
EXPORT(divide) int32_t divide(int32_t a, int32_t b) { return a / b; }

/* all the memory there is, each page of it written; then again and again */
EXPORT(grow) int64_t grow(int64_t x)
{
    for (;;) {
        int page = __builtin_wasm_memory_grow(0, 1);
        if (page < 0) x++; else *(volatile char *)(page * 65536) = 1;
    }
}

/* calls that cost a host more than their unit */
EXPORT(copies) int64_t copies(int64_t x)
{
    for (;;) {
        uv_in_copy(place, 0, sizeof place);
        uv_out_set(place, sizeof place);
        __asm__ volatile("" : "+r"(x));
    }
}

/* nested calls without an end */
EXPORT(deep) __attribute__((noinline)) int64_t deep(int64_t x)
{
    int64_t y = deep(x + 1);
    __asm__ volatile("" : "+r"(y));
    return y + x;
}

static uint32_t slugify(const char *text, uint32_t size, char *into, uint32_t most)
{
    uint32_t n = 0;
    for (uint32_t i = 0; i < size && n < most; i++) {
        char c = text[i];
        if (c >= 'A' && c <= 'Z') c += 32;
        if ((c >= 'a' && c <= 'z') || (c >= '0' && c <= '9')) into[n++] = c;
        else if (n && into[n - 1] != '-') into[n++] = '-';
    }
    while (n && into[n - 1] == '-') n--;
    return n;
}

/* text in, text out: the declaration that wasmloop.bind reads */
EXPORT(slug) int32_t slug(const char *text, uint32_t text_size, char *into, uint32_t into_room)
{
    return (int32_t)slugify(text, text_size, into, into_room);
}

static char input[UV_MAX_BYTES], output[UV_MAX_BYTES];
UV_WORK(operation)
{
    uint32_t size = (uint32_t)uv_in_len();
    uv_in_copy(input, 0, size);
    if (operation == 1) for (;;) __asm__ volatile("");
    if (operation == 2) return *(volatile int32_t *)0x7fffffff;
    if (operation == 3) { int32_t n = 0; for (int i = 0; i < 2000000; i++) { n = n * 31 + i; __asm__ volatile("" : "+r"(n)); } return n; }
    if (operation == 4) return (int32_t)grow(0);
    if (operation == 5) return (int32_t)copies(0);
    if (operation == 6) return (int32_t)deep(0);
    uint32_t n = slugify(input, size, output, sizeof output);
    uv_out_set(output, n);
    return (int32_t)n;
}

/* ---- For SQL ---- */

/* A set: the numbers from 1 to n, of which `from` are told already. It returns how many bytes it has written, 0 behind the last. */
EXPORT(series) int32_t series(int64_t n, int64_t *into, uint32_t room, uint32_t from)
{
    uint32_t count = 0;
    for (; count < room / 8 && from + (int64_t)count < n; count++) into[count] = from + (int64_t)count + 1;
    return (int32_t)(count * 8);
}

/* A set of text: the words of a text, each behind its length; NULL for "-". */
EXPORT(words) int32_t words(const char *text, uint32_t size, char *into, uint32_t room, uint32_t from)
{
    uint32_t n = 0, word = 0, end;
    for (uint32_t i = 0; i < size; i = end + 1) {
        for (end = i; end < size && text[end] != ' ';) end++;
        if (end == i || word++ < from) continue;
        uint32_t length = end == i + 1 && text[i] == '-' ? UINT32_MAX : end - i, bytes = length == UINT32_MAX ? 0 : length;
        if (n + 4 + bytes > room) break;
        __builtin_memcpy(into + n, &length, 4);
        __builtin_memcpy(into + n + 4, text + i, bytes);
        n += 4 + bytes;
    }
    return (int32_t)n;
}

/* It says that there are more, for ever. */
EXPORT(more) int32_t more(int64_t *into, uint32_t room, uint32_t from) { *into = from; return room < 8 ? 0 : 8; }

/* Told of NULL: bit k of the first argument stands for argument k behind it. */
EXPORT(total_of) int64_t total_of(uint32_t nulls, int64_t a, int64_t b) { return (nulls & 1 ? 0 : a) + (nulls & 2 ? 0 : b); }

/* NULL of an empty text, "unknown" of NULL. */
EXPORT(known) int32_t known(uint32_t nulls, const char *text, uint32_t size, char *into, uint32_t room)
{
    if (nulls) text = "unknown", size = 7;
    if (size == 0 || size > room) return -1;
    __builtin_memmove(into, text, size);
    return (int32_t)size;
}

/* The hash of a number for an index, which keeps a state: a 13 never ends, and behind one a 99 fails. */
static int32_t seen;
EXPORT(hashed) int32_t hashed(int64_t x)
{
    if (x == 13) seen = 1, spin(x);
    if (x == 99 && seen) __builtin_trap();
    return (int32_t)x;
}
