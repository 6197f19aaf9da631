/* A plug-in that keeps its state: a counter, and a table of keys and values in its memory. */
#define EXPORT(name) __attribute__((export_name(#name)))
typedef unsigned char byte;
typedef unsigned int u32;
typedef long long i64;

static byte buffer[4096]; /* what the host writes and reads */
static struct { u32 key, key_length, value, value_length; } entries[64];
static byte heap[16384];
static u32 used, count;
static i64 total;

EXPORT(add) i64 add(i64 by) { return total += by; }
EXPORT(buffer) byte *at(void) { return buffer; }
EXPORT(room) u32 room(void) { return sizeof buffer; }
EXPORT(count) u32 how_many(void) { return count; }

static u32 find(u32 length) {
    for (u32 k = 0; k < count; k++) {
        u32 at = 0;
        if (entries[k].key_length != length) continue;
        while (at < length && heap[entries[k].key + at] == buffer[at]) at++;
        if (at == length) return k;
    }
    return count;
}

static u32 keep(const byte *from, u32 length) {
    u32 at = used;
    for (u32 k = 0; k < length; k++) heap[used++] = from[k];
    return at;
}

/* The buffer has a key and behind it a value. 1, or 0 where there is no room. */
EXPORT(put) u32 put(u32 key, u32 value) {
    u32 k = find(key);
    if (key + value > sizeof heap - used || k == 64) return 0;
    if (k == count) {
        entries[k].key = keep(buffer, key);
        entries[k].key_length = key;
        count++;
    }
    entries[k].value = keep(buffer + key, value);
    entries[k].value_length = value;
    return 1;
}

/* The buffer has a key. Its value's length, with the value in the buffer, or -1. */
EXPORT(get) int get(u32 key) {
    u32 k = find(key);
    if (k == count) return -1;
    for (u32 at = 0; at < entries[k].value_length; at++) buffer[at] = heap[entries[k].value + at];
    return (int)entries[k].value_length;
}

/* Ends otherwise than by a return, each after it has counted. */
EXPORT(divide) int divide(int a, int b) { total += 1000; return a / b; }
EXPORT(deep) int deep(int n) { total++; return n == 0 ? 0 : deep(n - 1) + (int)total; }
EXPORT(spin) void spin(void) { for (;;) { total++; __asm__ volatile("" ::: "memory"); } }
EXPORT(grow) u32 grow(u32 pages) { return __builtin_wasm_memory_grow(0, pages); }
EXPORT(nothing) void nothing(void) {}
