/* All that a header may have. */
#ifndef KINDS_H
#define KINDS_H
#include <stdbool.h>
#include <stddef.h>
#include <stdint.h>
#define EXPORT(name) __attribute__((export_name(#name)))
#ifdef __cplusplus
extern "C" {
#endif

typedef struct point { int32_t x, y; } point;
struct mixed {
    int8_t a; /* a gap behind it */
    uint64_t b;
    bool c;
    uint16_t d;
};

EXPORT(add) int64_t add(int32_t by);
EXPORT(narrow) uint8_t narrow(int8_t a, uint16_t b, bool c);
EXPORT(words) int32_t words(const char *text);
EXPORT(crc) uint32_t crc(const uint8_t *data, uint32_t data_size);
EXPORT(twice) int32_t twice(const uint8_t *data, uint32_t data_size, uint8_t *into, uint32_t into_room);
EXPORT(upper) int32_t upper(const char *from, uint32_t from_size, char *into, uint32_t into_room);
EXPORT(version) const char *version(void);
EXPORT(middle) int32_t middle(const point *a, const point *b, point *result);
EXPORT(swapped) void swapped(const struct mixed *it, struct mixed *result);
EXPORT(is_even) bool is_even(uint64_t n);
EXPORT(forget) void forget(void);
#ifdef ALLOCATOR
EXPORT(malloc) void *malloc(size_t size);
EXPORT(free) void free(void *at);
#else
EXPORT(room) void *room(uint32_t size);
#endif

#ifdef __cplusplus
}
#endif
#endif
