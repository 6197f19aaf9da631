/* The sums of an order. */
#include <stdint.h>

#define EXPORT(name) __attribute__((export_name(#name)))

/* Takes {"items": [{"price": 250, "count": 2}], "tax": 19}, and writes {"net":500,"tax":95,"gross":595}. Returns its length; or -N, if what begins
 * with the Nth byte is not as expected. */
EXPORT(sums) int32_t sums(const char *order, uint32_t order_size, char *into, uint32_t into_room);

/* A place for `size` bytes, or NULL. */
EXPORT(room) void *room(uint32_t size);
