/* Preloaded, it refuses the server's first block of the size of a loop: of calloc's no other is near it. */
#include <errno.h>
#include <stdatomic.h>
#include <stddef.h>

enum { LEAST = 16384, MOST = 18000 }; /* the emits of a loop are most of it */

void *__libc_calloc(size_t count, size_t size);

void *calloc(size_t count, size_t size) {
    static atomic_flag refused;
    if (count != 1 || size < LEAST || size > MOST || atomic_flag_test_and_set(&refused)) return __libc_calloc(count, size);
    errno = ENOMEM;
    return NULL;
}
