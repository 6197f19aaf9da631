/* Is loaded into a program before the C library (LD_PRELOAD). The thread whose number, counted from 1, stands in REFUSED_THREAD isn't
   made. With TELL_LARGE each allocation of 1 MiB or more writes an L to standard error. */
#define _GNU_SOURCE
#include <dlfcn.h>
#include <errno.h>
#include <pthread.h>
#include <stdatomic.h>
#include <stddef.h>
#include <stdlib.h>
#include <unistd.h>

extern void *__libc_malloc(size_t);
extern void *__libc_calloc(size_t, size_t);
extern void *__libc_realloc(void *, size_t);
extern void *__libc_memalign(size_t, size_t);

static atomic_long threads;

int pthread_create(pthread_t *thread, const pthread_attr_t *attributes, void *(*run)(void *), void *with)
{
    const char *refused = getenv("REFUSED_THREAD");
    int (*create)(pthread_t *, const pthread_attr_t *, void *(*)(void *), void *) = dlsym(RTLD_NEXT, "pthread_create");
    if (refused != NULL && strtol(refused, NULL, 10) == atomic_fetch_add(&threads, 1) + 1)
        return EAGAIN;
    return create(thread, attributes, run, with);
}

static void tell(size_t size)
{
    if (size >= 1 << 20 && getenv("TELL_LARGE") != NULL && write(2, "L", 1) != 1)
        abort();
}

void *malloc(size_t size)
{
    tell(size);
    return __libc_malloc(size);
}

void *calloc(size_t count, size_t size)
{
    tell(count * size);
    return __libc_calloc(count, size);
}

void *realloc(void *old, size_t size)
{
    tell(size);
    return __libc_realloc(old, size);
}

void *aligned_alloc(size_t alignment, size_t size)
{
    tell(size);
    return __libc_memalign(alignment, size);
}

int posix_memalign(void **place, size_t alignment, size_t size)
{
    tell(size);
    *place = __libc_memalign(alignment, size);
    return *place == NULL ? ENOMEM : 0;
}
