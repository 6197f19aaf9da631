/* Refuses a program one allocation. It is loaded before the C library (LD_PRELOAD). The allocation whose number,
   counted from 1, stands in REFUSED gets no memory, and the file that REFUSED_MARK names is then made. */
#include <errno.h>
#include <fcntl.h>
#include <stdatomic.h>
#include <stddef.h>
#include <stdlib.h>
#include <unistd.h>

extern void *__libc_malloc(size_t);
extern void *__libc_calloc(size_t, size_t);
extern void *__libc_realloc(void *, size_t);
extern void *__libc_memalign(size_t, size_t);

static atomic_long asked;

static int is_refused(void)
{
    const char *number = getenv("REFUSED");
    const char *mark = getenv("REFUSED_MARK");
    long place = atomic_fetch_add(&asked, 1) + 1;
    if (number == NULL || mark == NULL || strtol(number, NULL, 10) != place)
        return 0;
    close(open(mark, O_WRONLY | O_CREAT, 0600));
    errno = ENOMEM;
    return 1;
}

void *malloc(size_t size)
{
    return is_refused() ? NULL : __libc_malloc(size);
}

void *calloc(size_t count, size_t size)
{
    return is_refused() ? NULL : __libc_calloc(count, size);
}

void *realloc(void *old, size_t size)
{
    return is_refused() ? NULL : __libc_realloc(old, size);
}

void *aligned_alloc(size_t alignment, size_t size)
{
    return is_refused() ? NULL : __libc_memalign(alignment, size);
}

int posix_memalign(void **place, size_t alignment, size_t size)
{
    if (is_refused())
        return ENOMEM;
    *place = __libc_memalign(alignment, size);
    return *place == NULL ? ENOMEM : 0;
}
