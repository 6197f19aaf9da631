/* With Debian's wasi-libc: the calls of a system that its stdio and exit make, so that a module has no import but those
   of "uv". What is written to stdout goes to the reply, what is written to stderr nowhere. exit and abort are a trap.
   Code that opens a file or asks for the time still imports that call, and the host refuses the module: nofiles.c
   answers those. */
#include "guest.h"
#include <stdio.h>

#define WASI(name) __imported_wasi_snapshot_preview1_##name
enum { WASI_EBADF = 8, WASI_ESPIPE = 70, WASI_FDSTAT = 24, WASI_RIGHTS = 8 };

typedef struct {
    const void *at;
    size_t length;
} part;

_Noreturn void WASI(proc_exit)(int32_t code)
{
    (void)code;
    __builtin_trap();
}

int32_t WASI(fd_close)(int32_t fd)
{
    (void)fd;
    return 0;
}

int32_t WASI(fd_seek)(int32_t fd, int64_t by, int32_t from, int32_t at)
{
    (void)fd, (void)by, (void)from, (void)at;
    return WASI_ESPIPE;
}

/* stdin, stdout and stderr are there, of no kind that is known, with all rights. */
int32_t WASI(fd_fdstat_get)(int32_t fd, uint8_t *stat)
{
    if (fd > 2)
        return WASI_EBADF;
    for (int i = 0; i < WASI_FDSTAT; i++)
        stat[i] = i < WASI_RIGHTS ? 0 : 255;
    return 0;
}

int32_t WASI(fd_write)(int32_t fd, const part *parts, size_t count, size_t *written)
{
    *written = 0;
    for (size_t i = 0; i < count; i++) {
        if (fd == 1)
            guest_put(parts[i].at, parts[i].length);
        *written += parts[i].length;
    }
    return 0;
}

/* guest_put writes to the reply at once, so stdout holds nothing back. */
__attribute__((constructor)) static void unbuffered(void)
{
    setvbuf(stdout, NULL, _IONBF, 0);
}
