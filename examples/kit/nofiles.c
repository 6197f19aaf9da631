/* Beside wasi.c, for code that names files, clocks or the environment and does without them when it runs: each call is
   answered "not there" (ENOSYS; no folders, no variables). */
#include <stdint.h>

#define WASI(name) __imported_wasi_snapshot_preview1_##name
enum { WASI_EBADF = 8, WASI_ENOSYS = 52 };

#define NOT_THERE(name, ...) \
    int32_t WASI(name)(__VA_ARGS__) { return WASI_ENOSYS; }

NOT_THERE(args_get, int32_t a, int32_t b)
NOT_THERE(args_sizes_get, int32_t a, int32_t b)
NOT_THERE(clock_res_get, int32_t a, int32_t b)
NOT_THERE(clock_time_get, int32_t a, int64_t b, int32_t c)
NOT_THERE(environ_get, int32_t a, int32_t b)
NOT_THERE(fd_advise, int32_t a, int64_t b, int64_t c, int32_t d)
NOT_THERE(fd_allocate, int32_t a, int64_t b, int64_t c)
NOT_THERE(fd_datasync, int32_t a)
NOT_THERE(fd_fdstat_set_flags, int32_t a, int32_t b)
NOT_THERE(fd_filestat_get, int32_t a, int32_t b)
NOT_THERE(fd_filestat_set_size, int32_t a, int64_t b)
NOT_THERE(fd_filestat_set_times, int32_t a, int64_t b, int64_t c, int32_t d)
NOT_THERE(fd_pread, int32_t a, int32_t b, int32_t c, int64_t d, int32_t e)
NOT_THERE(fd_prestat_dir_name, int32_t a, int32_t b, int32_t c)
NOT_THERE(fd_pwrite, int32_t a, int32_t b, int32_t c, int64_t d, int32_t e)
NOT_THERE(fd_read, int32_t a, int32_t b, int32_t c, int32_t d)
NOT_THERE(fd_readdir, int32_t a, int32_t b, int32_t c, int64_t d, int32_t e)
NOT_THERE(fd_renumber, int32_t a, int32_t b)
NOT_THERE(fd_sync, int32_t a)
NOT_THERE(fd_tell, int32_t a, int32_t b)
NOT_THERE(path_create_directory, int32_t a, int32_t b, int32_t c)
NOT_THERE(path_filestat_get, int32_t a, int32_t b, int32_t c, int32_t d, int32_t e)
NOT_THERE(path_filestat_set_times, int32_t a, int32_t b, int32_t c, int32_t d, int64_t e, int64_t f, int32_t g)
NOT_THERE(path_link, int32_t a, int32_t b, int32_t c, int32_t d, int32_t e, int32_t f, int32_t g)
NOT_THERE(path_open, int32_t a, int32_t b, int32_t c, int32_t d, int32_t e, int64_t f, int64_t g, int32_t h, int32_t i)
NOT_THERE(path_readlink, int32_t a, int32_t b, int32_t c, int32_t d, int32_t e, int32_t f)
NOT_THERE(path_remove_directory, int32_t a, int32_t b, int32_t c)
NOT_THERE(path_rename, int32_t a, int32_t b, int32_t c, int32_t d, int32_t e, int32_t f)
NOT_THERE(path_symlink, int32_t a, int32_t b, int32_t c, int32_t d, int32_t e)
NOT_THERE(path_unlink_file, int32_t a, int32_t b, int32_t c)
NOT_THERE(poll_oneoff, int32_t a, int32_t b, int32_t c, int32_t d)
NOT_THERE(random_get, int32_t a, int32_t b)
NOT_THERE(sched_yield, void)

int32_t WASI(fd_prestat_get)(int32_t fd, int32_t at)
{
    (void)fd, (void)at;
    return WASI_EBADF;
}

int32_t WASI(environ_sizes_get)(int32_t *count, int32_t *size)
{
    *count = *size = 0;
    return 0;
}
