/* SQLite as a plug-in whose database lies at its host: its file system asks for pages, as it needs them. A question is a `question`; its answer
 * is a page, or the size of the file. */
#include "ask.h"
#include "program.h"
#include <sqlite3.h>
#include <stdlib.h>
#include <string.h>

enum { MOST_PAGE = 4096 };

typedef struct question {
    enum { READ, WRITE, SIZE, TRUNCATE } kind;
    uint32_t length;
    int64_t at;
    char bytes[MOST_PAGE]; /* of a page to be written, `length` of them */
} question;

enum { HEAD = 16 };

static sqlite3 *database;

static int read_page(sqlite3_file *file, void *into, int length, sqlite3_int64 at)
{
    question it = { .kind = READ, .length = (uint32_t)length, .at = at };
    int32_t told = ask(&it, HEAD, into, (uint32_t)length);
    (void)file;
    if (told < 0)
        return SQLITE_IOERR_READ;
    if (told >= length)
        return SQLITE_OK;
    memset((char *)into + told, 0, (size_t)(length - told));
    return SQLITE_IOERR_SHORT_READ;
}

static int write_page(sqlite3_file *file, const void *bytes, int length, sqlite3_int64 at)
{
    question it = { .kind = WRITE, .length = (uint32_t)length, .at = at };
    (void)file;
    if (length > MOST_PAGE)
        return SQLITE_IOERR_WRITE;
    memcpy(it.bytes, bytes, (size_t)length);
    return ask(&it, HEAD + (uint32_t)length, NULL, 0) < 0 ? SQLITE_IOERR_WRITE : SQLITE_OK;
}

static int truncate_to(sqlite3_file *file, sqlite3_int64 size)
{
    question it = { .kind = TRUNCATE, .at = size };
    (void)file;
    return ask(&it, HEAD, NULL, 0) < 0 ? SQLITE_IOERR_TRUNCATE : SQLITE_OK;
}

static int size_of(sqlite3_file *file, sqlite3_int64 *size)
{
    question it = { .kind = SIZE };
    (void)file;
    return ask(&it, HEAD, size, sizeof *size) == sizeof *size ? SQLITE_OK : SQLITE_IOERR_FSTAT;
}

/* The database has one owner, its journal is in memory, and when a page is safe is the host's to know. */
static int no_close(sqlite3_file *file) { return (void)file, SQLITE_OK; }
static int no_flags(sqlite3_file *file, int flags) { return (void)file, (void)flags, SQLITE_OK; }
static int is_reserved(sqlite3_file *file, int *found) { return (void)file, *found = 0, SQLITE_OK; }
static int no_control(sqlite3_file *file, int op, void *about) { return (void)file, (void)op, (void)about, SQLITE_NOTFOUND; }
static int sector(sqlite3_file *file) { return (void)file, MOST_PAGE; }
static int traits(sqlite3_file *file) { return (void)file, 0; }
static const sqlite3_io_methods methods = { 1, no_close, read_page, write_page, truncate_to, no_flags, size_of, no_flags, no_flags, is_reserved,
    no_control, sector, traits, 0, 0, 0, 0, 0, 0 };

static int open_file(sqlite3_vfs *vfs, const char *name, sqlite3_file *file, int flags, int *got)
{
    (void)vfs, (void)name;
    file->pMethods = flags & SQLITE_OPEN_MAIN_DB ? &methods : NULL;
    if (got)
        *got = flags;
    return file->pMethods ? SQLITE_OK : SQLITE_CANTOPEN;
}
static int remove_file(sqlite3_vfs *vfs, const char *name, int sync) { return (void)vfs, (void)name, (void)sync, SQLITE_OK; }
static int look_for(sqlite3_vfs *vfs, const char *name, int flags, int *found) { return (void)vfs, (void)name, (void)flags, *found = 0, SQLITE_OK; }
static int full_name(sqlite3_vfs *vfs, const char *name, int room, char *into) { return (void)vfs, strncpy(into, name, (size_t)room), SQLITE_OK; }
static int random_bytes(sqlite3_vfs *vfs, int count, char *into) { return (void)vfs, memset(into, 7, (size_t)count), count; }
static int sleep_for(sqlite3_vfs *vfs, int us) { return (void)vfs, (void)us, 0; }
static int julian_day(sqlite3_vfs *vfs, double *now) { return (void)vfs, *now = 2460000.5, SQLITE_OK; }
static int last_error(sqlite3_vfs *vfs, int room, char *into) { return (void)vfs, (void)room, (void)into, 0; }
static sqlite3_vfs of_host = { 1, sizeof(sqlite3_file), 512, 0, "host", 0, open_file, remove_file, look_for, full_name, 0, 0, 0, 0, random_bytes,
    sleep_for, julian_day, last_error, 0, 0, 0, 0 };
int sqlite3_os_init(void) { return sqlite3_vfs_register(&of_host, 1); }
int sqlite3_os_end(void) { return SQLITE_OK; }

static void put(const char *text, char behind)
{
    for (; *text && reply_length < sizeof reply - 1; text++)
        reply[reply_length++] = *text;
    reply[reply_length++] = behind;
}

static int put_row(void *none, int count, char **values, char **names)
{
    (void)none, (void)names;
    for (int k = 0; k < count && reply_length < sizeof reply - 1; k++)
        put(values[k] ? values[k] : "NULL", k + 1 < count ? '|' : '\n');
    return reply_length >= sizeof reply - 1;
}

/* Runs SQL on the host's database; the reply has its rows, and the message of an error. Returns SQLite's status. */
EXPORT(run) int32_t run(uint32_t length)
{
    char *why = NULL;
    int status = SQLITE_OK;
    reply_length = 0;
    program[length < sizeof program ? length : sizeof program - 1] = 0;
    if (!database)
        status = sqlite3_initialize();
    if (!database && status == SQLITE_OK && (status = sqlite3_open("database", &database)) == SQLITE_OK)
        status = sqlite3_exec(database, "pragma journal_mode = memory", NULL, NULL, NULL);
    if (status == SQLITE_OK)
        status = sqlite3_exec(database, program, put_row, NULL, &why);
    if (why)
        put(why, '\n');
    sqlite3_free(why);
    return status;
}
