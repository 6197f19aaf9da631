/* SQLite with a database in memory: `init` runs a schema; uv_work runs the SQL of the request, and replies with its rows. */
#include <stdlib.h>
#include <string.h>
#include "guest.h"
#include "sqlite3.h"

static sqlite3 *database;

/* A file system without files, for SQLite's own names alone. */
static int no_file(sqlite3_vfs *vfs, const char *name, sqlite3_file *file, int flags, int *got) { return SQLITE_CANTOPEN; }
static int remove_file(sqlite3_vfs *vfs, const char *name, int sync) { return SQLITE_OK; }
static int look_for(sqlite3_vfs *vfs, const char *name, int flags, int *found) { return *found = 0, SQLITE_OK; }
static int full_name(sqlite3_vfs *vfs, const char *name, int room, char *into) { return strncpy(into, name, (size_t)room), SQLITE_OK; }
static int random_bytes(sqlite3_vfs *vfs, int count, char *into) { return memset(into, 7, (size_t)count), count; }
static int sleep_for(sqlite3_vfs *vfs, int us) { return 0; }
static int julian_day(sqlite3_vfs *vfs, double *now) { return *now = 2460000.5, SQLITE_OK; }
static int last_error(sqlite3_vfs *vfs, int room, char *into) { return 0; }
static sqlite3_vfs no_files = { 1, sizeof(sqlite3_file), 512, 0, "none", 0, no_file, remove_file, look_for, full_name, 0, 0, 0, 0,
    random_bytes, sleep_for, julian_day, last_error };
int sqlite3_os_init(void) { return sqlite3_vfs_register(&no_files, 1); }
int sqlite3_os_end(void) { return SQLITE_OK; }

static int put_row(void *none, int count, char **values, char **names)
{
    for (int k = 0; k < count; k++) {
        const char *value = values[k] ? values[k] : "NULL";
        guest_put(value, strlen(value));
        guest_byte(k + 1 < count ? '|' : '\n');
    }
    return 0;
}

__attribute__((export_name("init_room"))) char *init_room(size_t length) { return calloc(length + 1, 1); }

__attribute__((export_name("init"))) int init(const char *schema, size_t length)
{
    int status = sqlite3_initialize();
    if (status == SQLITE_OK) status = sqlite3_open(":memory:", &database);
    return status == SQLITE_OK && length ? sqlite3_exec(database, schema, 0, 0, 0) : status;
}

GUEST(operation)
{
    size_t length;
    char *sql = (char *)guest_input(&length), *why = 0;
    if (!database && init("", 0) != SQLITE_OK) return guest_end(-1);
    int status = sqlite3_exec(database, sql, put_row, 0, &why);
    if (why) guest_put(why, strlen(why));
    return guest_end(status);
}
