/* What a row costs: a function in C, a plug-in by its own name and by `plugin`, and Lua within a limit, in turns; the least of nine. Nanoseconds above a scan
 * that calls nothing. bench wasmloop.so MODULE-IN-HEX, by test.sh bench. */
#include <lauxlib.h>
#include <lua.h>
#include <lualib.h>
#include <sqlite3.h>
#include <stdint.h>
#include <stdio.h>
#include <stdlib.h>
#include <time.h>

#define ROWS 30000
#define TURNS 9

static int64_t score(int64_t x) { return (x * 31 + 7) % 1009; }

static int64_t heavy(int64_t x)
{
    for (int i = 0; i < 100; i++) x = (x * 31 + 7) % 1009 + i;
    return x;
}

static void native_score(sqlite3_context *c, int n, sqlite3_value **v) { (void)n; sqlite3_result_int64(c, score(sqlite3_value_int64(v[0]))); }
static void native_heavy(sqlite3_context *c, int n, sqlite3_value **v) { (void)n; sqlite3_result_int64(c, heavy(sqlite3_value_int64(v[0]))); }

static void native_slug(sqlite3_context *c, int count, sqlite3_value **v)
{
    const char *text = (const char *)sqlite3_value_text(v[0]);
    int size = sqlite3_value_bytes(v[0]), n = 0;
    char *into = sqlite3_malloc(size + 1);
    (void)count;
    for (int i = 0; i < size; i++) {
        char ch = text[i];
        if (ch >= 'A' && ch <= 'Z') ch = (char)(ch + 32);
        if ((ch >= 'a' && ch <= 'z') || (ch >= '0' && ch <= '9')) into[n++] = ch;
        else if (n && into[n - 1] != '-') into[n++] = '-';
    }
    while (n && into[n - 1] == '-') n--;
    sqlite3_result_text(c, into, n, sqlite3_free);
}

static lua_State *lua;
static const char lua_source[] = "function score(x) return (x * 31 + 7) % 1009 end\n"
    "function heavy(x) for i = 0, 99 do x = (x * 31 + 7) % 1009 + i end return x end\n"
    "function slug(t) return (t:lower():gsub('[^a-z0-9]+', '-'):gsub('^%-', ''):gsub('%-$', '')) end";

static void spent(lua_State *l, lua_Debug *d) { (void)d; luaL_error(l, "out of fuel"); }

/* With the limit that Lua has: instructions, anew for each call. */
static void lua_call_it(sqlite3_context *c, int n, sqlite3_value **v)
{
    size_t length;
    (void)n;
    lua_sethook(lua, spent, LUA_MASKCOUNT, 1000000);
    lua_getglobal(lua, sqlite3_user_data(c));
    if (sqlite3_value_type(v[0]) == SQLITE_TEXT) lua_pushlstring(lua, (const char *)sqlite3_value_text(v[0]), (size_t)sqlite3_value_bytes(v[0]));
    else lua_pushinteger(lua, sqlite3_value_int64(v[0]));
    if (lua_pcall(lua, 1, 1, 0)) sqlite3_result_error(c, lua_tostring(lua, -1), -1);
    else if (lua_type(lua, -1) == LUA_TSTRING) {
        const char *text = lua_tolstring(lua, -1, &length);
        sqlite3_result_text(c, text, (int)length, SQLITE_TRANSIENT);
    } else sqlite3_result_int64(c, lua_tointeger(lua, -1));
    lua_pop(lua, 1);
}

static double now(void)
{
    struct timespec t;
    clock_gettime(CLOCK_PROCESS_CPUTIME_ID, &t);
    return (double)t.tv_sec * 1e9 + (double)t.tv_nsec;
}

static void must(sqlite3 *db, int status)
{
    if (status == SQLITE_OK || status == SQLITE_ROW || status == SQLITE_DONE) return;
    fprintf(stderr, "%s\n", sqlite3_errmsg(db));
    exit(1);
}

static sqlite3 *opened(const char *extension, const char *module)
{
    static const char *names[] = { "score", "heavy", "slug" };
    static void (*const native[])(sqlite3_context *, int, sqlite3_value **) = { native_score, native_heavy, native_slug };
    sqlite3 *db;
    char text[400];
    must(NULL, sqlite3_open(":memory:", &db));
    sqlite3_enable_load_extension(db, 1);
    must(db, sqlite3_load_extension(db, extension, NULL, NULL));
    for (int i = 0; i < 3; i++) {
        snprintf(text, sizeof text, "n_%s", names[i]);
        sqlite3_create_function(db, text, 1, SQLITE_UTF8, NULL, native[i], NULL, NULL);
        snprintf(text, sizeof text, "l_%s", names[i]);
        sqlite3_create_function(db, text, 1, SQLITE_UTF8, (void *)names[i], lua_call_it, NULL, NULL);
    }
    snprintf(text, sizeof text, "CREATE TABLE t AS WITH RECURSIVE c(x) AS (VALUES(1) UNION ALL SELECT x + 1 FROM c WHERE x < %d) "
        "SELECT x, 'An Article about Number ' || x || ', in Two Parts' AS s FROM c", ROWS);
    must(db, sqlite3_exec(db, text, NULL, NULL, NULL));
    char *load = sqlite3_mprintf("SELECT load_plugin('r', x'%s'), plugin_functions('r')", module);
    must(db, sqlite3_exec(db, load, NULL, NULL, NULL));
    sqlite3_free(load);
    return db;
}

int main(int argc, char **argv)
{
    static const struct { const char *name, *what; int base; } all[] = { { "scan", "x", 0 }, { "score: native", "n_score(x)", 0 }, { "score: wasmloop", "r_score(x)", 0 },
        { "score: wasmloop, plugin()", "plugin('r', 'score', x)", 0 }, { "score: Lua", "l_score(x)", 0 }, { "heavy: native", "n_heavy(x)", 0 }, { "heavy: wasmloop", "r_heavy(x)", 0 },
        { "heavy: Lua", "l_heavy(x)", 0 }, { "scan of text", "length(s)", 8 }, { "slug: native", "length(n_slug(s))", 8 }, { "slug: wasmloop", "length(r_slug(s))", 8 },
        { "slug: wasmloop, plugin_work()", "length(plugin_work('r', 0, s))", 8 }, { "slug: Lua", "length(l_slug(s))", 8 } };
    enum { COUNT = sizeof all / sizeof *all };
    double best[COUNT];
    sqlite3_stmt *statement[COUNT];
    if (argc != 3) return 2;
    lua = luaL_newstate();
    luaL_openlibs(lua);
    if (luaL_dostring(lua, lua_source)) return 1;
    sqlite3 *db = opened(argv[1], argv[2]);
    for (int i = 0; i < COUNT; i++) {
        char text[200];
        best[i] = 1e18;
        snprintf(text, sizeof text, "SELECT sum(%s) FROM t", all[i].what);
        must(db, sqlite3_prepare_v2(db, text, -1, &statement[i], NULL));
    }
    for (int k = 0; k < TURNS * COUNT; k++) {
        int i = k % COUNT;
        double began = now();
        must(db, sqlite3_step(statement[i]));
        double took = now() - began;
        if (took < best[i]) best[i] = took;
        sqlite3_reset(statement[i]);
    }
    for (int i = 0; i < COUNT; i++)
        if (all[i].base != i) printf("%-30s %8.0f ns a row\n", all[i].name, (best[i] - best[all[i].base]) / ROWS);
    return 0;
}
