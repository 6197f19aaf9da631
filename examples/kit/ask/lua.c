/* Lua as a plug-in: a program runs in an instance, and its function `ask` asks the host. The answer is a string, or nil.
 *
 * The program is a coroutine and `ask` yields, so its state is in Lua's own stack, and nothing of Lua is changed: no Asyncify. With ANYWHERE and
 * ask.c, `ask` asks by Asyncify, also where a function in C stands between it and the program. */
#include "ask.h"
#include "program.h"
#include <lauxlib.h>
#include <lua.h>
#include <lualib.h>
#include <string.h>

static enum { IDLE, WAITING, ANSWERED } state;
static char answer[TEXT];
static int32_t answered;

static lua_State *routine;
static lua_CFunction own_resume, own_wrap, own_wrapped, own_yield;

static int lua_answered(lua_State *L, int status, lua_KContext none)
{
    (void)status, (void)none;
    if (state != ANSWERED)
        return luaL_error(L, "attempt to ask across a C-call boundary");
    state = IDLE;
    if (answered > (int32_t)sizeof answer)
        return luaL_error(L, "an answer of %d bytes", answered);
    if (answered < 0)
        lua_pushnil(L);
    else
        lua_pushlstring(L, answer, (size_t)answered);
    return 1;
}

#ifdef ANYWHERE
static int lua_ask(lua_State *L)
{
    size_t length;
    const char *question = luaL_checklstring(L, 1, &length);
    answered = ask(question, (uint32_t)length, answer, sizeof answer);
    state = ANSWERED;
    return lua_answered(L, LUA_OK, 0);
}
#else
/* As the host reads it. */
static struct { const void *bytes; uint32_t length; void *answer; uint32_t room; } now;

EXPORT(ask_next) const void *ask_next(void) { return state == WAITING ? &now : NULL; }

EXPORT(ask_answer) int32_t ask_answer(int32_t length)
{
    if (state != WAITING)
        return -1;
    answered = length;
    state = ANSWERED;
    return 0;
}

static int lua_ask(lua_State *L)
{
    size_t length;
    const char *question = luaL_checklstring(L, 1, &length);
    if (!lua_isyieldable(L))
        return lua_answered(L, LUA_OK, 0);
    now.bytes = question, now.length = (uint32_t)length, now.answer = answer, now.room = sizeof answer;
    state = WAITING;
    return lua_yieldk(L, 0, 0, lua_answered);
}
#endif

/* coroutine.resume, which keeps one value of its stack, the coroutine, and what coroutine.wrap returns, which keeps none. If the coroutine asks,
 * its caller yields as well, up to the host, and then resumes it. Where the caller can't, `ask` raises an error. */
static int passed(lua_State *L, int status, lua_KContext kept)
{
    (void)status;
    for (;;) {
        int count = (kept ? own_resume : own_wrapped)(L);
        if (state != WAITING)
            return count;
        lua_settop(L, (int)kept);
        if (lua_isyieldable(L))
            return lua_yieldk(L, 0, kept, passed);
        state = IDLE;
    }
}

static int lua_resumes(lua_State *L) { return passed(L, LUA_OK, 1); }
static int lua_wrapped(lua_State *L) { return passed(L, LUA_OK, 0); }

static int lua_wraps(lua_State *L)
{
    own_wrap(L);
    own_wrapped = lua_tocfunction(L, -1);
    lua_getupvalue(L, -1, 1);
    lua_pushcclosure(L, lua_wrapped, 1);
    return 1;
}

static int lua_yields(lua_State *L)
{
    if (L != routine)
        return own_yield(L);
    lua_pushliteral(L, "attempt to yield from outside a coroutine");
    return lua_error(L);
}

/* Sets a field of the table on the stack, and returns the function that it was. */
static lua_CFunction replaced(lua_State *L, const char *name, lua_CFunction by)
{
    lua_getfield(L, -1, name);
    lua_CFunction own = lua_tocfunction(L, -1);
    lua_pop(L, 1);
    lua_pushcfunction(L, by);
    lua_setfield(L, -2, name);
    return own;
}

static lua_State *opened(void)
{
    static const luaL_Reg libraries[] = { { "_G", luaopen_base }, { "string", luaopen_string }, { "table", luaopen_table },
        { "math", luaopen_math }, { "utf8", luaopen_utf8 }, { "coroutine", luaopen_coroutine } };
    lua_State *L = luaL_newstate();
    for (size_t i = 0; i < sizeof libraries / sizeof *libraries; i++)
        luaL_requiref(L, libraries[i].name, libraries[i].func, 1);
    own_resume = replaced(L, "resume", lua_resumes);
    own_wrap = replaced(L, "wrap", lua_wraps);
    own_yield = replaced(L, "yield", lua_yields);
    lua_register(L, "ask", lua_ask);
    lua_settop(L, 0);
    return L;
}

/* Runs the program, or goes on with it; the reply is what it returns, or the message of its error. Returns Lua's status, 0 if there was no
 * error. */
EXPORT(run) int32_t run(uint32_t length)
{
    static lua_State *L;
    int count, status = LUA_OK;
    if (state == WAITING)
        return ASK_BUSY;
    if (state == IDLE) {
        L = opened();
        routine = lua_newthread(L);
        status = luaL_loadbuffer(routine, program, length, "=program");
    }
    if (status == LUA_OK)
        status = lua_resume(routine, L, 0, &count);
    if (status == LUA_YIELD)
        return LUA_OK;
    if (lua_status(routine) != LUA_OK)
        status = lua_resetthread(routine);
    lua_settop(routine, 1);
    size_t size;
    const char *text = luaL_tolstring(routine, 1, &size);
    reply_length = (uint32_t)(size < sizeof reply ? size : sizeof reply);
    memcpy(reply, text, reply_length);
    lua_close(L);
    return status;
}
