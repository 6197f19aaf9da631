/* Lua with a prelude: `init` creates the state and runs the prelude; uv_work runs the program of the request in it, and replies with what it
 * prints. Without init, uv_work creates a state without a prelude. */
#include <lauxlib.h>
#include <lua.h>
#include <lualib.h>
#include <stdio.h>
#include <stdlib.h>
#include "guest.h"

static lua_State *lua;

__attribute__((export_name("init_room"))) char *init_room(size_t length) { return malloc(length); }

__attribute__((export_name("init"))) int init(const char *prelude, size_t length)
{
    lua = luaL_newstate();
    luaL_requiref(lua, "_G", luaopen_base, 1);
    luaL_requiref(lua, "string", luaopen_string, 1);
    luaL_requiref(lua, "table", luaopen_table, 1);
    luaL_requiref(lua, "math", luaopen_math, 1);
    int status = luaL_loadbuffer(lua, prelude, length, "=prelude");
    if (status == LUA_OK) status = lua_pcall(lua, 0, 0, 0);
    lua_settop(lua, 0);
    return status;
}

GUEST(operation)
{
    size_t length;
    const char *program = (const char *)guest_input(&length);
    (void)operation;
    if (!lua) init("", 0);
    int status = luaL_loadbuffer(lua, program, length, "=request");
    if (status == LUA_OK) status = lua_pcall(lua, 0, 0, 0);
    if (status != LUA_OK) printf("%s\n", lua_tostring(lua, -1));
    return guest_end(status);
}
