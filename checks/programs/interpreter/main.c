/* Lua on the machine: the interpreter runs the script that is the case's input, and what the script prints is the output of the run. */
#include <stdint.h>
#include <stdio.h>

#include "lauxlib.h"
#include "lua.h"
#include "lualib.h"

static const luaL_Reg libraries[] = {
    {LUA_GNAME, luaopen_base},           {LUA_COLIBNAME, luaopen_coroutine}, {LUA_TABLIBNAME, luaopen_table},
    {LUA_STRLIBNAME, luaopen_string},    {LUA_MATHLIBNAME, luaopen_math},    {LUA_UTF8LIBNAME, luaopen_utf8},
};

int main(void)
{
    /* The input of versions 1 and 2 is in memory: its length, and then its bytes. */
    const uint32_t length = *(const volatile uint32_t *)0x40000000u;
    const char *script = (const char *)0x40000004u;
    lua_State *state = luaL_newstate();
    if (state == NULL)
        return 2;
    for (size_t i = 0; i < sizeof libraries / sizeof libraries[0]; i += 1) {
        luaL_requiref(state, libraries[i].name, libraries[i].func, 1);
        lua_pop(state, 1);
    }
    if (luaL_loadbuffer(state, script, length, "=input") != LUA_OK || lua_pcall(state, 0, 0, 0) != LUA_OK) {
        puts(lua_tostring(state, -1));
        return 1;
    }
    return 0;
}
