/* Lua runs a script, with its libraries but those of files and of the host. */
#include <stdio.h>
#include "lauxlib.h"
#include "lua.h"
#include "lualib.h"
#include "script.h"

static const luaL_Reg libraries[] = {
    { "_G", luaopen_base },           { "table", luaopen_table },
    { "string", luaopen_string },     { "math", luaopen_math },
    { "coroutine", luaopen_coroutine }, { "utf8", luaopen_utf8 },
};

int main(void)
{
    lua_State *state = luaL_newstate();

    if (!state) {
        printf("no memory\n");
        return 1;
    }
    for (unsigned k = 0; k < sizeof libraries / sizeof *libraries; k++) {
        luaL_requiref(state, libraries[k].name, libraries[k].func, 1);
        lua_pop(state, 1);
    }

    int failed = luaL_loadbuffer(state, script, sizeof script - 1, "=script") || lua_pcall(state, 0, 0, 0);

    if (failed)
        printf("%s\n", lua_tostring(state, -1));
    lua_close(state);
    return failed;
}
