/* MuJS runs a script, which prints its values. */
#include <stdio.h>
#include "mujs.h"
#include "script.h"

static void print(js_State *state)
{
    int top = js_gettop(state);

    for (int k = 1; k < top; k++)
        printf("%s%s", k == 1 ? "" : " ", js_tostring(state, k));
    printf("\n");
    js_pushundefined(state);
}

int main(void)
{
    js_State *state = js_newstate(NULL, NULL, JS_STRICT);

    if (!state) {
        printf("no memory\n");
        return 1;
    }
    js_newcfunction(state, print, "print", 0);
    js_setglobal(state, "print");

    int failed = js_ploadstring(state, "script", script);

    if (!failed) {
        js_pushundefined(state);
        failed = js_pcall(state, 0);
    }
    if (failed)
        printf("%s\n", js_trystring(state, -1, "?"));
    js_freestate(state);
    return failed;
}
