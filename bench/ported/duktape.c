/* Duktape runs the script of MuJS. */
#include <stdio.h>
#include "duktape.h"
#include "script.h"

static duk_ret_t print(duk_context *state)
{
    int top = duk_get_top(state);

    for (int k = 0; k < top; k++)
        printf("%s%s", k == 0 ? "" : " ", duk_safe_to_string(state, k));
    printf("\n");
    return 0;
}

int main(void)
{
    duk_context *state = duk_create_heap_default();

    if (!state) {
        printf("no memory\n");
        return 1;
    }
    duk_push_c_function(state, print, DUK_VARARGS);
    duk_put_global_string(state, "print");

    int failed = duk_peval_string(state, script) != 0;

    if (failed)
        printf("%s\n", duk_safe_to_string(state, -1));
    duk_destroy_heap(state);
    return failed;
}
