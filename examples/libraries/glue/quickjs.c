/* Runs the request as JavaScript; print() writes to the reply. */
#include "guest.h"
#include <quickjs.h>
#include <stdio.h>

static JSValue print(JSContext *context, JSValueConst self, int count, JSValueConst *values)
{
    (void)self;
    for (int i = 0; i < count; i++) {
        const char *text = JS_ToCString(context, values[i]);
        printf(i > 0 ? " %s" : "%s", text ? text : "?");
        JS_FreeCString(context, text);
    }
    printf("\n");
    return JS_UNDEFINED;
}

GUEST(operation)
{
    size_t length;
    const char *in = (const char *)guest_input(&length);
    (void)operation;
    JSRuntime *runtime = JS_NewRuntime();
    JS_SetMaxStackSize(runtime, 0);
    JSContext *context = JS_NewContext(runtime);
    JSValue global = JS_GetGlobalObject(context);
    JS_SetPropertyStr(context, global, "print", JS_NewCFunction(context, print, "print", 1));
    JSValue result = JS_Eval(context, in, length, "request", JS_EVAL_TYPE_GLOBAL);
    int status = JS_IsException(result);
    if (status) {
        JSValue error = JS_GetException(context);
        print(context, JS_UNDEFINED, 1, &error);
        JS_FreeValue(context, error);
    }
    JS_FreeValue(context, result);
    JS_FreeValue(context, global);
    JS_FreeContext(context);
    JS_FreeRuntime(runtime);
    return guest_end(status);
}
