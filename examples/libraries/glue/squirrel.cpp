/* Runs the request as a program in Squirrel; print() writes to the reply. */
extern "C" {
#include "guest.h"
}
#include <cstdarg>
#include <cstdio>
#include <squirrel.h>
#include <sqstdaux.h>
#include <sqstdmath.h>
#include <sqstdstring.h>

static void print(HSQUIRRELVM, const SQChar *form, ...)
{
    va_list values;
    va_start(values, form);
    std::vprintf(form, values);
    va_end(values);
}

static void compiler_error(HSQUIRRELVM, const SQChar *why, const SQChar *, SQInteger line, SQInteger column)
{
    std::printf("%d:%d: %s\n", static_cast<int>(line), static_cast<int>(column), why);
}

extern "C" GUEST(operation)
{
    size_t length;
    const char *in = reinterpret_cast<char *>(guest_input(&length));
    (void)operation;
    HSQUIRRELVM machine = sq_open(1024);
    sq_setprintfunc(machine, print, print);
    sq_setcompilererrorhandler(machine, compiler_error);
    sq_pushroottable(machine);
    sqstd_register_mathlib(machine);
    sqstd_register_stringlib(machine);
    sqstd_seterrorhandlers(machine);
    bool is_right = SQ_SUCCEEDED(sq_compilebuffer(machine, in, static_cast<SQInteger>(length), "request", SQTrue));
    if (is_right) {
        sq_pushroottable(machine);
        is_right = SQ_SUCCEEDED(sq_call(machine, 1, SQFalse, SQTrue));
    }
    sq_close(machine);
    return guest_end(is_right ? 0 : 1);
}
