/* Runs the request as a Tcl program; the reply is its result, or the message of an error. */
#include "guest.h"
#include <jim.h>

int Jim_regexpInit(Jim_Interp *interp);

GUEST(operation)
{
    size_t length;
    char *in = (char *)guest_input(&length);
    int count;
    (void)operation;
    Jim_Interp *interp = Jim_CreateInterp();
    Jim_RegisterCoreCommands(interp);
    Jim_regexpInit(interp);
    int status = Jim_Eval(interp, in);
    const char *text = Jim_GetString(Jim_GetResult(interp), &count);
    guest_put(text, (size_t)count);
    Jim_FreeInterp(interp);
    return guest_end(status);
}
