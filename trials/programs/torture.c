/* For a test of gcc's, whose `exit` can't return to a caller: exit(0) is trap 2, any other end by `exit` or `abort` is trap 1. */
_Noreturn void abort(void)
{
    __builtin_trap();
}

_Noreturn void exit(int code)
{
    volatile int some = 2, zero = 0;
    if (code == 0)
        some = some / zero;
    __builtin_trap();
}

/* What the linker calls behind an export: without it libc's own, and its `exit`, would be linked. */
void __wasm_call_dtors(void) {}
