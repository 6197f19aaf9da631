/* For modules: compile with -mllvm -enable-emscripten-sjlj, link setjmp.c, and put the module through lower.py. */
#ifndef __wasm__
#include_next <setjmp.h>
#elif !defined(_SETJMP_H)
#define _SETJMP_H
typedef unsigned long jmp_buf[6];
#ifdef __cplusplus
extern "C" {
#endif
int setjmp(jmp_buf) __attribute__((returns_twice));
_Noreturn void longjmp(jmp_buf, int);
#ifdef __cplusplus
}
#endif
#define setjmp(env) setjmp(env)
#define _setjmp setjmp
#define _longjmp longjmp
typedef jmp_buf sigjmp_buf;
#endif
