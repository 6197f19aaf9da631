/* setjmp and longjmp as clang lowers them with -mllvm -enable-emscripten-sjlj, for lower.py. */
#include <setjmp.h>
#include <stdint.h>
#include <stdlib.h>

uintptr_t __THREW__;
int __threwValue;
static uint32_t second;
static uintptr_t counter;

typedef struct { uintptr_t id; uint32_t label; } entry;

uint32_t getTempRet0(void) { return second; }
void setTempRet0(uint32_t value) { second = value; }

/* Notes that `env` belongs to the call of setjmp with this label, in the table of the function that called it. */
entry *saveSetjmp(uintptr_t *env, uint32_t label, entry *table, uint32_t size)
{
    *env = ++counter;
    for (;;) {
        for (uint32_t i = 0; i < size; i++)
            if (table[i].id == 0) {
                table[i].id = counter;
                table[i].label = label;
                table[i + 1].id = 0;
                second = size;
                return table;
            }
        table = realloc(table, sizeof(entry) * (2 * size + 1));
        if (!table)
            abort();
        size *= 2;
    }
}

uint32_t testSetjmp(uintptr_t id, entry *table, uint32_t size)
{
    for (uint32_t i = 0; i < size && table[i].id; i++)
        if (table[i].id == id)
            return table[i].label;
    return 0;
}

/* What a longjmp does before the stack is unwound. */
__attribute__((export_name("guest_threw"))) void guest_threw(uintptr_t env, int value)
{
    __THREW__ = env;
    __threwValue = value ? value : 1;
}

/* The same for LLVM 19 and newer: the buffer itself says whose it is. */
typedef struct { void *call; uint32_t label; } buffer;

void __wasm_setjmp(buffer *env, uint32_t label, void *call)
{
    env->call = call;
    env->label = label;
}

uint32_t __wasm_setjmp_test(buffer *env, void *call)
{
    return env->call == call ? env->label : 0;
}
