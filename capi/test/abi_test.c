/* The sizes and offsets that a program which was linked before relies on: they stay while the library is libwasmloop.so.0. */
#include <stddef.h>
#include "wasmloop.h"

#define SIZE(type, bytes) _Static_assert(sizeof(type) == (bytes), #type)
#define AT(type, field, byte) _Static_assert(offsetof(type, field) == (byte), #type "." #field)

SIZE(wasmloop_handle, 16);
SIZE(wasmloop_fault, 40);
AT(wasmloop_fault, section, 12);
AT(wasmloop_fault, byte, 16);
AT(wasmloop_fault, number, 32);
SIZE(wasmloop_limits, 24);
AT(wasmloop_limits, number, 16);
AT(wasmloop_limits, depth, 20);
SIZE(wasmloop_did, 48);
AT(wasmloop_did, emits, 24);
AT(wasmloop_did, now, 32);
AT(wasmloop_did, used, 40);
SIZE(wasmloop_standing, 16);
AT(wasmloop_standing, outstanding, 8);
SIZE(wasmloop_about, 48);
AT(wasmloop_about, value, 20);
AT(wasmloop_about, bytes, 24);
AT(wasmloop_about, used, 40);
SIZE(wasmloop_shape, 32);
AT(wasmloop_shape, pages, 16);
AT(wasmloop_shape, imports, 24);
SIZE(wasmloop_site, 16);
SIZE(wasmloop_place, 24);
AT(wasmloop_place, instruction, 8);
AT(wasmloop_place, byte, 16);
SIZE(wasmloop_task, 16);
AT(wasmloop_task, depth, 12);
SIZE(wasmloop_type, 288);
AT(wasmloop_type, param, 16);
AT(wasmloop_type, result, 272);
SIZE(wasmloop_call_limits, 16);
AT(wasmloop_call_limits, depth, 8);
SIZE(wasmloop_ended, 152);
AT(wasmloop_ended, results, 8);
AT(wasmloop_ended, used, 16);
AT(wasmloop_ended, result, 24);
SIZE(wasmloop_turned, 64);
AT(wasmloop_turned, wait, 48);
AT(wasmloop_turned, callbacks, 56);
_Static_assert(WASMLOOP_NO_WORK == 10 && WASMLOOP_FAILED == 5 && WASMLOOP_CLOSING == 5 && WASMLOOP_RUN_CLOSE == 7 && WASMLOOP_SPENT == 3
        && WASMLOOP_WORK_MEMORY == 5, "numbers");
int wasmloop_abi_is_as_it_was;
