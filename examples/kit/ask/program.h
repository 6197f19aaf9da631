/* What a plug-in has that runs programs: room for one and for its reply, which the host writes and reads, in a module that is linked as a command.
 * Include it in one file. */
#ifndef PROGRAM_H
#define PROGRAM_H

#include <stdint.h>

#define EXPORT(name) __attribute__((export_name(#name)))

enum { TEXT = 65536 };

static char program[TEXT], reply[TEXT];
static uint32_t reply_length;

/* Named here, it is no longer called before each export and its counterpart behind it, as wasm-ld arranges for a command. */
extern void __wasm_call_ctors(void);

EXPORT(_initialize) void _initialize(void) { __wasm_call_ctors(); }
EXPORT(program_at) char *program_at(void) { return program; }
EXPORT(reply_at) char *reply_at(void) { return reply; }
EXPORT(reply_size) uint32_t reply_size(void) { return reply_length; }

#endif
