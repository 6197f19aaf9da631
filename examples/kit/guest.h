/* A request's bytes and a reply, for guests that are compiled with wasi-libc.

       GUEST(operation)                      the head of the work function
       {
           size_t length;
           uint8_t *bytes = guest_input(&length);      all bytes of the request, zero-terminated
           guest_put(bytes, length);                   to the reply; so does all that is printed to stdout
           return guest_end(0);                        hands the reply to the host; returns its argument, or a
       }                                               negative number of uv.h where the reply was too long */
#ifndef GUEST_H
#define GUEST_H
#include <stddef.h>
#include <stdint.h>
#ifdef __wasm__
#include "uv.h"
#define GUEST(operation) UV_WORK(operation)
#else                                       /* the same guest as a native program, to compare: kit/native.c */
int32_t guest_work(int32_t operation);
#define GUEST(operation) int32_t guest_work(int32_t operation)
#endif
uint8_t *guest_input(size_t *length);
void guest_put(const void *bytes, size_t length);
void guest_byte(uint8_t byte);
int32_t guest_end(int32_t result);
#endif
