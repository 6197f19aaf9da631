/* Questions: a function of a plug-in asks its host, and goes on with the answer. Link ask.c with the plug-in, and pass the linked module
 * through `python3 -m wasmloop.ask IN OUT`.
 *
 *     int32_t price = 0;
 *     if (ask("price of 12", 11, &price, sizeof price) != sizeof price)
 *         return -1;
 *
 * To ask, the exported function returns to the host; Asyncify keeps its locals in the plug-in's memory. The host answers when it likes,
 * and calls the function again, which goes on from here. A question works in calls of an instance; in a loop or a job it is never answered.
 */
#ifndef ASK_H
#define ASK_H

#include <stdint.h>

/* Another call of this instance waits for its answer: one question at a time. */
#define ASK_BUSY (-1)
/* The host has no answer. It may return other negative numbers as well. */
#define ASK_NONE (-2)

#ifdef __cplusplus
extern "C" {
#endif

/* Asks the host `length` bytes, and writes at most `room` bytes of the answer. Returns the length of the whole answer, or a negative number. */
int32_t ask(const void *question, uint32_t length, void *answer, uint32_t room);

#ifdef __cplusplus
}
#endif
#endif
