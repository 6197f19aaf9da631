/* A plug-in that takes bytes and asks: it returns the host's greeting for a name, and the name. */
#include <stddef.h>
#include "ask.h"

#define EXPORT(name) __attribute__((export_name(#name)))

static char place[1 << 17];

EXPORT(room) void *room(uint32_t size) { return size <= sizeof place ? place : NULL; }

EXPORT(greet) int32_t greet(const char *name, uint32_t name_size, char *into, uint32_t into_room)
{
    int32_t length = ask(name, name_size, into, into_room);
    if (length < 0 || (uint32_t)length + name_size > into_room)
        return length < 0 ? length : length + (int32_t)name_size;
    for (uint32_t i = 0; i < name_size; i++)
        into[length + (int32_t)i] = name[i];
    return length + (int32_t)name_size;
}
