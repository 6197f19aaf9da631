/* Unpacks the objects of a request; the reply is the text of each, and the bytes into which it is packed again. */
#include "guest.h"
#include <msgpack.h>
#include <stdlib.h>

enum { ROOM = 60000 };

static void put(msgpack_object object, char *text)
{
    msgpack_sbuffer packed;
    msgpack_packer packer;
    guest_put(text, (size_t)msgpack_object_print_buffer(text, ROOM, object));
    msgpack_sbuffer_init(&packed);
    msgpack_packer_init(&packer, &packed, msgpack_sbuffer_write);
    msgpack_pack_object(&packer, object);
    guest_put(packed.data, packed.size);
}

GUEST(operation)
{
    size_t length, from = 0;
    uint8_t *in = guest_input(&length);
    char *text = malloc(ROOM);
    int32_t objects = 0;
    msgpack_unpacked unpacked;
    msgpack_unpacked_init(&unpacked);
    for (; msgpack_unpack_next(&unpacked, (char *)in, length, &from) == MSGPACK_UNPACK_SUCCESS; objects++)
        put(unpacked.data, text);
    return guest_end(objects);
}
