/* Reads a JSON text and prints it with sorted keys, indented (1) or not (0); or the error, with its line as the result. */
#include "guest.h"
#include <jansson.h>
#include <string.h>

GUEST(operation)
{
    size_t length;
    uint8_t *in = guest_input(&length);
    json_error_t error;
    json_t *value = json_loadb((char *)in, length, JSON_DECODE_ANY, &error);
    if (!value) {
        guest_put(error.text, strlen(error.text));
        return guest_end(-error.line);
    }
    char *text = json_dumps(value, JSON_ENCODE_ANY | JSON_SORT_KEYS | (operation ? JSON_INDENT(2) : 0));
    guest_put(text, strlen(text));
    json_decref(value);
    return guest_end((int32_t)strlen(text));
}
