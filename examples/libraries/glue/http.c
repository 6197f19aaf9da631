/* Reads requests and answers of HTTP, and puts out their parts, a line each, each message in brackets. */
#include "guest.h"
#include <http_parser.h>
#include <string.h>

static int on_part(http_parser *parser, const char *at, size_t length)
{
    (void)parser;
    guest_put(at, length);
    guest_byte('\n');
    return 0;
}

static int on_begin(http_parser *parser)
{
    (void)parser;
    guest_byte('[');
    return 0;
}

static int on_end(http_parser *parser)
{
    (void)parser;
    guest_byte(']');
    return 0;
}

GUEST(operation)
{
    size_t length;
    uint8_t *in = guest_input(&length);
    http_parser parser;
    http_parser_settings settings;
    memset(&settings, 0, sizeof settings);
    settings.on_url = settings.on_header_field = settings.on_header_value = settings.on_body = settings.on_status = on_part;
    settings.on_message_begin = on_begin;
    settings.on_message_complete = on_end;
    http_parser_init(&parser, HTTP_BOTH);
    size_t n = http_parser_execute(&parser, &settings, (char *)in, length);
    return guest_end((int32_t)n * 100 + HTTP_PARSER_ERRNO(&parser));
}
