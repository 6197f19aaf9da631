/* Reads CSV and puts out each field behind which stands a bar, a line a row. */
#include "guest.h"
#include <csv.h>

static void on_field(void *field, size_t length, void *rows)
{
    (void)rows;
    guest_put(field, length);
    guest_byte('|');
}

static void on_row(int last, void *rows)
{
    (void)last;
    guest_byte('\n');
    ++*(int *)rows;
}

GUEST(operation)
{
    size_t length;
    uint8_t *in = guest_input(&length);
    struct csv_parser parser;
    int rows = 0;
    csv_init(&parser, (unsigned char)operation);
    csv_parse(&parser, in, length, on_field, on_row, &rows);
    csv_fini(&parser, on_field, on_row, &rows);
    return guest_end(rows);
}
