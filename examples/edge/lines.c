/* The source line of a failure, from NAME.lines beside NAME.wasm, a text that lines.py makes from a build with debug information:
 *
 *     module LENGTH SUM    the module that it describes: its length and its Adler-32 checksum
 *     BYTE PLACE           from this byte of the module on, the source is PLACE, as trap.c:8, or - if it is unknown; bytes ascend
 *
 * The server parses no debug information, and starts no other program. */
#include <ctype.h>
#include <stdlib.h>
#include <string.h>
#include "edge.h"

enum { MOST_PLACE = 128 };

/* Whether the file describes the module of these bytes. */
static bool is_of(FILE *file, const uint8_t *bytes, size_t length) {
    unsigned long long its_length, sum;
    uint32_t a = 1, b = 0;
    for (size_t i = 0; i < length; i++) a = (a + bytes[i]) % 65521, b = (b + a) % 65521;
    return fscanf(file, "module %llu %llu\n", &its_length, &sum) == 2 && its_length == length && sum == (b << 16 | a);
}

/* Copies the place of the last row whose byte is at most `byte`. A row that is malformed, or whose byte does not ascend, ends the search. */
static void find_place(FILE *file, uint64_t byte, char place[MOST_PLACE]) {
    char row[MOST_PLACE + 32], *end;
    for (uint64_t at, least = 0; fgets(row, sizeof row, file); least = at + 1) {
        at = strtoull(row, &end, 10);
        if (end == row || *end != ' ' || at < least || at > byte) return;
        end[strcspn(end, "\n")] = 0;
        snprintf(place, MOST_PLACE, "%s", end + 1);
    }
}

/* In a pool thread: inserts " [FILE:LINE]" after the first "at byte N" of a failure, if it is known. The module's file may be another one by now. */
void add_line(const tenant *t, wasmloop_handle *of, char said[SAID]) {
    char place[MOST_PLACE] = "-", whole[SAID + MOST_PLACE], *at = strstr(said, "at byte "), *end;
    FILE *file = at ? open_file(t, "lines") : NULL;
    if (!file) return;
    uint64_t byte = strtoull(at + 8, &end, 10), n;
    const uint8_t *bytes;
    size_t length = read_module(t, &bytes);
    if (bytes && wasmloop_stop_told(bytes, length, of, NULL, 0, &n) == WASMLOOP_OK && is_of(file, bytes, length)) find_place(file, byte, place);
    fclose(file);
    for (char *p = place; *p; p++)
        if (!isprint((unsigned char)*p)) return;
    if (strcmp(place, "-") == 0) return;
    snprintf(whole, sizeof whole, "%.*s [%s]%s", (int)(end - said), said, place, end);
    snprintf(said, SAID, "%.*s", SAID - 1, whole);
}
