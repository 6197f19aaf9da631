/* The grammar of RFC 9112, byte by byte, before the parser sees them: the parser takes more than the grammar has, and where a proxy in front
 * reads such bytes otherwise, the two do not agree on where a request ends, so that one client's bytes become another's request. */
#ifndef GRAMMAR_H
#define GRAMMAR_H

#include <stdbool.h>
#include <stddef.h>
#include <stdint.h>

/* A request as far as it has come. */
typedef struct grammar {
    uint8_t state, counted;     /* counted: the bytes of the version, or the digits of a chunk's size */
    uint8_t minor, hosts;       /* the version's last digit; how many Host headers it has, at most two */
    uint8_t codings, coded;     /* how many transfer codings it has, at most two, and how much of "chunked" the last one is, or OTHER */
    bool sized, chunked, trails, expects, ends; /* sized: it has a Content-Length; trails: its chunks are over */
    char name[18];              /* of its method, then of each header, in small letters, as far as it fits */
    uint16_t extensions;        /* how many bytes its chunks' extensions have */
    uint64_t length, left;      /* its Content-Length; the bytes of its body or chunk that are yet to come */
    int status;                 /* of its refusal, or 0 */
    const char *why;
} grammar;

void grammar_begin(void);

/* Takes bytes up to the end of the request (`ends`; the next call begins another one), or up to the first byte that is refused (`status`, `why`).
 * Returns how many it took. */
size_t grammar_takes(grammar *g, const char *at, size_t n);

#endif
