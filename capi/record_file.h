/* The file of a loop's record, which record_wrap.c writes: a line for each call, as `python3 -m wasmloop.replay` reads it. */
#ifndef RECORD_FILE_H
#define RECORD_FILE_H

#include <errno.h>
#include <fcntl.h>
#include <stdatomic.h>
#include <stdbool.h>
#include <stdint.h>
#include <stdio.h>
#include <stdlib.h>
#include <string.h>
#include <unistd.h>
#include "record_name.h"

enum { BUFFER = 8192, LINE = 128, PATH = 4096, MIB = 1 << 20 };

/* The record of a loop. A loop serves one thread at a time, and so does its record: it needs no lock. */
typedef struct record {
    uint64_t left;          /* the bytes until its limit */
    size_t length;          /* of what is in the buffer */
    uint64_t ran;           /* callbacks that ended in a turn that is to be written */
    uint32_t number, steps; /* of the loop, as the host numbers it; steps in a row that are to be written */
    uint32_t counted;       /* the callbacks of the iteration, as its turns count them */
    bool full, lost, failed, paused; /* lost: a part could not be written; paused: a turn has begun the callback that is paused */
    char path[PATH], buffer[BUFFER];
} record;

/* Appends the buffer to the file. Nothing is written behind a part that could not be: a record has no hole. */
static void flush(record *r)
{
    size_t done = 0;
    int file = r->length && !r->lost ? open(r->path, O_WRONLY | O_APPEND | O_CLOEXEC) : -1;
    while (file >= 0 && done < r->length) {
        ssize_t n = write(file, r->buffer + done, r->length - done);
        if (n < 0 && errno != EINTR) break;
        if (n > 0) done += (size_t)n;
    }
    if (file >= 0 && close(file) != 0) r->lost = true;
    r->lost |= done < r->length;
    r->full |= r->lost;
    r->left -= r->length < r->left ? r->length : r->left;
    r->length = 0;
}

/* Writes within the LINE that `begin` has made room for. */
static inline void put(record *r, const char *text)
{
    size_t count = strlen(text);
    memcpy(r->buffer + r->length, text, count);
    r->length += count;
}

static void put_number(record *r, const char *before, uint64_t n)
{
    size_t digits = 1;
    for (uint64_t rest = n / 10; rest > 0; rest /= 10) digits++;
    put(r, before);
    r->length += digits;
    for (size_t k = 1; k <= digits; k++, n /= 10) r->buffer[r->length - k] = (char)('0' + n % 10);
}

static void put_answer(record *r, int32_t n) { put_number(r, n < 0 ? ",-" : ",", (uint64_t)llabs(n)); }

/* Writes any number of bytes, and leaves room for the rest of the line. */
static void put_bytes(record *r, const uint8_t *bytes, size_t count)
{
    for (size_t k = 0; k < count; k++) {
        if (BUFFER - r->length < LINE) flush(r);
        r->buffer[r->length++] = "0123456789abcdef"[bytes[k] >> 4];
        r->buffer[r->length++] = "0123456789abcdef"[bytes[k] & 15];
    }
}

static void put_steps(record *r)
{
    if (r->steps) put_number(r, "[\"step\",", r->steps), put(r, "]\n");
    r->steps = 0;
}

/* Begins a line with `more` bytes beside it. Whether it is to be written. */
static bool begin(record *r, const char *word, size_t more)
{
    if (!r || r->full) return false;
    if (BUFFER - r->length < 2 * LINE) flush(r);
    put_steps(r);
    r->full |= r->left < BUFFER + 2 * more;
    put(r, r->full ? "[\"full\"]\n" : word);
    if (r->full) flush(r);
    return !r->full;
}

/* A line of a word and a number. */
static void note(record *r, const char *word, uint64_t number)
{
    if (begin(r, word, 0)) put_number(r, ",", number), put(r, "]\n");
}

/* What did not return may be the last that the process lives to see. */
static void failed(record *r)
{
    if (!r) return;
    r->failed = true;
    if (!r->full) put_steps(r);
    flush(r);
}

_Thread_local const char *wasmloop_record_name = "loop";

/* A new record, an empty file; NULL where there can be none. */
static record *new_record(uint32_t number)
{
    static atomic_uint count;
    const char *folder = getenv("WASMLOOP_RECORD"), *most = getenv("WASMLOOP_RECORD_MOST");
    record *r = folder ? calloc(1, sizeof *r) : NULL;
    if (!r) return NULL;
    r->left = (most ? strtoull(most, NULL, 10) : 256) * MIB;
    r->number = number;
    snprintf(r->path, sizeof r->path, "%s/%s.%u", folder, wasmloop_record_name, atomic_fetch_add(&count, 1) + 1);
    int file = open(r->path, O_WRONLY | O_CREAT | O_TRUNC | O_CLOEXEC, 0600);
    if (file >= 0) close(file);
    else free(r);
    return file >= 0 ? r : NULL;
}

static void end_record(record *r)
{
    const char *kept = getenv("WASMLOOP_RECORD_KEEP");
    if (!r->full) put_steps(r);
    if (r->failed || !kept || strcmp(kept, "failed") != 0) flush(r);
    else unlink(r->path);
    free(r);
}

#endif
