/* Connections: parses and answers one request of a client at a time, and limits what a client may hold and how long it may take. */
#include <stdarg.h>
#include <stdlib.h>
#include <string.h>
#include <sys/socket.h>
#include "http.h"

enum { IDLE_MS = 60000, LINGER_MS = 2000 };

uint32_t clients, most_clients = 16384, most_open = UINT32_MAX;
uint64_t patience = 10000;
size_t held;

static holder holders[4096], of_proxy; /* by a hash of the address: two may share one */
static uint64_t requests;
static bool starved; /* a connection waits for memory */

static const char TOO_LONG[] = "the body is too long: 65536 bytes at most";
static const uv_buf_t go_ahead = { .base = "HTTP/1.1 100 Continue\r\n\r\n", .len = 25 };

static void go_on(client *c), read_on(client *c);

static uint64_t in_ms(uint64_t ms) { return uv_hrtime() + ms * MS; }

static bool closes(client *c) { return uv_is_closing(&c->socket.handle); }

/* ---- bytes ---- */

/* Whether an address may have `its` of `most`, of which all together have `all`: an eighth of those that the others leave. */
static bool may_have(const holder *from, uint32_t its, uint32_t all, uint32_t most) {
    uint32_t others = all > its ? all - its : 0;
    return all <= most && (from == &of_proxy || its <= (most - others + SHARES - 1) / SHARES);
}

/* Whether a client may have a request that waits or runs, which is counted then. */
bool may_queue(client *c) {
    c->queued = may_have(c->from, c->from->requests + 1, waiting + 1, MOST_WAITING);
    c->from->requests += c->queued;
    return c->queued;
}

/* Whether a client may hold `more` bytes more. Free is what is left of all bytes or of its tenant's eighth, whichever is less; an address may
 * have a quarter of it, so that each address leaves something for the next. */
static bool may_hold(const client *c, const bytes *b, size_t more) {
    size_t of_all = MOST_HELD - held, of_tenant = MOST_HELD / SHARES - (b == &c->body ? c->task.of->held : 0);
    size_t free = of_all < of_tenant ? of_all : of_tenant;
    return more <= free && (c->from == &of_proxy || c->from->held + more <= (free - more) / QUARTER);
}

/* Counts a client's bytes, for all, for its address, and for its request's tenant. */
static void set_room(client *c, bytes *b, size_t room) {
    held += room - b->room;
    c->from->held += room - b->room;
    if (b == &c->body && c->task.of) c->task.of->held += room - b->room;
    b->room = room;
}

/* Adds bytes, if the limits allow it. Memory is allocated as they arrive, not for what a header promises. */
static bool hold(client *c, bytes *b, const char *at, size_t n) {
    size_t length = b->length + n, twice = 2 * b->room < MOST_BYTES ? 2 * b->room : MOST_BYTES;
    if (length > b->room) {
        size_t room = length > twice ? length : twice;
        char *to = may_hold(c, b, room - b->room) ? realloc(b->at, room) : NULL;
        if (!to) return false;
        b->at = to;
        set_room(c, b, room);
    }
    memcpy(b->at + b->length, at, n);
    b->length = length;
    return true;
}

/* Frees the bytes. Their length stays, for the log. */
static void drop_bytes(client *c, bytes *b) {
    set_room(c, b, 0);
    free(b->at);
    b->at = NULL;
}

void drop_body(client *c) { drop_bytes(c, &c->body); }

/* ---- answers ---- */

/* Frees what a request and its answer have. */
static void clear(client *c) {
    wasmloop_drop(&c->task.handle);
    drop_body(c);
    c->from->requests -= c->queued;
    c->queued = false;
    if (c->task.of) c->task.of->clients--;
    c->task.of = NULL;
    free(c->text);
    c->text = NULL;
}

static void on_closed(uv_handle_t *handle) {
    client *c = handle->data;
    clear(c);
    drop_bytes(c, &c->rest);
    c->from->clients--;
    free(c);
    clients--;
}

/* Closes a connection: if its work runs, once the slice is over. */
void leave(client *c) {
    if (give_up(c) && !closes(c)) uv_close(&c->socket.handle, on_closed);
}

/* The answer is written. A connection that is to be closed lingers, so that bytes still arriving don't reset it before the answer is read. */
static void on_written(uv_write_t *write, int status) {
    client *c = write->handle->data;
    uv_os_fd_t fd;
    clear(c);
    if (closes(c)) return;
    if (status == 0 && c->keep && !ending) {
        c->busy = false;
        c->came = 0;
        c->task.until = in_ms(IDLE_MS);
        http_parser_pause(&c->parser, 0);
        go_on(c);
        return;
    }
    c->keep = false;
    c->task.until = in_ms(LINGER_MS);
    read_on(c);
    if (status != 0 || uv_fileno(&c->socket.handle, &fd) != 0 || shutdown(fd, SHUT_WR) != 0) leave(c);
}

/* Answers with `length` bytes, which must stay until they are written. HEAD gets only the headers: a body would be taken for the next answer. */
void answer(client *c, int status, const char *type, const void *body, size_t length) {
    const wasmloop_about *a = &c->task.about;
    char more[128] = "";
    if (a->outcome)
        snprintf(more, sizeof more, "Wasmloop-Outcome: %s\r\nWasmloop-Value: %d\r\nWasmloop-Fuel: %llu\r\n",
            a->outcome == LATE ? "late" : wasmloop_outcome_name(a->outcome), (int32_t)a->value, U(a->used));
    int n = snprintf(c->head, sizeof c->head,
        "HTTP/1.1 %d %s\r\nContent-Length: %zu\r\nContent-Type: %s\r\nWasmloop-Request: %llu\r\n%s%s%s%s\r\n", status,
        http_status_str(status), length, type, U(c->number), status == 429 || status == 503 ? "Retry-After: 1\r\n" : "",
        status == 405 ? c->allow : "", more, c->keep && !ending ? "" : "Connection: close\r\n");
    uv_buf_t parts[2] = { uv_buf_init(c->head, (unsigned)n), uv_buf_init((char *)body, (unsigned)length) };
    log_answer(c, status, length);
    unwait(&c->task);
    c->busy = true;
    c->task.until = in_ms(patience);
    bool bare = length == 0 || c->parser.method == HTTP_HEAD;
    if (uv_write(&c->write, &c->socket.stream, parts, bare ? 1 : 2, on_written) != 0) leave(c);
}

/* Answers with a text. */
void say(client *c, int status, const char *format, ...) {
    va_list words;
    va_start(words, format);
    if (vasprintf(&c->text, format, words) < 0) c->text = NULL;
    va_end(words);
    answer(c, status, "text/plain", c->text, c->text ? strlen(c->text) : 0);
}

/* ---- requests ---- */

static int on_begin(http_parser *p) {
    client *c = p->data;
    c->task = (task){ 0 };
    c->what = GONE;
    c->head_length = c->body.length = 0;
    c->keep = c->headed = c->valued = false;
    *c->path = *c->header = *c->forwarded = 0;
    c->number = ++requests;
    c->came = uv_hrtime();
    c->task.until = in_ms(patience);
    return 0;
}

/* Rejects a request, and closes its connection. */
static int refused(client *c, int status, const char *why) {
    if (!c->came) on_begin(&c->parser); /* its first byte is invalid */
    say(c, status, "request rejected: %s\n", why);
    return -1;
}

static int on_url(http_parser *p, const char *at, size_t n) {
    client *c = p->data;
    size_t had = strlen(c->path);
    if (n >= sizeof c->path - had) return refused(c, 414, "the path is too long");
    memcpy(c->path + had, at, n);
    c->path[had + n] = 0;
    return 0;
}

/* Appends to a text what fits. */
static void append(char *to, size_t room, const char *at, size_t n) {
    size_t had = strlen(to), fits = n < room - had ? n : room - had - 1;
    memcpy(to + had, at, fits);
    to[had + fits] = 0;
}

static int on_header(client *c, size_t n) { return (c->head_length += n) > MOST_HEAD ? refused(c, 431, "the headers are too long") : 0; }

/* A header's name, or a part of one. */
static int on_field(http_parser *p, const char *at, size_t n) {
    client *c = p->data;
    if (c->valued) *c->header = 0;
    c->valued = false;
    append(c->header, sizeof c->header, at, n);
    return on_header(c, n);
}

/* Its value, or a part of one. Only a proxy tells whom it forwards, and no trailer does. */
static int on_value(http_parser *p, const char *at, size_t n) {
    client *c = p->data;
    bool tells = c->from == &of_proxy && !c->headed && strcasecmp(c->header, "x-forwarded-for") == 0;
    if (tells && !c->valued && *c->forwarded) append(c->forwarded, sizeof c->forwarded, ", ", 2);
    if (tells) append(c->forwarded, sizeof c->forwarded, at, n);
    c->valued = true;
    return on_header(c, n);
}

/* The headers are complete. A body that isn't needed is not read. */
static int on_head(http_parser *p) {
    client *c = p->data;
    const grammar *g = &c->grammar;
    c->headed = true;
    if (g->length > MOST_BYTES) return refused(c, 413, TOO_LONG);
    if (g->length == 0 && !g->chunked) return 0;
    if (!wants_all(c)) return -1;
    if (g->expects && g->minor > 0) uv_write(&c->go_ahead, &c->socket.stream, &go_ahead, 1, NULL);
    return 0;
}

/* A chunk's size is known: one that is too long is not waited for. */
static int on_chunk(http_parser *p) {
    client *c = p->data;
    return p->content_length > MOST_BYTES - c->body.length ? refused(c, 413, TOO_LONG) : 0;
}

static int on_body(http_parser *p, const char *at, size_t n) {
    client *c = p->data;
    if (n > MOST_BYTES - c->body.length) return refused(c, 413, TOO_LONG);
    return hold(c, &c->body, at, n) ? 0 : refused(c, 503, "no room for the body");
}

static int on_end(http_parser *p) {
    client *c = p->data;
    c->busy = true;
    c->keep = http_should_keep_alive(p) && !p->upgrade;
    if (c->task.of || wants_all(c)) request(c);
    return HTTP_STOP(p);
}

static const http_parser_settings settings = { .on_message_begin = on_begin,
    .on_url = on_url,
    .on_header_field = on_field,
    .on_header_value = on_value,
    .on_headers_complete = on_head,
    .on_chunk_header = on_chunk,
    .on_body = on_body,
    .on_message_complete = on_end };

/* ---- connections ---- */

/* Parses up to the end of a request, or up to what its grammar refuses, and handles it. Returns how many bytes it took. */
static size_t feed(client *c, const char *at, size_t n) {
    grammar *g = &c->grammar;
    size_t good = grammar_takes(g, at, n), took = good ? http_parser_execute(&c->parser, &settings, at, good) : 0;
    int stands = good ? HTTP_PARSER_ERRNO(&c->parser) : HPE_OK;
    if (took != good) c->keep = false;
    if (c->busy) return took;
    if (stands != HPE_OK) refused(c, 400, http_errno_description(stands));
    else if (g->status || g->ends) refused(c, g->status ? g->status : 400, g->status ? g->why : "it is not clear where it ends");
    return took;
}

/* Keeps what was sent ahead, and stops reading until it is parsed. */
static void keep_rest(client *c, const char *at, size_t n) {
    if (closes(c) || !c->keep) return;
    if (hold(c, &c->rest, at, n))
        uv_read_stop(&c->socket.stream);
    else
        leave(c);
}

static void on_room(uv_handle_t *handle, size_t want, uv_buf_t *buf) {
    static char room[MOST_BYTES];
    (void)handle, (void)want;
    *buf = uv_buf_init(room, sizeof room);
}

static void on_read(uv_stream_t *stream, ssize_t n, const uv_buf_t *buf) {
    client *c = stream->data;
    if (n < 0) {
        leave(c);
        return;
    }
    size_t took = c->busy || n == 0 ? 0 : feed(c, buf->base, (size_t)n);
    if (took < (size_t)n) keep_rest(c, buf->base + took, (size_t)n - took);
}

/* Drops what was sent ahead, and reads again. */
static void read_on(client *c) {
    drop_bytes(c, &c->rest);
    c->rest.length = c->parsed = 0;
    uv_read_start(&c->socket.stream, on_room, on_read);
}

static void go_on(client *c) {
    if (!c->rest.at) return;
    c->parsed += feed(c, c->rest.at + c->parsed, c->rest.length - c->parsed);
    if (!closes(c) && c->parsed == c->rest.length) read_on(c);
}

/* The counters of a client's address. */
static holder *holder_of(const client *c) {
    return is_proxy(&c->peer) ? &of_proxy : &holders[c->peer.counts_as * 11400714819323198485u >> 52];
}

/* Creates a client for a connection that a listener has: NULL without memory. */
static client *new_client(bool is_tcp) {
    client *c = calloc(1, sizeof *c);
    if (!c) return NULL;
    if (is_tcp) uv_tcp_init(uv, &c->socket.tcp);
    else uv_pipe_init(uv, &c->socket.pipe, 0);
    http_parser_init(&c->parser, HTTP_REQUEST);
    c->socket.handle.data = c->parser.data = c;
    c->task.until = in_ms(patience);
    clients++;
    return c;
}

void on_connection(uv_stream_t *stream, int status) {
    const bool is_tcp = stream->type == UV_TCP;
    client *c = status < 0 ? NULL : new_client(is_tcp);
    starved |= status == 0 && !c;
    if (!c) return;
    bool accepted = uv_accept(stream, &c->socket.stream) == 0;
    if (accepted) c->peer = peer_of(&c->socket);
    c->from = accepted ? holder_of(c) : &of_proxy;
    c->from->clients++;
    if (!accepted || clients > most_open) {
        leave(c);
        return;
    }
    if (is_tcp) uv_tcp_nodelay(&c->socket.tcp, 1);
    uv_read_start(&c->socket.stream, on_room, on_read);
    if (may_have(c->from, c->from->clients, clients, most_clients)) return;
    on_begin(&c->parser);
    say(c, 503, "too many clients\n");
}

/* Closes or answers a client that has timed out, or if the server shuts down. A client's time-out counts up to the previous sweep: all that it had
 * sent by then has been read. */
static void on_each(uv_handle_t *handle, void *swept) {
    client *c = handle->data; /* (a listener has none) */
    if ((handle->type != UV_TCP && handle->type != UV_NAMED_PIPE) || !c || uv_is_closing(handle)) return;
    bool stands = c->task.state == IDLE, late = c->task.until <= (stands ? *(uint64_t *)swept : uv_hrtime());
    if (!late && (!ending || (stands && c->busy))) return;
    if (!stands)
        too_late(c);
    else if (c->busy || !c->came)
        leave(c);
    else
        say(c, ending ? 503 : 408, ending ? "the server is shutting down\n" : "the request did not arrive in time\n");
}

void clients_sweep(void) {
    static uint64_t swept;
    bool wanting = starved;
    starved = false;
    if (wanting && !ending) accept_again();
    uv_walk(uv, on_each, &swept);
    swept = uv_hrtime();
}
