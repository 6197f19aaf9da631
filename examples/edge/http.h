/* Connections: an HTTP server with one request of a client at a time, on the parser of libhttp-parser, or, with EDGE_LLHTTP, of libllhttp
 * under the other's names. It calls wants_all() before a request's body arrives and request() when it is complete; answer() or say() answers
 * it, at once or later. */
#ifndef HTTP_H
#define HTTP_H

#include <netinet/in.h>
#include "edge.h"
#include "grammar.h"
#ifdef EDGE_LLHTTP
#include <llhttp.h>
#define http_parser llhttp_t
#define http_parser_settings llhttp_settings_t
#define http_parser_init(p, type) llhttp_init(p, type, &settings)
#define http_parser_pause(p, on) llhttp_resume(p)
#define http_should_keep_alive llhttp_should_keep_alive
#define http_errno_description llhttp_errno_name
#define http_method_str(method) llhttp_method_name((llhttp_method_t)(method))
#define http_status_str(status) llhttp_status_name((llhttp_status_t)(status))
#define HTTP_PARSER_ERRNO llhttp_get_errno
#define HTTP_STOP(p) HPE_PAUSED /* a callback returns it to pause the parser until http_parser_pause(p, 0) */
#define http_parser_execute(p, settings, at, n) (llhttp_execute(p, at, n) == HPE_OK ? n : (size_t)(llhttp_get_error_pos(p) - (at)))
#else
#include <http_parser.h>
#define HTTP_STOP(p) (http_parser_pause(p, 1), 0)
#endif

enum { MOST_BYTES = 65536, MOST_HEAD = 16384, MOST_HELD = 64 << 20, SHARES = 8, QUARTER = 4, PEER_TEXT = INET6_ADDRSTRLEN };

/* A client's bytes. All together hold at most MOST_HELD, those of a tenant an eighth of that (SHARES), and those of an address a quarter of
 * what is still free of the eighth: a few addresses can't take all that a tenant may have. */
typedef struct bytes {
    char *at;
    size_t length, room;
} bytes;

/* An address of either protocol, or any other. */
typedef union address {
    struct sockaddr any;
    struct sockaddr_in ipv4;
    struct sockaddr_in6 ipv6;
    struct sockaddr_storage room;
} address;

/* A socket of TCP, or a UNIX socket. */
typedef union endpoint {
    uv_handle_t handle;
    uv_stream_t stream;
    uv_tcp_t tcp;
    uv_pipe_t pipe;
} endpoint;

/* Who a client is: 192.0.2.1, 2001:db8::1 or unix:UID; clients with one number count together. */
typedef struct peer {
    uint64_t counts_as;
    char text[PEER_TEXT];
} peer;

/* What the clients of an address hold. */
typedef struct holder {
    size_t held;
    uint32_t clients, requests; /* requests: those that wait or run */
} holder;

/* A connection, and its request, which arrives (not `busy`), waits or runs as a task, and is answered. */
struct client {
    task task; /* the first, so that a request's task is its client */
    endpoint socket;
    uv_write_t write, go_ahead;
    http_parser parser;
    peer peer;
    holder *from;
    grammar grammar;
    bool busy, keep, queued;          /* queued: counted in from->requests */
    bool headed, valued;              /* headed: its headers are complete; valued: a value, or a part of one, came last */
    char path[256], head[400], *text; /* head, text: the answer's headers, and its body if that is no reply */
    char header[20];                  /* the name of the header that arrives, as far as it fits */
    char forwarded[160];              /* whom the proxy forwards, as far as it fits */
    const char *allow;                /* the Allow header, if its method is not allowed */
    void (*does)(client *, tenant *, uint32_t);
    bytes body, rest;                 /* rest: what arrived after the request that is being answered, */
    size_t parsed, head_length;       /* and how much of that is parsed */
    uint64_t number, came;            /* came: when its first byte arrived, or 0 */
    int32_t request;                  /* its number in the tenant's loop, or 0 */
    outcome what;                     /* what became of it, if that is known and it isn't GONE */
};

extern uint32_t clients, most_clients, most_open; /* most_open: how many may be open, with those that are told that they are too many */
extern uint64_t patience; /* how many milliseconds a request may take to arrive, and its answer to be received */
extern size_t held;
extern mode_t socket_mode; /* of UNIX sockets */

/* listen.c; the first two return whether they could. */
bool add_address(const char *word); /* ADDRESS, ADDRESS:PORT, [ADDRESS]:PORT or unix:PATH */
bool serve(int port);               /* `port` is that of addresses without one; says what is wanting */
void accept_again(void), serve_no_more(void), notify(const char *what);

/* peer.c */
peer peer_of(const endpoint *socket);
bool add_proxy(const char *word); /* an address, or "unix", without a share of its own: its clients are many */
bool is_proxy(const peer *p);

void on_connection(uv_stream_t *stream, int status), clients_sweep(void);
bool wants_all(client *c); /* edge.c */
void request(client *c);
void answer(client *c, int status, const char *type, const void *body, size_t length);
void say(client *c, int status, const char *format, ...) __attribute__((format(printf, 3, 4)));
void leave(client *c), drop_body(client *c);
bool may_queue(client *c);

#endif
