/* Asks a server at a fixed rate, whatever the server does, and counts what comes back.
 *
 * usage: load [-a ADDRESS] [-c CONNECTIONS] [-d SECONDS] [-r RATE] [-b BYTES] [-m MS] PORT PATH..
 *
 * RATE requests a second (0: as fast as they are answered) go to the PATHs of ADDRESS (127.0.0.1) in turn, each with a body of BYTES that begins with
 * its number. A time counts from the moment at which its request was due, also where no connection was free then. A request that isn't
 * answered within MS (5,000), or whose connection ends before, is lost; its connection is made anew. An answer that nobody waits for, and a
 * greeting with another number than its request's, are strays. It prints one line:
 *
 *     asked N answered N lost N strays N rate R p50 US p99 US p999 US worst US status 200 N 503 N..
 *
 * and ends with 1 where there are strays, or nothing was answered. */
#include <inttypes.h>
#include <signal.h>
#include <stdbool.h>
#include <stdio.h>
#include <stdlib.h>
#include <string.h>
#include <strings.h>
#include <sys/timerfd.h>
#include <unistd.h>
#include <uv.h>

enum { ROOM = 1 << 17, MOST_PATHS = 16384 };

typedef struct link {
    uv_tcp_t tcp;
    uv_connect_t connect;
    uv_write_t write;
    enum { OPENS, FREE, ASKS, CLOSES } state;
    uint64_t number, due, sent;
    size_t length;
    char *in, *out;
    struct link *next_free;
} link_t;

static uv_loop_t *uv;
static struct sockaddr_in at;
static link_t *links, *first_free;
static int count = 8, alarm_fd;
static uint64_t seconds = 3, rate, bytes = 16, patience = 5000;
static uint64_t began, over, asked, answered, lost, strays, statuses[600], due_count;
static uint32_t *times;
static size_t times_room, paths;
static const char *path[MOST_PATHS], *address = "127.0.0.1";

static void start(link_t *l);

static void on_closed(uv_handle_t *handle) {
    link_t *l = handle->data;
    if (uv_hrtime() < over) start(l);
}

static void end(link_t *l) {
    link_t **at = &first_free;
    if (l->state == CLOSES) return;
    if (l->state == ASKS) lost++;
    while (*at && *at != l) at = &(*at)->next_free;
    if (*at) *at = l->next_free;
    l->state = CLOSES;
    uv_close((uv_handle_t *)&l->tcp, on_closed);
}

static void on_written(uv_write_t *write, int status) {
    if (status < 0 && status != UV_ECANCELED) end(write->handle->data);
}

static void ask(link_t *l, uint64_t due) {
    l->number = asked, l->due = due, l->sent = uv_hrtime(), l->state = ASKS, l->length = 0;
    int n = sprintf(l->out, "POST %s HTTP/1.1\r\nHost: x\r\nContent-Length: %" PRIu64 "\r\n\r\n", path[asked++ % paths], bytes);
    memset(l->out + n, 'x', bytes);
    char number[17];
    sprintf(number, "%016" PRIx64, l->number);
    memcpy(l->out + n, number, bytes < 16 ? bytes : 16);
    uv_buf_t buf = uv_buf_init(l->out, (unsigned)n + (unsigned)bytes);
    if (uv_write(&l->write, (uv_stream_t *)&l->tcp, &buf, 1, on_written) != 0) end(l);
}

/* Asks what is due, as far as connections are free, and sleeps till the next moment. */
static void ask_due(void) {
    uint64_t now = uv_hrtime();
    while (rate && now < over && first_free && began + due_count * 1000000000 / rate <= now) {
        link_t *l = first_free;
        first_free = l->next_free;
        ask(l, began + due_count++ * 1000000000 / rate);
    }
    if (!rate || !first_free) return;
    uint64_t next = began + due_count * 1000000000 / rate;
    struct itimerspec when = { .it_value = { (time_t)(next / 1000000000), (long)(next % 1000000000) } };
    timerfd_settime(alarm_fd, TFD_TIMER_ABSTIME, &when, NULL);
}

static void on_free(link_t *l) {
    uint64_t now = uv_hrtime();
    l->state = FREE;
    if (now >= over) {
        end(l);
    } else if (rate) {
        l->next_free = first_free, first_free = l;
        ask_due();
    } else {
        ask(l, now);
    }
}

/* A whole answer. */
static void take(link_t *l, int status, const char *body, size_t length) {
    uint64_t us = (uv_hrtime() - l->due) / 1000;
    char number[17];
    sprintf(number, "%016" PRIx64, l->number);
    if (length >= 23 && memcmp(body, "hello, ", 7) == 0 && memcmp(body + 7, number, 16) != 0) strays++;
    if (answered == times_room) times = realloc(times, (times_room = times_room * 2 + 65536) * sizeof *times);
    times[answered++] = us > UINT32_MAX ? UINT32_MAX : (uint32_t)us;
    statuses[status > 99 && status < 600 ? status : 0]++;
}

/* Whether the connection goes on. */
static bool parse(link_t *l) {
    l->in[l->length] = 0;
    char *body = strstr(l->in, "\r\n\r\n");
    if (!body) return l->length < ROOM - 1;
    body += 4, body[-1] = 0;
    const char *said = strcasestr(l->in, "\r\ncontent-length:");
    size_t length = said ? strtoul(said + 17, NULL, 10) : 0, all = (size_t)(body - l->in) + length;
    if (l->length < all) return body[-1] = '\n', all < ROOM;
    if (l->length > all || l->state != ASKS) strays++;
    bool goes_on = !strcasestr(l->in, "\r\nconnection: close");
    if (l->state == ASKS) take(l, atoi(l->in + 9), body, length), l->state = FREE;
    return goes_on;
}

static void on_room(uv_handle_t *handle, size_t want, uv_buf_t *buf) {
    link_t *l = handle->data;
    (void)want;
    *buf = uv_buf_init(l->in + l->length, (unsigned)(ROOM - 1 - l->length));
}

static void on_read(uv_stream_t *stream, ssize_t n, const uv_buf_t *buf) {
    link_t *l = stream->data;
    (void)buf;
    if (n < 0) {
        end(l);
        return;
    }
    if (n == 0) return;
    l->length += (size_t)n;
    if (l->state != ASKS) strays++, end(l);
    else if (!parse(l)) end(l);
    else if (l->state == FREE) on_free(l);
}

static void on_connected(uv_connect_t *connect, int status) {
    link_t *l = connect->handle->data;
    if (status < 0) {
        if (status != UV_ECANCELED) end(l);
        return;
    }
    uv_tcp_nodelay(&l->tcp, 1);
    uv_read_start((uv_stream_t *)&l->tcp, on_room, on_read);
    on_free(l);
}

static void start(link_t *l) {
    uv_tcp_init(uv, &l->tcp);
    l->tcp.data = l, l->state = OPENS;
    if (uv_tcp_connect(&l->connect, &l->tcp, (struct sockaddr *)&at, on_connected) != 0) end(l);
}

static void on_alarm(uv_poll_t *poll, int status, int events) {
    uint64_t expired;
    (void)poll, (void)status, (void)events;
    if (read(alarm_fd, &expired, sizeof expired) > 0) ask_due();
}

/* Gives up what was not answered in time, and in the end all. */
static void on_sweep(uv_timer_t *timer) {
    uint64_t now = uv_hrtime();
    bool busy = false;
    for (int i = 0; i < count; i++) {
        link_t *l = &links[i];
        if (l->state == ASKS && now - l->sent > patience * 1000000) end(l);
        if (now >= over && (l->state == FREE || l->state == OPENS)) end(l);
        busy |= l->state == ASKS;
    }
    if (now >= over && !busy) uv_stop(timer->loop);
}

static int by_value(const void *a, const void *b) {
    uint32_t x = *(const uint32_t *)a, y = *(const uint32_t *)b;
    return (x > y) - (x < y);
}

static uint32_t quantile(double part) {
    size_t k = (size_t)((double)answered * part);
    return answered ? times[k < answered ? k : answered - 1] : 0;
}

static int options(int argc, char **argv) {
    for (int o; (o = getopt(argc, argv, "a:c:d:r:b:m:")) != -1;) {
        uint64_t n = optarg ? strtoull(optarg, NULL, 10) : 0;
        if (o == '?') return 0;
        if (o == 'a') address = optarg;
        if (o == 'c') count = (int)n;
        if (o == 'd') seconds = n;
        if (o == 'r') rate = n;
        if (o == 'b') bytes = n > 65536 ? 65536 : n;
        if (o == 'm') patience = n;
    }
    int port = optind < argc ? atoi(argv[optind++]) : 0;
    while (optind < argc && paths < MOST_PATHS) path[paths++] = argv[optind++];
    return paths ? port : 0;
}

int main(int argc, char **argv) {
    uv_poll_t poll;
    uv_timer_t sweep;
    int port = options(argc, argv);
    if (!port || !(links = calloc((size_t)count, sizeof *links))) {
        fprintf(stderr, "usage: load [-a ADDRESS] [-c CONNECTIONS] [-d SECONDS] [-r RATE] [-b BYTES] [-m MS] PORT PATH..\n");
        return 2;
    }
    signal(SIGPIPE, SIG_IGN);
    uv = uv_default_loop();
    uv_ip4_addr(address, port, &at);
    alarm_fd = timerfd_create(CLOCK_MONOTONIC, TFD_NONBLOCK);
    uv_poll_init(uv, &poll, alarm_fd);
    uv_poll_start(&poll, UV_READABLE, on_alarm);
    uv_timer_init(uv, &sweep);
    uv_timer_start(&sweep, on_sweep, 20, 20);
    began = uv_hrtime() + 50000000, over = began + seconds * 1000000000;
    for (int i = 0; i < count; i++) {
        links[i].in = malloc(ROOM), links[i].out = malloc(512 + bytes + 1);
        start(&links[i]);
    }
    uv_run(uv, UV_RUN_DEFAULT);
    double took = (double)(uv_hrtime() - began) / 1e9;
    qsort(times, answered, sizeof *times, by_value);
    printf("asked %" PRIu64 " answered %" PRIu64 " lost %" PRIu64 " strays %" PRIu64 " rate %.1f p50 %u p99 %u p999 %u worst %u status", asked, answered, lost, strays,
        (double)answered / took, quantile(0.5), quantile(0.99), quantile(0.999), quantile(1));
    for (int i = 0; i < 600; i++)
        if (statuses[i]) printf(" %d %" PRIu64, i, statuses[i]);
    printf("\n");
    return strays || !answered;
}
