/* The access log on standard output: a line for each answer, and for each request whose client has left before. */
#include <fcntl.h>
#include <string.h>
#include <time.h>
#include <unistd.h>
#include "http.h"

enum { LEFT = 499 }; /* the status, as nginx has it, of a request whose client has left */

uint64_t answers[6];
size_t lines_lost;
bool log_json;

static char lines[1 << 16]; /* not yet written */
static size_t lines_length;

/* Makes standard output non-blocking: reopened, so that other processes that have it see no change; if that fails, as it is. */
void log_begin(void) {
    int own = open("/proc/self/fd/1", O_WRONLY | O_APPEND | O_NONBLOCK | O_CLOEXEC);
    if (own >= 0)
        dup2(own, STDOUT_FILENO), close(own);
    else
        fcntl(STDOUT_FILENO, F_SETFL, fcntl(STDOUT_FILENO, F_GETFL) | O_NONBLOCK);
}

/* Writes the lines that standard output accepts now; the rest stays. */
void log_flush(void) {
    ssize_t n = write(STDOUT_FILENO, lines, lines_length);
    if (n <= 0) return;
    lines_length -= (size_t)n;
    memmove(lines, lines + n, lines_length);
}

static void add(const char *line, size_t length) {
    if (length > sizeof lines - lines_length) log_flush();
    if (length > sizeof lines - lines_length) {
        lines_lost++;
        return;
    }
    memcpy(lines + lines_length, line, length);
    lines_length += length;
}

/* Writes a text as it stands between the quotes of JSON; a byte that is no printable ASCII as \u00 and its hexadecimal number. */
static void escape(char *to, const char *text) {
    for (; *text; text++) {
        unsigned char byte = (unsigned char)*text;
        if (byte == '"' || byte == '\\') to += sprintf(to, "\\%c", byte);
        else if (byte < ' ' || byte > '~') to += sprintf(to, "\\u%04x", byte);
        else *to++ = *text;
    }
    *to = 0;
}

static const char *moment(void) {
    static time_t at;
    static char text[32];
    time_t now = time(NULL);
    struct tm parts;
    if (now != at) strftime(text, sizeof text, "%Y-%m-%dT%H:%M:%SZ", gmtime_r(&now, &parts)), at = now;
    return text;
}

/* Writes a request's line: its outcome is that of its tenant's work; of what no tenant did, done or refused. */
static void log_line(const client *c, int status, size_t length) {
    char path[6 * sizeof c->path], forwarded[6 * sizeof c->forwarded], line[sizeof path + sizeof forwarded + 512];
    const char *what = c->what || status == LEFT ? outcome_name(c->what) : status < 400 ? outcome_name(DONE) : outcome_name(REFUSED);
    escape(path, c->path);
    escape(forwarded, c->forwarded);
    int n = snprintf(line, sizeof line,
        log_json ? "{\"at\":\"%s\",\"request\":%llu,\"client\":\"%s\",\"forwarded\":\"%s\",\"method\":\"%s\",\"path\":\"%s\",\"status\":%d,"
                   "\"outcome\":\"%s\",\"in\":%zu,\"out\":%zu,\"us\":%llu,\"fuel\":%llu}\n"
                 : "at=%s request=%llu client=%s forwarded=\"%s\" method=%s path=\"%s\" status=%d outcome=%s in=%zu out=%zu us=%llu fuel=%llu\n",
        moment(), U(c->number), c->peer.text, forwarded, http_method_str(c->parser.method), path, status, what, c->body.length, length,
        U((uv_hrtime() - c->came) / 1000), U(c->task.about.used));
    add(line, (size_t)n);
}

void log_answer(const client *c, int status, size_t length) {
    answers[status / 100 < 6 ? status / 100 : 0]++;
    log_line(c, status, length);
}

void log_left(const client *c) { log_line(c, LEFT, 0); }
