/* Where the server listens: addresses of IPv4 and IPv6, UNIX sockets, or what systemd passes; and what it tells systemd. */
#include <errno.h>
#include <stdlib.h>
#include <string.h>
#include <sys/socket.h>
#include <sys/stat.h>
#include <sys/un.h>
#include <unistd.h>
#include "http.h"

enum { MOST_LISTENERS = 16, BACKLOG = 4096, FIRST_PASSED = 3 }; /* FIRST_PASSED: the first descriptor that systemd passes */

/* path: of a UNIX socket that the server has made, and removes; device, inode: of that */
typedef struct listener {
    endpoint socket;
    const char *path;
    dev_t device;
    ino_t inode;
} listener;

mode_t socket_mode = 0660;
static const char *words[MOST_LISTENERS] = { "127.0.0.1" };
static listener listeners[MOST_LISTENERS];
static int word_count, listening;

bool add_address(const char *word) {
    if (word_count == MOST_LISTENERS) return false;
    words[word_count++] = word;
    return true;
}

/* ---- a UNIX socket ---- */

static const char *reason(void) { return uv_strerror(uv_translate_sys_error(errno)); }

/* Whether a server listens at a UNIX socket. One whose server was killed refuses. */
static bool is_used(const struct sockaddr_un *at) {
    int fd = socket(AF_UNIX, SOCK_STREAM | SOCK_NONBLOCK | SOCK_CLOEXEC, 0);
    bool refuses = fd >= 0 && connect(fd, (const struct sockaddr *)at, sizeof *at) != 0 && errno == ECONNREFUSED;
    if (fd >= 0) close(fd);
    return !refuses;
}

/* Removes a socket that a killed server has left. Returns NULL, or what is in the way. */
static const char *clear_way(const struct sockaddr_un *at) {
    struct stat is;
    if (lstat(at->sun_path, &is) != 0) return errno == ENOENT ? NULL : reason();
    if (!S_ISSOCK(is.st_mode)) return "a file that is no socket has this name";
    if (is_used(at)) return "another server listens there";
    return unlink(at->sun_path) == 0 ? NULL : reason();
}

/* Binds a socket to a path, with socket_mode from the first moment on. Returns the socket, or -1 with errno. */
static int bind_path(const struct sockaddr_un *at) {
    int fd = socket(AF_UNIX, SOCK_STREAM | SOCK_CLOEXEC, 0);
    mode_t own = umask(0777 & ~socket_mode);
    int told = bind(fd, (const struct sockaddr *)at, sizeof *at);
    umask(own);
    if (told == 0) return fd;
    told = errno;
    if (fd >= 0) close(fd);
    errno = told;
    return -1;
}

/* Takes a stream socket that is bound already. Returns NULL, or why it can't. */
static const char *take(listener *l, int fd) {
    uv_handle_type type = uv_guess_handle(fd);
    if (type != UV_TCP && type != UV_NAMED_PIPE) return "it is no stream socket";
    int told = type == UV_TCP ? uv_tcp_init(uv, &l->socket.tcp) : uv_pipe_init(uv, &l->socket.pipe, 0);
    if (told == 0) told = type == UV_TCP ? uv_tcp_open(&l->socket.tcp, fd) : uv_pipe_open(&l->socket.pipe, fd);
    return told ? uv_strerror(told) : NULL;
}

static const char *open_path(listener *l, const char *path) {
    struct sockaddr_un at = { .sun_family = AF_UNIX };
    struct stat is;
    if (strlen(path) >= sizeof at.sun_path) return "the path is too long";
    strcpy(at.sun_path, path);
    const char *why = clear_way(&at);
    if (why) return why;
    int fd = bind_path(&at);
    if (fd < 0 || lstat(path, &is) != 0) return reason();
    l->path = path;
    l->device = is.st_dev;
    l->inode = is.st_ino;
    return take(l, fd);
}

/* ---- an address ---- */

/* Splits HOST, HOST:PORT or [HOST]:PORT, where an IPv6 address with a port has brackets; `port` is that of a word without one. Returns libuv's error. */
static int address_of(const char *word, int port, address *at) {
    char host[64];
    const bool brackets = *word == '[';
    const char *first = strchr(word, ':'), *end = word + strlen(word);
    if (brackets) end = strchr(++word, ']');
    else if (first && first == strrchr(word, ':')) end = first;
    if (!end || (size_t)(end - word) >= sizeof host) return UV_EINVAL;
    snprintf(host, sizeof host, "%.*s", (int)(end - word), word);
    end += brackets;
    uint64_t given = *end == ':' ? number_of(end + 1, 65535) : (uint64_t)port;
    if ((*end && *end != ':') || given == 0 || given == UINT64_MAX) return UV_EINVAL;
    return strchr(host, ':') ? uv_ip6_addr(host, (int)given, &at->ipv6) : uv_ip4_addr(host, (int)given, &at->ipv4);
}

/* Binds to an address, and makes its name, with which a failure is told. Returns NULL, or why it can't. */
static const char *open_address(listener *l, const char *word, int port, char *name, size_t room) {
    address at = { 0 };
    char host[64] = "";
    if (address_of(word, port, &at) != 0) return "it is no address, or has no port from 1 to 65535";
    uv_ip_name(&at.any, host, sizeof host);
    snprintf(name, room, "%s, port %d", host, ntohs(at.any.sa_family == AF_INET ? at.ipv4.sin_port : at.ipv6.sin6_port));
    int told = uv_tcp_init(uv, &l->socket.tcp);
    if (told == 0) told = uv_tcp_bind(&l->socket.tcp, &at.any, 0);
    return told ? uv_strerror(told) : NULL;
}

/* ---- all ---- */

/* Says why it can't listen at a place. */
static bool cannot(const char *name, const char *why) {
    fprintf(stderr, "edge: %s: %s\n", name, why);
    return false;
}

/* Listens at what is open, unless it isn't, and `why` says why. */
static bool begin(listener *l, const char *name, const char *why) {
    if (why) return cannot(name, why);
    int told = uv_listen(&l->socket.stream, BACKLOG, on_connection);
    return told == 0 || cannot(name, uv_strerror(told));
}

static bool begin_word(listener *l, const char *word, int port) {
    char name[128];
    snprintf(name, sizeof name, "%s", word);
    bool is_path = strncmp(word, "unix:", 5) == 0;
    return begin(l, name, is_path ? open_path(l, word + 5) : open_address(l, word, port, name, sizeof name));
}

static bool begin_passed(listener *l, int fd) {
    char name[48];
    snprintf(name, sizeof name, "descriptor %d of systemd", fd);
    return begin(l, name, take(l, fd));
}

/* How many sockets systemd passes to this process. They outlive a restart, so no connection is refused meanwhile. */
static uint64_t passed(void) {
    const char *count = getenv("LISTEN_FDS"), *to = getenv("LISTEN_PID");
    return count && to && number_of(to, INT32_MAX) == (uint64_t)getpid() ? number_of(count, MOST_LISTENERS) : 0;
}

bool serve(int port) {
    uint64_t sockets = passed();
    if (sockets == UINT64_MAX) return cannot("systemd's sockets", "they are too many");
    int all = sockets ? (int)sockets : word_count ? word_count : 1;
    while (listening < all) {
        int i = listening++;
        if (sockets ? !begin_passed(&listeners[i], FIRST_PASSED + i) : !begin_word(&listeners[i], words[i], port)) return false;
    }
    return true;
}

/* Accepts connections that wait for memory. */
void accept_again(void) {
    for (int i = 0; i < listening; i++) on_connection(&listeners[i].socket.stream, 0);
}

/* Removes a UNIX socket that it has made, unless another one has its name: before it is closed, so that none can have. */
static void remove_path(const listener *l) {
    struct stat is;
    if (l->path && lstat(l->path, &is) == 0 && is.st_dev == l->device && is.st_ino == l->inode) unlink(l->path);
}

void serve_no_more(void) {
    for (int i = 0; i < listening; i++) {
        remove_path(&listeners[i]);
        if (listeners[i].socket.handle.loop) uv_close(&listeners[i].socket.handle, NULL);
    }
}

/* Tells systemd (sd_notify's protocol: a datagram to $NOTIFY_SOCKET). */
void notify(const char *what) {
    struct sockaddr_un to = { .sun_family = AF_UNIX };
    const char *path = getenv("NOTIFY_SOCKET");
    int fd = path && strlen(path) < sizeof to.sun_path ? socket(AF_UNIX, SOCK_DGRAM | SOCK_CLOEXEC, 0) : -1;
    if (fd < 0) return;
    strcpy(to.sun_path, path);
    if (*path == '@') to.sun_path[0] = 0;
    sendto(fd, what, strlen(what), MSG_NOSIGNAL, (struct sockaddr *)&to, (socklen_t)(offsetof(struct sockaddr_un, sun_path) + strlen(path)));
    close(fd);
}
