/* Who a client is: the text that the log has, and the number by which limits count. IPv4's addresses within IPv6 are those of IPv4. A network of
 * IPv6 gives each of its hosts 2^64 addresses, so those of one /64 count together. A client of a UNIX socket is its user. */
#include <arpa/inet.h>
#include <string.h>
#include <sys/socket.h>
#include "http.h"

enum { MOST_PROXIES = 16 };

static char proxies[MOST_PROXIES][PEER_TEXT];
static int proxy_count;

static void of_ipv4(peer *p, const void *from) {
    uint32_t number;
    memcpy(&number, from, sizeof number);
    p->counts_as = 0xffffull << 32 | number;
    inet_ntop(AF_INET, from, p->text, sizeof p->text);
}

static void of_ipv6(peer *p, const struct in6_addr *from) {
    if (IN6_IS_ADDR_V4MAPPED(from)) {
        of_ipv4(p, &from->s6_addr[12]);
        return;
    }
    memcpy(&p->counts_as, from, sizeof p->counts_as);
    inet_ntop(AF_INET6, from, p->text, sizeof p->text);
}

static void of_user(peer *p, int fd) {
    struct ucred who = { 0 };
    socklen_t length = sizeof who;
    getsockopt(fd, SOL_SOCKET, SO_PEERCRED, &who, &length);
    p->counts_as = 1ull << 32 | who.uid;
    snprintf(p->text, sizeof p->text, "unix:%u", who.uid);
}

/* Who is at the other end of a connection; "-" if it has ended already. */
peer peer_of(const endpoint *socket) {
    peer p = { 0, "-" };
    address at = { 0 };
    socklen_t length = sizeof at;
    uv_os_fd_t fd;
    if (uv_fileno(&socket->handle, &fd) != 0 || getpeername(fd, &at.any, &length) != 0) return p;
    if (at.any.sa_family == AF_INET) of_ipv4(&p, &at.ipv4.sin_addr);
    if (at.any.sa_family == AF_INET6) of_ipv6(&p, &at.ipv6.sin6_addr);
    if (at.any.sa_family == AF_UNIX) of_user(&p, fd);
    return p;
}

/* Adds an address without a share of its own, or with "unix" all UNIX sockets. Returns whether it is one, and there is room. */
bool add_proxy(const char *word) {
    struct in6_addr from;
    peer p = { 0 };
    if (strcmp(word, "unix") == 0) strcpy(p.text, word);
    else if (inet_pton(AF_INET, word, &from) == 1) of_ipv4(&p, &from);
    else if (inet_pton(AF_INET6, word, &from) == 1) of_ipv6(&p, &from);
    if (!*p.text || proxy_count == MOST_PROXIES) return false;
    strcpy(proxies[proxy_count++], p.text);
    return true;
}

bool is_proxy(const peer *p) {
    const char *text = strncmp(p->text, "unix:", 5) == 0 ? "unix" : p->text;
    for (int i = 0; i < proxy_count; i++)
        if (strcmp(proxies[i], text) == 0) return true;
    return false;
}
