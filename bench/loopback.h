/* Sockets of the loopback. Who includes this defines _DEFAULT_SOURCE first. */
#include <arpa/inet.h>
#include <netinet/in.h>
#include <netinet/tcp.h>
#include <stddef.h>
#include <sys/socket.h>
#include <unistd.h>

static struct sockaddr_in loopback(unsigned port) {
    struct sockaddr_in place = {0};
    place.sin_family = AF_INET;
    place.sin_port = htons((unsigned short)port);
    place.sin_addr.s_addr = htonl(INADDR_LOOPBACK);
    return place;
}

/* Small pieces aren't held back to be sent together. */
static int send_at_once(int connection) {
    int is_on = 1;
    return setsockopt(connection, IPPROTO_TCP, TCP_NODELAY, &is_on, sizeof is_on);
}

/* A listener at a port, or at any free one where the port is 0; -1 where it can't be had. */
static int listen_at(unsigned port) {
    struct sockaddr_in place = loopback(port);
    int is_on = 1, listener = socket(AF_INET, SOCK_STREAM, 0);
    if (listener < 0 || setsockopt(listener, SOL_SOCKET, SO_REUSEADDR, &is_on, sizeof is_on) != 0 ||
        bind(listener, (struct sockaddr *)&place, sizeof place) != 0 || listen(listener, 128) != 0) {
        return -1;
    }
    return listener;
}

static int send_all(int connection, const char *text, size_t size) {
    while (size > 0) {
        ssize_t sent = send(connection, text, size, MSG_NOSIGNAL);
        if (sent <= 0) {
            return -1;
        }
        text += sent;
        size -= (size_t)sent;
    }
    return 0;
}
