/* The yardstick for replies over sockets: a server with one thread a client. It reads what a client sends in
 * large pieces, and answers each request with the next one of the replies that were recorded in a file, by one
 * write each; so each client is to send the session that was recorded. A text from LOAD to END is one request.
 * It ends when so many clients were served. Its status is 4 where the requests of one of them and the replies are
 * not equally many.
 *
 * usage: reply_server CLIENTS REPLIES --port=PORT
 */
#define _DEFAULT_SOURCE
#include <pthread.h>
#include <stdint.h>
#include <stdio.h>
#include <stdlib.h>
#include <string.h>

#include "loopback.h"
#include "mapped.h"

enum { MOST_CLIENTS = 64 };

struct client {
    pthread_t thread;
    int connection, in_text;
    const char *reply;
    size_t known;
    char buffer[1 << 16];
};

static const char *replies, *replies_end;
static struct client clients[MOST_CLIENTS];

/* A reply begins with @, and has no further one. */
static int write_reply(struct client *client) {
    if (client->reply == replies_end) {
        return 4;
    }
    const char *next = memchr(client->reply + 1, '@', (size_t)(replies_end - client->reply - 1));
    if (next == NULL) {
        next = replies_end;
    }
    int status = send_all(client->connection, client->reply, (size_t)(next - client->reply)) == 0 ? 0 : 3;
    client->reply = next;
    return status;
}

static int take_line(struct client *client, const char *line, size_t size) {
    if (size == 5 && memcmp(line, "LOAD\n", 5) == 0) {
        client->in_text = 1;
    } else if (size == 4 && memcmp(line, "END\n", 4) == 0) {
        client->in_text = 0;
    }
    return client->in_text ? 0 : write_reply(client);
}

/* Takes the whole lines in the buffer, and moves what is left to its front. */
static int take_lines(struct client *client) {
    const char *at = client->buffer, *end = at + client->known, *feed;
    int status = 0;
    while (status == 0 && (feed = memchr(at, '\n', (size_t)(end - at))) != NULL) {
        status = take_line(client, at, (size_t)(feed + 1 - at));
        at = feed + 1;
    }
    client->known = (size_t)(end - at);
    memmove(client->buffer, at, client->known);
    return status;
}

/* Serves one client to its end. The result is the status, as a pointer. */
static void *serve(void *given) {
    struct client *client = given;
    ssize_t size = 0;
    int status = 0;
    while (status == 0 && (size = recv(client->connection, client->buffer + client->known,
                                       sizeof client->buffer - client->known, 0)) > 0) {
        client->known += (size_t)size;
        status = take_lines(client);
    }
    close(client->connection);
    if (status == 0 && size < 0) {
        status = 2;
    }
    return (void *)(intptr_t)(status == 0 && client->reply != replies_end ? 4 : status);
}

static int accept_clients(int listener, int count) {
    for (int i = 0; i < count; i++) {
        clients[i].reply = replies;
        clients[i].connection = accept(listener, NULL, NULL);
        if (clients[i].connection < 0 || send_at_once(clients[i].connection) != 0 ||
            pthread_create(&clients[i].thread, NULL, serve, &clients[i]) != 0) {
            return 2;
        }
    }
    return 0;
}

/* Waits for the end of all clients, and tells the greatest of their statuses. */
static int join_clients(int count) {
    int worst = 0;
    for (int i = 0; i < count; i++) {
        void *status;
        pthread_join(clients[i].thread, &status);
        if ((intptr_t)status > worst) {
            worst = (int)(intptr_t)status;
        }
    }
    return worst;
}

int main(int count, char **words) {
    unsigned port;
    if (count != 4 || sscanf(words[3], "--port=%u", &port) != 1) {
        return 1;
    }
    int asked = atoi(words[1]), listener = listen_at(port);
    replies = map_file(words[2], &replies_end);
    if (asked < 1 || asked > MOST_CLIENTS || replies == NULL || listener < 0) {
        return 2;
    }
    int status = accept_clients(listener, asked);
    return status != 0 ? status : join_clients(asked);
}
