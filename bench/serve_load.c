/* Runs a server on the loopback, with clients that each send it one session, and measures how it answers.
 *
 * usage: serve_load CLIENTS WINDOW LOADS SESSION REPLIES SERVER WORD..
 *
 * The last word of the server's command is completed by a free port. The session begins with the LOAD of a network
 * and ends with BYE, and each of its replies is one line; REPLIES are those that `plan` gives, and each reply is
 * compared with its own, but for the version. The requests between LOAD and BYE are timed, from when all clients
 * have the reply to their LOAD: each client keeps at most so many of them under way as the window says. Where LOADS
 * isn't 0, one more client loads the same network so many times meanwhile, one at a time, and the others go on
 * with their requests, from the first one again, until it is done.
 *
 * Behind the end of the server one line is written to the file descriptor 3: the seconds in which the requests were
 * answered, the most memory that the server held (kB), its exit status, the seconds of processor time that it took,
 * and two times within which half of the requests and 99 in 100 were answered, in microseconds; these are 0 where
 * the window is greater than 1.
 */
#define _DEFAULT_SOURCE
#include <pthread.h>
#include <signal.h>
#include <stdarg.h>
#include <stdatomic.h>
#include <stdint.h>
#include <stdio.h>
#include <stdlib.h>
#include <string.h>
#include <sys/prctl.h>
#include <sys/resource.h>
#include <sys/time.h>
#include <sys/wait.h>
#include <time.h>

#include "loopback.h"
#include "mapped.h"

/* All ends after so many seconds, whatever is waited for. */
enum { LIMIT = 900 };

/* How often a server is asked that may still be on its way to listen: 20 seconds long, each millisecond. */
enum { TRIES = 20000 };

/* Waits are counted by tenths of a microsecond, and all that are longer than the last of these by that one. */
enum { MOST_CLIENTS = 16, WAITS = 1 << 22 };

/* A text in pieces, which are requests or replies: the first ends at ends[0]. */
struct pieces {
    const char *text;
    size_t *ends, count;
};

struct client {
    pthread_t thread;
    int connection, loads_beside;
    size_t from, size, sent, answered;
    double begun, ended;
    uint32_t *waits;
    size_t known;
    char buffer[1 << 16];
};

static struct pieces requests, replies;
static size_t window, loads;
static struct client clients[MOST_CLIENTS + 1];
static pthread_barrier_t all_loaded;
static atomic_int is_loaded_beside;

static void fail(const char *form, ...) {
    va_list words;
    va_start(words, form);
    fputs("serve_load: ", stderr);
    vfprintf(stderr, form, words);
    fputc('\n', stderr);
    exit(1);
}

static double now(void) {
    struct timespec at;
    clock_gettime(CLOCK_MONOTONIC, &at);
    return (double)at.tv_sec + (double)at.tv_nsec / 1e9;
}

/* ---- the session and its replies */

static size_t begin_of(const struct pieces *pieces, size_t piece) {
    return piece == 0 ? 0 : pieces->ends[piece - 1];
}

static int is_line(const char *line, const char *next, const char *text) {
    return (size_t)(next - line) == strlen(text) && memcmp(line, text, strlen(text)) == 0;
}

/* Parts a file into its lines, where a text from LOAD to END counts as one. */
static struct pieces read_pieces(const char *path) {
    const char *end, *text = map_file(path, &end);
    struct pieces pieces = {text, NULL, 0};
    int in_text = 0;
    if (text == NULL || end[-1] != '\n') {
        fail("%s has no whole lines", path);
    }
    pieces.ends = malloc((size_t)(end - text) * sizeof *pieces.ends);
    if (pieces.ends == NULL) {
        fail("no memory");
    }
    for (const char *line = text, *next; line < end; line = next) {
        next = (const char *)memchr(line, '\n', (size_t)(end - line)) + 1;
        in_text = in_text ? !is_line(line, next, "END\n") : is_line(line, next, "LOAD\n");
        if (!in_text) {
            pieces.ends[pieces.count++] = (size_t)(next - text);
        }
    }
    return pieces;
}

/* Holds where a line is a reply, but for its version. */
static int is_reply(const char *line, size_t size, size_t reply) {
    const char *wanted = replies.text + begin_of(&replies, reply), *end = replies.text + replies.ends[reply];
    const char *behind = memchr(line, ' ', size), *wanted_behind = memchr(wanted, ' ', (size_t)(end - wanted));
    return line[0] == '@' && behind != NULL && line + size - behind == end - wanted_behind &&
           memcmp(behind, wanted_behind, (size_t)(end - wanted_behind)) == 0;
}

/* ---- one client */

/* Sends further requests of the stretch, up to its end at most, where no more than half of the window is under way. */
static void send_some(struct client *client, size_t most) {
    size_t under_way = client->sent - client->answered, place = client->sent % client->size;
    if (under_way > window / 2) {
        return;
    }
    size_t count = most - client->sent;
    count = count < window - under_way ? count : window - under_way;
    count = count < client->size - place ? count : client->size - place;
    size_t from = begin_of(&requests, client->from + place), end = begin_of(&requests, client->from + place + count);
    if (send_all(client->connection, requests.text + from, end - from) != 0) {
        fail("a request can't be sent");
    }
    client->sent += count;
}

/* Checks the whole lines in the buffer, and moves what is left to its front. */
static void check_replies(struct client *client) {
    const char *at = client->buffer, *end = at + client->known, *feed;
    while ((feed = memchr(at, '\n', (size_t)(end - at))) != NULL) {
        size_t size = (size_t)(feed + 1 - at);
        if (!is_reply(at, size, client->from + client->answered % client->size)) {
            fail("a reply is %.*s", (int)(size < 100 ? size - 1 : 100), at);
        }
        client->answered++;
        at = feed + 1;
    }
    client->known = (size_t)(end - at);
    memmove(client->buffer, at, client->known);
}

/* Waits until at least one further reply is there. */
static void take_replies(struct client *client) {
    for (size_t before = client->answered; client->answered == before; check_replies(client)) {
        ssize_t size = recv(client->connection, client->buffer + client->known,
                            sizeof client->buffer - client->known, 0);
        if (size <= 0) {
            fail("the server ended within a session");
        }
        client->known += (size_t)size;
    }
}

static void note_wait(struct client *client, double seconds) {
    size_t tenths = (size_t)(seconds * 1e7);
    client->waits[tenths < WAITS ? tenths : WAITS - 1]++;
}

static void begin_stretch(struct client *client, size_t from, size_t size) {
    client->from = from;
    client->size = size;
    client->sent = client->answered = 0;
}

/* Sends requests from one on, again and again, until so many were answered. */
static void ask(struct client *client, size_t from, size_t size, size_t most) {
    begin_stretch(client, from, size);
    while (client->answered < most) {
        send_some(client, most);
        take_replies(client);
    }
}

/* Sends the requests that are timed: all of them once, or again and again until all is loaded beside them. */
static void ask_timed(struct client *client) {
    size_t most = loads > 0 ? SIZE_MAX : requests.count - 2;
    begin_stretch(client, 1, requests.count - 2);
    while (client->answered < most) {
        double begun = now();
        send_some(client, most);
        take_replies(client);
        if (window == 1) {
            note_wait(client, now() - begun);
        }
        if (loads > 0 && atomic_load(&is_loaded_beside)) {
            most = client->sent;
        }
    }
}

/* Ends the session. The server may end the connection first or wait for its end. */
static void leave(struct client *client) {
    ask(client, requests.count - 1, 1, 1);
    shutdown(client->connection, SHUT_WR);
    if (recv(client->connection, client->buffer, sizeof client->buffer, 0) != 0) {
        fail("something comes behind the reply to BYE");
    }
    close(client->connection);
}

static void *work(void *given) {
    struct client *client = given;
    if (!client->loads_beside) {
        ask(client, 0, 1, 1);
    }
    pthread_barrier_wait(&all_loaded);
    client->begun = now();
    if (client->loads_beside) {
        ask(client, 0, 1, loads);
        atomic_store(&is_loaded_beside, 1);
    } else {
        ask_timed(client);
    }
    client->ended = now();
    leave(client);
    return NULL;
}

/* ---- all clients */

/* Whether a connection met itself, as one may to a port at which nobody listens yet. */
static int meets_itself(int connection) {
    struct sockaddr_in one = {0}, other = {0};
    socklen_t size = sizeof one;
    return getsockname(connection, (struct sockaddr *)&one, &size) != 0 ||
           getpeername(connection, (struct sockaddr *)&other, &size) != 0 || one.sin_port == other.sin_port;
}

/* A connection to a server which may still be on its way to listen. */
static int connect_to(unsigned port) {
    struct sockaddr_in place = loopback(port);
    for (int tries = 0; tries < TRIES; tries++) {
        int connection = socket(AF_INET, SOCK_STREAM, 0);
        if (connect(connection, (struct sockaddr *)&place, sizeof place) == 0 && !meets_itself(connection) &&
            send_at_once(connection) == 0) {
            return connection;
        }
        close(connection);
        usleep(1000);
    }
    fail("nobody listens at port %u", port);
    return -1;
}

static void connect_all(size_t count, unsigned port) {
    for (size_t i = 0; i < count; i++) {
        clients[i].connection = connect_to(port);
        clients[i].loads_beside = loads > 0 && i == 0;
        clients[i].waits = calloc(WAITS, sizeof *clients[i].waits);
        if (clients[i].waits == NULL) {
            fail("no memory");
        }
    }
}

static void start_all(size_t count) {
    for (size_t i = 0; i < count; i++) {
        if (pthread_create(&clients[i].thread, NULL, work, &clients[i]) != 0) {
            fail("no thread");
        }
    }
}

/* Waits for all clients, and tells how long it took from when the first one began until the last one was answered. */
static double join_all(size_t count) {
    double first = 0, last = 0;
    for (size_t i = 0; i < count; i++) {
        struct client *client = &clients[i];
        pthread_join(client->thread, NULL);
        first = i == 0 || client->begun < first ? client->begun : first;
        last = client->ended > last ? client->ended : last;
    }
    return last - first;
}

/* How many waits of all clients are counted at a place. */
static uint64_t waits_at(size_t count, size_t place) {
    uint64_t sum = 0;
    for (size_t i = 0; i < count; i++) {
        sum += clients[i].waits[place];
    }
    return sum;
}

static uint64_t all_waits(size_t count) {
    uint64_t sum = 0;
    for (size_t place = 0; place < WAITS; place++) {
        sum += waits_at(count, place);
    }
    return sum;
}

/* Within how many microseconds so many in a hundred of the requests were answered; 0 where no wait was counted. */
static double wait_of(size_t count, uint64_t share) {
    uint64_t wanted = (all_waits(count) * share + 99) / 100, sum = 0;
    size_t place = 0;
    while (place < WAITS && (sum += waits_at(count, place)) < wanted) {
        place++;
    }
    return wanted == 0 ? 0 : (double)(place + 1) / 10;
}

/* ---- the server */

static unsigned free_port(void) {
    struct sockaddr_in place = {0};
    socklen_t size = sizeof place;
    int listener = listen_at(0);
    if (listener < 0 || getsockname(listener, (struct sockaddr *)&place, &size) != 0) {
        fail("no port is free");
    }
    close(listener);
    return ntohs(place.sin_port);
}

/* Starts the server, which is killed where this program ends before it. */
static pid_t start_server(char **words, int count, unsigned port) {
    pid_t server = fork();
    if (server < 0) {
        fail("no process");
    }
    if (server == 0) {
        char last[256];
        snprintf(last, sizeof last, "%s%u", words[count - 1], port);
        words[count - 1] = last;
        close(3);
        prctl(PR_SET_PDEATHSIG, SIGKILL);
        execvp(words[0], words);
        _exit(127);
    }
    return server;
}

static double seconds(struct timeval span) {
    return (double)span.tv_sec + (double)span.tv_usec / 1e6;
}

/* Waits for the end of the server, and writes the line of figures. */
static void report(pid_t server, double spent, size_t count) {
    int ended = 0;
    struct rusage used;
    if (wait4(server, &ended, 0, &used) != server) {
        fail("the server is lost");
    }
    int status = WIFEXITED(ended) ? WEXITSTATUS(ended) : 128 + WTERMSIG(ended);
    dprintf(3, "%.6f %ld %d %.6f %.1f %.1f\n", spent, used.ru_maxrss, status,
            seconds(used.ru_utime) + seconds(used.ru_stime), wait_of(count, 50), wait_of(count, 99));
}

int main(int given, char **words) {
    if (given < 7) {
        fail("usage: serve_load CLIENTS WINDOW LOADS SESSION REPLIES SERVER WORD..");
    }
    size_t count = strtoul(words[1], NULL, 10);
    window = strtoul(words[2], NULL, 10);
    loads = strtoul(words[3], NULL, 10);
    if (count < 1 || count > MOST_CLIENTS || window < 1) {
        fail("there are from 1 to %d clients, each with a window", MOST_CLIENTS);
    }
    count += loads > 0 ? 1 : 0;
    alarm(LIMIT);
    unsigned port = free_port();
    pid_t server = start_server(words + 6, given - 6, port);
    requests = read_pieces(words[4]);
    replies = read_pieces(words[5]);
    if (requests.count < 3 || requests.count != replies.count) {
        fail("there are %zu requests and %zu replies", requests.count, replies.count);
    }
    connect_all(count, port);
    pthread_barrier_init(&all_loaded, NULL, (unsigned)count);
    start_all(count);
    report(server, join_all(count), count);
    return 0;
}
