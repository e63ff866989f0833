/* The yardstick for replies: reads its input in large pieces, and writes for each request the next one
 * of the replies that were recorded in a file, by one write each. A text from LOAD to END is one
 * request. Its status is 4 where the requests and the replies are not equally many.
 *
 * usage: reply_writer REPLIES < SESSION
 */
#include <stddef.h>
#include <string.h>
#include <unistd.h>

#include "mapped.h"

static char buffer[1 << 20];
static const char *reply, *replies_end;
static int in_text;

static int write_all(const char *text, size_t size) {
    while (size > 0) {
        ssize_t written = write(1, text, size);
        if (written <= 0) {
            return 3;
        }
        text += written;
        size -= (size_t)written;
    }
    return 0;
}

/* A reply begins with @, and has no further one. */
static int write_reply(void) {
    if (reply == replies_end) {
        return 4;
    }
    const char *next = memchr(reply + 1, '@', (size_t)(replies_end - reply - 1));
    if (next == NULL) {
        next = replies_end;
    }
    int status = write_all(reply, (size_t)(next - reply));
    reply = next;
    return status;
}

static int take_line(const char *line, size_t size) {
    if (size == 5 && memcmp(line, "LOAD\n", 5) == 0) {
        in_text = 1;
    } else if (size == 4 && memcmp(line, "END\n", 4) == 0) {
        in_text = 0;
    }
    return in_text ? 0 : write_reply();
}

/* Takes the whole lines in the buffer, moves what is left to its front, and tells how much that is. */
static size_t take_lines(size_t known, int *status) {
    const char *at = buffer, *end = buffer + known, *feed;
    while (*status == 0 && (feed = memchr(at, '\n', (size_t)(end - at))) != NULL) {
        *status = take_line(at, (size_t)(feed + 1 - at));
        at = feed + 1;
    }
    memmove(buffer, at, (size_t)(end - at));
    return (size_t)(end - at);
}

static int map_replies(const char *path) {
    reply = map_file(path, &replies_end);
    return reply == NULL ? 2 : 0;
}

int main(int count, char **words) {
    int status = count == 2 ? map_replies(words[1]) : 2;
    size_t known = 0;
    ssize_t size = 0;
    while (status == 0 && (size = read(0, buffer + known, sizeof buffer - known)) > 0) {
        known = take_lines(known + (size_t)size, &status);
    }
    if (status == 0 && size < 0) {
        status = 2;
    }
    return status == 0 && reply != replies_end ? 4 : status;
}
