/* The yardstick for certificates.
 *
 * usage: certificate_tool check < CERTIFICATE
 *        certificate_tool write CERTIFICATE COUNT
 *
 * `check` does what `planner check` does: it takes the words of each line apart, compares each value with
 * the capacity of its link, sums each flow at its routers, walks all ways up, and sums the cut below each
 * router. It writes the same line for a certificate without a fault; for any other one it ends with 7, and
 * tells no fault. `write` reads a certificate into tables, and writes its lines from these COUNT times.
 */
#include <fcntl.h>
#include <stdint.h>
#include <stdio.h>
#include <stdlib.h>
#include <string.h>
#include <unistd.h>

#include "page.h"

enum { MOST_LINE = 512, MOST_NAME = 32, MOST_ROUTERS = 1024, MOST_LINKS = 8192, SLOTS = 4096, MOST_WORDS = 5 };
static const int64_t MOST_CAPACITY = 1000000000000, MOST_WIDTH = 8192000000000000;

struct word {
    const char *text;
    size_t size;
};

struct link {
    int a, b;
    int64_t capacity;
};

static char buffer[1 << 16];
static size_t at, known;
static int input;

static struct word words[MOST_WORDS];
static int word_count;

static char names[MOST_ROUTERS][MOST_NAME];
static size_t name_sizes[MOST_ROUTERS];
static int slots[SLOTS], routers, links, root;
static struct link network[MOST_LINKS];
static int up[MOST_ROUTERS];
static int64_t widths[MOST_ROUTERS], leaving[MOST_ROUTERS];

/* Where the values of all flows are kept, or NULL. */
static int64_t *kept;

static void refuse(void) {
    exit(7);
}

static void need(int holds) {
    if (!holds) {
        refuse();
    }
}

/* ---- lines and words */

/* The next line feed in the buffer, which is filled until there is one. */
static const char *next_feed(void) {
    for (;;) {
        const char *feed = memchr(buffer + at, '\n', known - at);
        if (feed != NULL) {
            return feed;
        }
        memmove(buffer, buffer + at, known - at);
        known -= at;
        at = 0;
        need(known < sizeof buffer);
        ssize_t size = read(input, buffer + known, sizeof buffer - known);
        need(size > 0);
        known += (size_t)size;
    }
}

static int is_blank(char byte) {
    return byte == ' ' || byte == '\t';
}

static void split(const char *text, const char *end) {
    for (word_count = 0;; word_count++) {
        while (text < end && is_blank(*text)) {
            text++;
        }
        if (text == end) {
            return;
        }
        need(word_count < MOST_WORDS);
        words[word_count].text = text;
        while (text < end && !is_blank(*text)) {
            text++;
        }
        words[word_count].size = (size_t)(text - words[word_count].text);
    }
}

/* Takes the words of the next line that isn't passed over. */
static void take_line(void) {
    do {
        const char *feed = next_feed(), *line = buffer + at;
        at = (size_t)(feed + 1 - buffer);
        need(feed - line <= MOST_LINE);
        split(line, feed > line && feed[-1] == '\r' ? feed - 1 : feed);
    } while (word_count == 0 || words[0].text[0] == '#' || words[0].text[0] == '@');
}

static int is_word(int place, const char *text) {
    return words[place].size == strlen(text) && memcmp(words[place].text, text, words[place].size) == 0;
}

static int64_t number(const char *text, size_t size, int64_t most) {
    int64_t value = 0;
    need(size > 0);
    for (size_t i = 0; i < size; i++) {
        need(text[i] >= '0' && text[i] <= '9');
        value = value * 10 + (text[i] - '0');
        need(value <= most);
    }
    return value;
}

static int64_t signed_number(struct word word, int64_t most) {
    return word.size > 0 && word.text[0] == '-' ? -number(word.text + 1, word.size - 1, most)
                                                : number(word.text, word.size, most);
}

/* ---- the network */

/* The slot of a name: that in which it is, or the empty one into which it is to be put. */
static int *slot_of(struct word name) {
    uint32_t hash = 2166136261u;
    for (size_t i = 0; i < name.size; i++) {
        hash = (hash ^ (unsigned char)name.text[i]) * 16777619u;
    }
    for (uint32_t place = hash % SLOTS;; place = (place + 1) % SLOTS) {
        int router = slots[place] - 1;
        if (router < 0 || (name_sizes[router] == name.size && memcmp(names[router], name.text, name.size) == 0)) {
            return &slots[place];
        }
    }
}

static int router_of(struct word name) {
    need(*slot_of(name) > 0);
    return *slot_of(name) - 1;
}

static int named(struct word name) {
    int *slot = slot_of(name);
    if (*slot == 0) {
        need(routers < MOST_ROUTERS && name.size <= MOST_NAME);
        memcpy(names[routers], name.text, name.size);
        name_sizes[routers] = name.size;
        *slot = ++routers;
    }
    return *slot - 1;
}

static void take_network(void) {
    for (take_line(); !(word_count == 1 && is_word(0, "END")); take_line()) {
        if (word_count == 2 && is_word(0, "router")) {
            named(words[1]);
            continue;
        }
        need(word_count == 4 && is_word(0, "link") && links < MOST_LINKS);
        int a = named(words[1]), b = named(words[2]);
        network[links++] = (struct link){a, b, number(words[3].text, words[3].size, MOST_CAPACITY)};
    }
    need(routers > 0);
}

/* ---- edges and the tree */

static void take_value(int child, int link) {
    struct link *on = &network[link];
    take_line();
    need(word_count == 2 && is_word(0, "on"));
    int64_t value = signed_number(words[1], on->capacity);
    leaving[on->a] += value;
    leaving[on->b] -= value;
    if (kept != NULL) {
        kept[(size_t)child * MOST_LINKS + (size_t)link] = value;
    }
}

static void take_edge(int child) {
    take_line();
    need(word_count == 4 && is_word(0, "edge") && router_of(words[1]) == child);
    up[child] = router_of(words[2]);
    need(up[child] != child);
    widths[child] = number(words[3].text, words[3].size, MOST_WIDTH);
    memset(leaving, 0, sizeof leaving);
    for (int link = 0; link < links; link++) {
        take_value(child, link);
    }
    need(leaving[child] == widths[child]);
    for (int router = 0; router < routers; router++) {
        need(leaving[router] == 0 || router == child || router == up[child]);
    }
}

/* Whether the way up of a router passes another one. */
static int passes(int router, int other) {
    int steps = 0;
    while (router != other && router != root && steps++ < routers) {
        router = up[router];
    }
    return router == other;
}

static void check_tree(void) {
    static char below[MOST_ROUTERS];
    for (int router = 0; router < routers; router++) {
        need(passes(router, root));
    }
    for (int child = 0; child < routers; child++) {
        int64_t sum = 0;
        for (int router = 0; router < routers; router++) {
            below[router] = (char)passes(router, child);
        }
        for (int link = 0; link < links; link++) {
            sum += below[network[link].a] != below[network[link].b] ? network[link].capacity : 0;
        }
        need(child == root || sum == widths[child]);
    }
}

static void take_certificate(void) {
    take_line();
    need(word_count == 3 && is_word(0, "cut") && is_word(1, "tree") && is_word(2, "1"));
    take_network();
    take_line();
    need(word_count == 2 && is_word(0, "root"));
    root = router_of(words[1]);
    for (int child = 0; child < routers; child++) {
        if (child != root) {
            take_edge(child);
        }
    }
    take_line();
    need(word_count == 1 && is_word(0, "DONE"));
    check_tree();
}

/* ---- writing */

static void put_text(const char *text) {
    put(text, strlen(text));
}

static void put_name(int router) {
    put(names[router], name_sizes[router]);
}

static void put_number(int64_t value) {
    char digits[24], *first = digits + sizeof digits;
    uint64_t rest = value < 0 ? -(uint64_t)value : (uint64_t)value;
    do {
        *--first = (char)('0' + rest % 10);
        rest /= 10;
    } while (rest > 0);
    if (value < 0) {
        *--first = '-';
    }
    put(first, (size_t)(digits + sizeof digits - first));
}

/* A line of a word, a router and, where the second isn't negative, another one and a number. */
static void put_line(const char *word, int one, int other, int64_t amount) {
    put_text(word);
    put_name(one);
    if (other >= 0) {
        put(" ", 1);
        put_name(other);
        put(" ", 1);
        put_number(amount);
    }
    put("\n", 1);
}

static void put_edge(int child) {
    put_line("edge ", child, up[child], widths[child]);
    for (int link = 0; link < links; link++) {
        put("on ", 3);
        put_number(kept[(size_t)child * MOST_LINKS + (size_t)link]);
        put("\n", 1);
    }
}

static void put_certificate(void) {
    put_text("cut tree 1\n");
    for (int router = 0; router < routers; router++) {
        put_line("router ", router, -1, 0);
    }
    for (int link = 0; link < links; link++) {
        put_line("link ", network[link].a, network[link].b, network[link].capacity);
    }
    put_text("END\n");
    put_line("root ", root, -1, 0);
    for (int child = 0; child < routers; child++) {
        if (child != root) {
            put_edge(child);
        }
    }
    put_text("DONE\n");
    flush();
}

static int write_lines(const char *path, int count) {
    input = open(path, O_RDONLY);
    kept = malloc(sizeof *kept * MOST_ROUTERS * MOST_LINKS);
    if (input < 0 || kept == NULL) {
        return 2;
    }
    take_certificate();
    while (count-- > 0) {
        put_certificate();
    }
    return 0;
}

int main(int count, char **given) {
    if (count == 4 && strcmp(given[1], "write") == 0) {
        return write_lines(given[2], atoi(given[3]));
    }
    if (count != 2 || strcmp(given[1], "check") != 0) {
        return 1;
    }
    take_certificate();
    printf("accepted routers %d links %d\n", routers, links);
    return 0;
}
