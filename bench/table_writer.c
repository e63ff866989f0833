/* The yardstick for long replies: reads a recorded reply into tables, of names and of numbers, and writes
 * its lines from these so many times, in pieces of 64 KiB. A word is a number where it is digits without a
 * zero in front; the first line is kept as it is.
 *
 * usage: table_writer REPLY COUNT
 */
#include <stdint.h>
#include <stdlib.h>
#include <string.h>

#include "mapped.h"
#include "page.h"

/* A word of a line: a name (of size bytes) or, where size is 0, a number. */
struct word {
    const char *name;
    size_t size;
    uint64_t number;
};

static const char *text, *text_end;
static struct word *words;
static size_t *line_ends, lines;

static int is_number(const char *from, size_t size) {
    if (size > 19 || (from[0] == '0' && size > 1)) {
        return 0;
    }
    for (size_t i = 0; i < size; i++) {
        if (from[i] < '0' || from[i] > '9') {
            return 0;
        }
    }
    return 1;
}

static struct word read_word(const char *from, size_t size) {
    struct word word = {from, size, 0};
    if (is_number(from, size)) {
        word.size = 0;
        for (size_t i = 0; i < size; i++) {
            word.number = word.number * 10 + (uint64_t)(from[i] - '0');
        }
    }
    return word;
}

/* Reads all lines but the first into the tables. */
static void read_lines(const char *from) {
    size_t known = 0, most = (size_t)(text_end - from) + 1;
    words = malloc(most * sizeof *words);
    line_ends = malloc(most * sizeof *line_ends);
    if (words == NULL || line_ends == NULL) {
        exit(4);
    }
    while (from < text_end) {
        const char *end = from;
        while (*end != ' ' && *end != '\n') {
            end++;
        }
        words[known++] = read_word(from, (size_t)(end - from));
        if (*end == '\n') {
            line_ends[lines++] = known;
        }
        from = end + 1;
    }
}

static void put_number(uint64_t number) {
    char digits[24], *first = digits + sizeof digits;
    do {
        *--first = (char)('0' + number % 10);
        number /= 10;
    } while (number > 0);
    put(first, (size_t)(digits + sizeof digits - first));
}

static void put_line(size_t from, size_t end) {
    for (size_t i = from; i < end; i++) {
        if (words[i].size > 0) {
            put(words[i].name, words[i].size);
        } else {
            put_number(words[i].number);
        }
        put(i + 1 < end ? " " : "\n", 1);
    }
}

static int map_reply(const char *path) {
    text = map_file(path, &text_end);
    return text != NULL && text_end[-1] == '\n' ? 0 : 2;
}

int main(int count, char **given) {
    if (count != 3 || map_reply(given[1]) != 0) {
        return 2;
    }
    const char *second = (const char *)memchr(text, '\n', (size_t)(text_end - text)) + 1;
    read_lines(second);
    for (long copies = atol(given[2]); copies > 0; copies--) {
        put(text, (size_t)(second - text));
        for (size_t line = 0; line < lines; line++) {
            put_line(line > 0 ? line_ends[line - 1] : 0, line_ends[line]);
        }
        flush();
    }
    return 0;
}
