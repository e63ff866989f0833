/* The page of a yardstick that writes its output in pieces of 64 KiB. */
#include <stdlib.h>
#include <string.h>
#include <unistd.h>

static char page[1 << 16];
static size_t filled;

/* Writes what the page holds, and ends the program with 3 where that fails. */
static void flush(void) {
    for (size_t done = 0; done < filled;) {
        ssize_t size = write(1, page + done, filled - done);
        if (size <= 0) {
            exit(3);
        }
        done += (size_t)size;
    }
    filled = 0;
}

static void put(const char *text, size_t size) {
    if (sizeof page - filled < size) {
        flush();
    }
    memcpy(page + filled, text, size);
    filled += size;
}
