/* The yardstick for short requests that are refused: reads its input in large pieces, and makes one
 * write of the same reply for each line.
 */
#include <stddef.h>
#include <string.h>
#include <unistd.h>

static const char reply[] = "@0 NO 6\n";
static char buffer[1 << 20];

static int write_all(const char *text, size_t size) {
    while (size > 0) {
        ssize_t written = write(1, text, size);
        if (written <= 0) {
            return -1;
        }
        text += written;
        size -= (size_t)written;
    }
    return 0;
}

int main(void) {
    ssize_t size;
    while ((size = read(0, buffer, sizeof buffer)) > 0) {
        const char *end = buffer + size;
        for (const char *at = buffer; (at = memchr(at, '\n', (size_t)(end - at))) != NULL; at++) {
            if (write_all(reply, sizeof reply - 1) != 0) {
                return 3;
            }
        }
    }
    return size < 0 ? 2 : 0;
}
