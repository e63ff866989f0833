/* The yardstick for network texts: reads its input in large pieces, and in one pass parts it into
 * lines and words and hashes each word. It keeps nothing, and writes one line at the end: the
 * numbers of lines and of words, and the sum of the hashes.
 */
#include <stdint.h>
#include <stdio.h>
#include <unistd.h>

static const uint64_t hash_start = 0xcbf29ce484222325;
static const uint64_t hash_factor = 0x100000001b3;
static unsigned char buffer[1 << 20];

int main(void) {
    uint64_t lines = 0, words = 0, sum = 0, hash = hash_start;
    ssize_t size;
    while ((size = read(0, buffer, sizeof buffer)) > 0) {
        for (ssize_t at = 0; at < size; at++) {
            unsigned char byte = buffer[at];
            if (byte != ' ' && byte != '\t' && byte != '\n') {
                hash = (hash ^ byte) * hash_factor;
                continue;
            }
            if (hash != hash_start) {
                words++;
                sum += hash;
                hash = hash_start;
            }
            lines += byte == '\n';
        }
    }
    printf("%llu lines, %llu words, %llx\n", (unsigned long long)lines, (unsigned long long)words,
           (unsigned long long)sum);
    return size < 0 ? 2 : 0;
}
