/* A file that is mapped into memory. */
#include <fcntl.h>
#include <stddef.h>
#include <sys/mman.h>
#include <sys/stat.h>

/* The bytes of a file, and behind them *END; NULL where it can't be mapped, as where it is empty. */
static const char *map_file(const char *path, const char **end) {
    struct stat about;
    int file = open(path, O_RDONLY);
    if (file < 0 || fstat(file, &about) != 0) {
        return NULL;
    }
    void *bytes = mmap(NULL, (size_t)about.st_size, PROT_READ, MAP_PRIVATE, file, 0);
    if (bytes == MAP_FAILED) {
        return NULL;
    }
    *end = (const char *)bytes + about.st_size;
    return bytes;
}
