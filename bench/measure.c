/* usage: measure COMMAND WORD..
 *
 * Runs the command with this program's own input and output, and then writes one line to the file
 * descriptor 3: the seconds that it took, the most memory that it held (kB), its exit status, and
 * the seconds of processor time that it took.
 */
#define _DEFAULT_SOURCE
#include <stdio.h>
#include <sys/resource.h>
#include <sys/time.h>
#include <sys/types.h>
#include <sys/wait.h>
#include <time.h>
#include <unistd.h>

static double now(void) {
    struct timespec at;
    clock_gettime(CLOCK_MONOTONIC, &at);
    return (double)at.tv_sec + (double)at.tv_nsec / 1e9;
}

static double seconds(struct timeval span) {
    return (double)span.tv_sec + (double)span.tv_usec / 1e6;
}

int main(int count, char **words) {
    if (count < 2) {
        return 2;
    }
    double begun = now();
    pid_t child = fork();
    if (child < 0) {
        return 2;
    }
    if (child == 0) {
        close(3);
        execvp(words[1], words + 1);
        _exit(127);
    }
    int ended = 0;
    struct rusage used;
    if (wait4(child, &ended, 0, &used) != child) {
        return 2;
    }
    int status = WIFEXITED(ended) ? WEXITSTATUS(ended) : 128 + WTERMSIG(ended);
    dprintf(3, "%.6f %ld %d %.6f\n", now() - begun, used.ru_maxrss, status,
            seconds(used.ru_utime) + seconds(used.ru_stime));
    return 0;
}
