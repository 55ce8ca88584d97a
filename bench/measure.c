/* Runs a program several times on one input, and prints the least time of the processor in nanoseconds and the greatest
 * resident size in KiB. Other work on the machine makes a run wait, but it does not add to the time of the processor.
 * A status above 2 is a failure. This program is small, because the size of a child is at least that of the process
 * that started it.
 *
 *     measure RUNS INPUT PROGRAM WORD..
 */
#include <fcntl.h>
#include <stdio.h>
#include <stdlib.h>
#include <sys/resource.h>
#include <sys/wait.h>
#include <unistd.h>

static long long nanoseconds(struct timeval t)
{
    return t.tv_sec * 1000000000LL + t.tv_usec * 1000LL;
}

int main(int argc, char **argv)
{
    if (argc < 4)
        return 2;
    long long best = -1;
    long peak = 0;
    for (int runs = atoi(argv[1]); runs > 0; runs--) {
        pid_t child = fork();
        if (child == 0) {
            int in = open(argv[2], O_RDONLY), out = open("/dev/null", O_WRONLY);
            if (in < 0 || out < 0 || dup2(in, 0) < 0 || dup2(out, 1) < 0)
                _exit(98);
            execv(argv[3], argv + 3);
            _exit(99);
        }
        int status;
        struct rusage used;
        if (child < 0 || wait4(child, &status, 0, &used) < 0)
            return 1;
        long long took = nanoseconds(used.ru_utime) + nanoseconds(used.ru_stime);
        if (!WIFEXITED(status) || WEXITSTATUS(status) > 2) {
            fprintf(stderr, "status %d\n", WEXITSTATUS(status));
            return 1;
        }
        if (best < 0 || took < best)
            best = took;
        if (used.ru_maxrss > peak)
            peak = used.ru_maxrss;
    }
    printf("%lld %ld\n", best, peak);
    return 0;
}
