/* Counts how often a program reads standard input, and writes the count to the file READS when the program ends. */
#define _GNU_SOURCE
#include <dlfcn.h>
#include <stdio.h>
#include <stdlib.h>
#include <sys/types.h>
#include <sys/uio.h>
#include <unistd.h>

static unsigned long reads;

ssize_t read(int from, void *room, size_t size)
{
    static ssize_t (*next)(int, void *, size_t);
    if (!next)
        next = dlsym(RTLD_NEXT, "read");
    reads += from == 0;
    return next(from, room, size);
}

ssize_t readv(int from, const struct iovec *rooms, int count)
{
    static ssize_t (*next)(int, const struct iovec *, int);
    if (!next)
        next = dlsym(RTLD_NEXT, "readv");
    reads += from == 0;
    return next(from, rooms, count);
}

__attribute__((destructor)) static void tell(void)
{
    const char *path = getenv("READS");
    FILE *to = path ? fopen(path, "w") : NULL;
    if (to) {
        fprintf(to, "%lu\n", reads);
        fclose(to);
    }
}
