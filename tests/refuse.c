/* Counts the calls of malloc, calloc and realloc that a program makes, and makes call number REFUSE fail, counted from
 * 1. It then writes a byte to the descriptor REFUSED, so that a run with fewer calls can be recognised. At the end it
 * writes the number of calls and the number of bytes that they requested to the descriptor COUNTED, in decimal. */
#include <stdio.h>
#include <stdlib.h>
#include <string.h>
#include <unistd.h>

extern void *__libc_malloc(size_t);
extern void *__libc_calloc(size_t, size_t);
extern void *__libc_realloc(void *, size_t);

static unsigned long requests;
static unsigned long bytes;

static int refuses(size_t size)
{
    static long number = -1;
    if (number < 0) {
        const char *given = getenv("REFUSE");
        number = given ? atol(given) : 0;
    }
    requests++;
    bytes += size;
    if (requests != (unsigned long)number)
        return 0;
    const char *mark = getenv("REFUSED");
    if (mark && write(atoi(mark), "!", 1) != 1)
        _exit(99);
    return 1;
}

void *malloc(size_t size)
{
    return refuses(size) ? NULL : __libc_malloc(size);
}

void *calloc(size_t count, size_t size)
{
    return refuses(count * size) ? NULL : __libc_calloc(count, size);
}

void *realloc(void *old, size_t size)
{
    return refuses(size) ? NULL : __libc_realloc(old, size);
}

__attribute__((destructor)) static void tell(void)
{
    const char *to = getenv("COUNTED");
    char line[64];
    if (to) {
        int length = snprintf(line, sizeof line, "%lu %lu\n", requests, bytes);
        if (write(atoi(to), line, length) != length)
            _exit(99);
    }
}
