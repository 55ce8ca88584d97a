/* Requests for memory that can fail. With -DREFUSE, and --wrap of malloc, realloc and free, one request fails: the one
 * after `left` others, if `left` is not negative. `requests` counts the requests, and `held` what is not yet freed.
 */
#ifndef REFUSING_H
#define REFUSING_H

#include <stdlib.h>

static struct {
    long left, held, requests;
} memory = {-1, 0, 0};

#ifdef REFUSE
void *__real_malloc(size_t);
void *__real_realloc(void *, size_t);
void __real_free(void *);
void *__wrap_malloc(size_t size);
void *__wrap_realloc(void *at, size_t size);
void __wrap_free(void *at);

static int refused(void) {
    memory.requests++;
    if (memory.left < 0 || memory.left-- > 0)
        return 0;
    memory.left = -2;
    return 1;
}

void *__wrap_malloc(size_t size) {
    if (refused())
        return NULL;
    memory.held++;
    return __real_malloc(size);
}

void *__wrap_realloc(void *at, size_t size) {
    if (refused())
        return NULL;
    memory.held += at == NULL;
    return __real_realloc(at, size);
}

void __wrap_free(void *at) {
    memory.held -= at != NULL;
    __real_free(at);
}
#endif

#endif
