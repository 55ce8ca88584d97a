/* A cache of values, each of which is made of the bytes of its key and of nothing else. So a value is right for as long
 * as it is kept, and no event has to remove it. Any number of threads may use a cache.
 */
#ifndef CACHE_H
#define CACHE_H

#include <aclck.h>
#include <pthread.h>
#include <stddef.h>
#include <stdint.h>

enum {
    CACHE_MOST = 1024, /* entries that a cache keeps though nobody holds them */
    CACHE_BUCKETS = 4096
};

typedef struct entry {
    struct entry *next; /* in the same bucket */
    uint64_t hash, used;
    size_t holders, len, made_len;
    int executes;        /* whether an ALLOW of the list has EXECUTE */
    unsigned char *key;  /* `len` bytes: those of the list */
    unsigned char *made; /* `made_len` bytes: the prepared bytes of the list */
} entry;

typedef struct {
    pthread_mutex_t lock;
    entry *buckets[CACHE_BUCKETS];
    size_t count;
    uint64_t clock, hits, misses;
    enum aclck_status (*make)(entry *, aclck_fault *); /* makes the value of an entry that has its key */
} cache;

/* Returns the entry of a key, which stays until let_go() is called for it. At a failure it returns NULL, and writes
   *status, and the *fault of a list. */
entry *hold(cache *c, const void *key, size_t len, enum aclck_status *status, aclck_fault *fault);

/* Holds an entry that somebody holds already. */
void hold_too(cache *c, entry *e);

/* Ends one hold of an entry. */
void let_go(cache *c, entry *e);

#endif
