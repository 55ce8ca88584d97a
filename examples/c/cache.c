#include "cache.h"
#include <stdlib.h>
#include <string.h>

static void drop(entry *e) {
    if (e) {
        free(e->made);
        free(e->key);
        free(e);
    }
}

static uint64_t hash_of(const unsigned char *key, size_t len) {
    uint64_t hash = 14695981039346656037u;
    for (size_t i = 0; i < len; i++)
        hash = (hash ^ key[i]) * 1099511628211u;
    return hash;
}

static entry *find(const cache *c, uint64_t hash, const void *key, size_t len) {
    entry *e = c->buckets[hash % CACHE_BUCKETS];
    while (e && (e->hash != hash || e->len != len || memcmp(e->key, key, len) != 0))
        e = e->next;
    return e;
}

/* Removes the entry that was not used for the longest time, of those that nobody holds. */
static void make_room(cache *c) {
    entry **oldest = NULL, *e;
    for (size_t i = 0; i < CACHE_BUCKETS; i++)
        for (entry **at = &c->buckets[i]; *at; at = &(*at)->next)
            if ((*at)->holders == 0 && (!oldest || (*at)->used < (*oldest)->used))
                oldest = at;
    if (!oldest)
        return;
    e = *oldest;
    *oldest = e->next;
    c->count--;
    drop(e);
}

static entry *made_of(cache *c, uint64_t hash, const void *key, size_t len, enum aclck_status *status,
                      aclck_fault *fault) {
    entry *e = calloc(1, sizeof *e);
    unsigned char *copy = malloc(len + 1);
    *status = ACLCK_MEMORY;
    if (e && copy) {
        e->hash = hash;
        e->len = len;
        e->key = memcpy(copy, key, len);
        *status = c->make(e, fault);
        if (*status == ACLCK_DONE)
            return e;
    } else {
        free(copy);
    }
    drop(e);
    return NULL;
}

/* Makes the value without the lock, so that other threads do not wait. */
entry *hold(cache *c, const void *key, size_t len, enum aclck_status *status, aclck_fault *fault) {
    uint64_t hash = hash_of(key, len);
    entry *e, *made = NULL;
    pthread_mutex_lock(&c->lock);
    e = find(c, hash, key, len);
    c->hits += e != NULL;
    c->misses += e == NULL;
    if (!e) {
        pthread_mutex_unlock(&c->lock);
        made = made_of(c, hash, key, len, status, fault);
        if (!made)
            return NULL;
        pthread_mutex_lock(&c->lock);
        e = find(c, hash, key, len); /* another thread may have made it since */
    }
    if (!e) {
        e = made;
        made = NULL;
        if (c->count >= CACHE_MOST)
            make_room(c);
        e->next = c->buckets[hash % CACHE_BUCKETS];
        c->buckets[hash % CACHE_BUCKETS] = e;
        c->count++;
    }
    e->holders++;
    e->used = ++c->clock;
    pthread_mutex_unlock(&c->lock);
    drop(made);
    *status = ACLCK_DONE;
    return e;
}

void hold_too(cache *c, entry *e) {
    pthread_mutex_lock(&c->lock);
    e->holders++;
    pthread_mutex_unlock(&c->lock);
}

void let_go(cache *c, entry *e) {
    pthread_mutex_lock(&c->lock);
    e->holders--;
    pthread_mutex_unlock(&c->lock);
}
