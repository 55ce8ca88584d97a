/* What library_lists.c and library_entries.c share: what must be so, bytes between pages that may not be read, and
 * calls that write a result into a buffer.
 */
#ifndef LIBRARY_CALLS_H
#define LIBRARY_CALLS_H

#include "aclck.h"
#include "refusing.h"
#include <pthread.h>
#include <stdio.h>
#include <stdlib.h>
#include <string.h>
#include <sys/mman.h>

enum { SIDE = 16, CANARY = 0xa5, PAGE = 4096 };

/* ---- what must be so */

static int failures, called_at;
static const char *about = "";

#define EXPECT(what) expect((what) != 0, #what, __FILE__, __LINE__)

static int expect(int is_so, const char *what, const char *file, int line) {
    if (!is_so && __atomic_fetch_add(&failures, 1, __ATOMIC_RELAXED) < 20)
        printf("%s: line %d, after line %d: %s: not so: %s\n", file, line, called_at, about, what);
    return is_so;
}

/* A test with its name. */
typedef struct {
    const char *name;
    void (*run)(void);
} test;

#define TEST(name) {#name, name}

/* ---- bytes next to a page that may not be read */

typedef struct {
    unsigned char *all, *at;
    size_t size;
} guarded;

/* Copies bytes so that the page behind the last of them may not be read, or the page before the first of them. */
static guarded guard(const void *bytes, size_t len, int is_behind) {
    guarded g;
    size_t inner = (len + PAGE - 1) / PAGE * PAGE + PAGE;
    g.size = inner + 2 * PAGE;
    g.all = mmap(NULL, g.size, PROT_NONE, MAP_PRIVATE | MAP_ANONYMOUS, -1, 0);
    if (g.all == MAP_FAILED || mprotect(g.all + PAGE, inner, PROT_READ | PROT_WRITE))
        exit(3);
    g.at = is_behind ? g.all + PAGE + inner - len : g.all + PAGE;
    memcpy(g.at, bytes, len);
    return g;
}

static void let_go(guarded g) {
    munmap(g.all, g.size);
}

/* ---- calls that write a result */

/* A call with its arguments, and room for `cap` items of some size. */
typedef enum aclck_status writer(const void *with, void *room, size_t cap, size_t *needed, aclck_fault *fault);

/* What a call wrote. */
typedef struct {
    unsigned char *room;
    size_t needed;
    aclck_fault fault;
    enum aclck_status status;
} written;

static aclck_fault no_fault(void) {
    aclck_fault fault;
    memset(&fault, 0xee, sizeof fault);
    return fault;
}

static written call(writer *write, const void *with, size_t size, size_t cap) {
    written w;
    w.room = malloc(cap * size + 2 * SIDE);
    memset(w.room, CANARY, cap * size + 2 * SIDE);
    w.needed = 77;
    w.fault = no_fault();
    w.status = write(with, w.room + SIDE, cap, &w.needed, &w.fault);
    return w;
}

/* Returns whether the bytes of the room from `from` on, and those before it, are as they were. */
static int is_kept(const written *w, size_t from, size_t cap_bytes) {
    for (size_t i = 0; i < SIDE; i++)
        if (w->room[i] != CANARY)
            return 0;
    for (size_t i = SIDE + from; i < cap_bytes + 2 * SIDE; i++)
        if (w->room[i] != CANARY)
            return 0;
    return 1;
}

static int is_unreported(const written *w) {
    const aclck_fault none = no_fault();
    return memcmp(&w->fault, &none, sizeof none) == 0;
}

/* The call with this room writes this result, or says that the room is too short for it. */
static void is_result(writer *write, const void *with, size_t size, size_t cap, const void *result, size_t count) {
    written w = call(write, with, size, cap);
    EXPECT(w.status == (cap < count ? ACLCK_SHORT : ACLCK_DONE));
    EXPECT(w.needed == count && is_unreported(&w));
    EXPECT(is_kept(&w, cap < count ? 0 : count * size, cap * size));
    if (cap >= count)
        EXPECT(memcmp(w.room + SIDE, result, count * size) == 0);
    free(w.room);
}

#ifdef REFUSE
/* Each request for memory fails in turn: the call says so and writes nothing, or does without. */
static void is_memory_kept(writer *write, const void *with, size_t size, size_t cap, enum aclck_status status) {
    for (long at = 0;; at++) {
        written w;
        long before;
        int all;
        w.room = malloc(cap * size + 2 * SIDE);
        memset(w.room, CANARY, cap * size + 2 * SIDE);
        w.needed = 77;
        w.fault = no_fault();
        before = memory.held;
        memory.left = at;
        w.status = write(with, w.room + SIDE, cap, &w.needed, &w.fault);
        all = memory.left >= 0;
        memory.left = -1;
        EXPECT(memory.held == before);
        EXPECT(w.status == status || (w.status == ACLCK_MEMORY && !all));
        if (w.status == ACLCK_MEMORY)
            EXPECT(w.needed == 77 && is_unreported(&w) && is_kept(&w, 0, cap * size));
        free(w.room);
        if (all)
            return;
    }
}
#endif

/* The call writes exactly this result, into room of this length and of more, and nothing into less. */
static void writes(writer *write, const void *with, size_t size, const void *result, size_t count) {
    size_t step = count < 200 ? 1 : count / 50;
    is_result(write, with, size, count, result, count);
    is_result(write, with, size, count + 3, result, count);
    for (size_t cap = 0; cap < count; cap += step)
        is_result(write, with, size, cap, result, count);
#ifdef REFUSE
    is_memory_kept(write, with, size, count, ACLCK_DONE);
#endif
}

/* The call refuses what it is given, with this fault, and writes nothing else. */
static void refuses(writer *write, const void *with, size_t size, aclck_fault fault) {
    written w = call(write, with, size, 64);
    EXPECT(w.status == ACLCK_REFUSED);
    EXPECT(memcmp(&w.fault, &fault, sizeof fault) == 0);
    EXPECT(w.needed == 77 && is_kept(&w, 0, 64 * size));
    if (w.status == ACLCK_REFUSED && memcmp(&w.fault, &fault, sizeof fault))
        printf("  reason %u offset %llu line %llu column %llu part %u tag %u\n", w.fault.reason,
               (unsigned long long)w.fault.offset, (unsigned long long)w.fault.line,
               (unsigned long long)w.fault.column, w.fault.part, w.fault.tag);
    free(w.room);
#ifdef REFUSE
    is_memory_kept(write, with, size, 64, ACLCK_REFUSED);
#endif
}

/* The call says that an argument is bad, and writes nothing. */
static void is_bad(writer *write, const void *with, size_t size) {
    written w = call(write, with, size, 64);
    EXPECT(w.status == ACLCK_BAD_ARGUMENT);
    EXPECT(w.needed == 77 && is_unreported(&w) && is_kept(&w, 0, 64 * size));
    free(w.room);
}

/* A failure of these names the line that calls them. */
#define writes(...) (called_at = __LINE__, (writes)(__VA_ARGS__))
#define refuses(...) (called_at = __LINE__, (refuses)(__VA_ARGS__))
#define is_bad(...) (called_at = __LINE__, (is_bad)(__VA_ARGS__))

/* ---- numbers of no order */

static uint64_t seed = 88172645463325252u;

static uint32_t dice(uint32_t sides) {
    seed ^= seed << 13;
    seed ^= seed >> 7;
    seed ^= seed << 17;
    return (uint32_t)(seed >> 33) % sides;
}

#endif
