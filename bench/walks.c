/* Times checks of NFSv4 lists by calls of libaclck, and by two walks in C over the same lists, as a server may keep
 * them: over ids, and over names. Both do for each ACE what the walk of nfs-ganesha does: they first find out whether
 * the ACE applies to the requester, and then which rights it decides. They end when every right is decided.
 *
 *     walks                          prints the calls
 *     walks ROUNDS ACES GROUPS       prints the median time of each call, in nanoseconds
 *     walks CALL ACES GROUPS once    makes a call once for each list, in asked(), where a tool counts instructions
 *
 * There are sixteen lists, which take turns. Each has an object and a requester in GROUPS groups. A list begins with an
 * ACE of OWNER@ and ends with one of GROUP@ and one of EVERYONE@. Between them are users and groups, of which one in
 * eight is denied. The requester is not the owner, and is named once, and so is one group of the requester. All rights
 * are asked, and some of them are never decided, so every call reads the whole list.
 */
#include "../include/aclck.h"
#include <stdio.h>
#include <stdlib.h>
#include <string.h>
#include <time.h>

typedef uint32_t u32;

enum { LISTS = 16, NAMES = 10000, MOST_ROUNDS = 1001, SPECIAL_OWNER = 1, SPECIAL_GROUP, SPECIAL_EVERYONE };
enum { READ = 0x1200a9, CHANGE = 0x1301bf, FULL = 0x1f01ff };

/* An ACE of a server. If `special` is not 0, it says for whom the ACE is. */
typedef struct {
    u32 kind, flags, mask, special, id;
} IdAce;

typedef struct {
    u32 kind, flags, mask, special;
    aclck_bytes name;
} NameAce;

/* A list in each form, its object, and its requester. */
typedef struct {
    IdAce *id_aces;
    NameAce *name_aces;
    u32 count;
    aclck_bytes acl, prepared, prepared_ids;
    aclck_object object;
    aclck_requester requester;
    aclck_id_object id_object;
    aclck_id_requester id_requester;
} Case;

static const aclck_question all = {ACLCK_ALL_RIGHTS, ACLCK_FULL};

/* ---- The walks */

static int has_id(const aclck_id_requester *who, u32 group)
{
    for (size_t k = 0; k < who->ngroups; k++)
        if (who->groups[k] == group)
            return 1;
    return 0;
}

static int id_applies(const IdAce *ace, const aclck_id_requester *who, int is_owner, int is_in_group)
{
    if (ace->flags & ACLCK_INHERIT_ONLY)
        return 0;
    if (ace->special)
        return ace->special == SPECIAL_OWNER ? is_owner : ace->special == SPECIAL_GROUP ? is_in_group : 1;
    return ace->flags & ACLCK_IDENTIFIER_GROUP ? has_id(who, ace->id) : ace->id == who->user;
}

static aclck_decided walk_over_ids(const Case *c)
{
    aclck_decided decided = {0, 0};
    u32 left = all.mask;
    int is_owner = c->id_object.owner == c->id_requester.user;
    int is_in_group = has_id(&c->id_requester, c->id_object.group);
    for (const IdAce *ace = c->id_aces, *last = ace + c->count; left && ace < last; ace++)
        if (id_applies(ace, &c->id_requester, is_owner, is_in_group)) {
            *(ace->kind == ACLCK_ALLOW ? &decided.allowed : &decided.denied) |= ace->mask & left;
            left &= ~ace->mask;
        }
    return decided;
}

static int are_same(aclck_bytes a, aclck_bytes b)
{
    return a.len == b.len && !memcmp(a.at, b.at, a.len);
}

static int has_name(const aclck_requester *who, aclck_bytes group)
{
    for (size_t k = 0; k < who->ngroups; k++)
        if (are_same(who->groups[k], group))
            return 1;
    return 0;
}

static int name_applies(const NameAce *ace, const aclck_requester *who, int is_owner, int is_in_group)
{
    if (ace->flags & ACLCK_INHERIT_ONLY)
        return 0;
    if (ace->special)
        return ace->special == SPECIAL_OWNER ? is_owner : ace->special == SPECIAL_GROUP ? is_in_group : 1;
    return ace->flags & ACLCK_IDENTIFIER_GROUP ? has_name(who, ace->name) : are_same(ace->name, who->user);
}

static aclck_decided walk_over_names(const Case *c)
{
    aclck_decided decided = {0, 0};
    u32 left = all.mask;
    int is_owner = are_same(c->object.owner, c->requester.user);
    int is_in_group = has_name(&c->requester, c->object.group);
    for (const NameAce *ace = c->name_aces, *last = ace + c->count; left && ace < last; ace++)
        if (name_applies(ace, &c->requester, is_owner, is_in_group)) {
            *(ace->kind == ACLCK_ALLOW ? &decided.allowed : &decided.denied) |= ace->mask & left;
            left &= ~ace->mask;
        }
    return decided;
}

/* ---- The calls of the library */

static void expect_done(enum aclck_status status)
{
    if (status) {
        fprintf(stderr, "walks: status %d\n", (int)status);
        exit(1);
    }
}

static aclck_decided granted(const Case *c)
{
    aclck_decided decided = {0, 0};
    aclck_fault fault;
    expect_done(aclck_granted(c->acl, &c->object, &c->requester, &all, &decided.allowed, &fault));
    return decided;
}

static aclck_decided decide(const Case *c)
{
    aclck_decided decided;
    aclck_fault fault;
    expect_done(aclck_decide(c->acl, &c->object, &c->requester, &all, &decided, &fault));
    return decided;
}

static aclck_decided decide_prepared(const Case *c)
{
    aclck_decided decided;
    expect_done(aclck_decide_prepared(c->prepared, &c->object, &c->requester, &all, &decided));
    return decided;
}

static aclck_decided decide_ids(const Case *c)
{
    aclck_decided decided;
    expect_done(aclck_decide_ids(c->prepared_ids, &c->id_object, &c->id_requester, &all, &decided));
    return decided;
}

static const struct {
    const char *name;
    aclck_decided (*ask)(const Case *);
} calls[] = {
    {"walk_over_ids", walk_over_ids}, {"decide_ids", decide_ids},
    {"decide_prepared", decide_prepared}, {"walk_over_names", walk_over_names},
    {"decide", decide}, {"granted", granted},
};

enum { CALLS = sizeof calls / sizeof *calls };

/* ---- The lists */

static u32 random_below(u32 most)
{
    static uint64_t state = 1;
    state = state * 6364136223846793005u + 1442695040888963407u;
    return (u32)(state >> 33) % most;
}

static void *room(size_t size)
{
    void *made = calloc(1, size + 1);
    if (!made)
        exit(1);
    return made;
}

static aclck_bytes name_of(int is_group, u32 id)
{
    char *name = room(32);
    return aclck_bytes_of(name, (size_t)sprintf(name, "%s%04u@example.com", is_group ? "group" : "user", id));
}

static aclck_bytes digits_of(u32 id)
{
    char *digits = room(12);
    return aclck_bytes_of(digits, (size_t)sprintf(digits, "%u", id));
}

static int by_number(const void *a, const void *b)
{
    return (*(const u32 *)a > *(const u32 *)b) - (*(const u32 *)a < *(const u32 *)b);
}

/* Makes a requester in this many groups, with ids that rise, and an object that is not the requester's. */
static void make_people(Case *c, size_t ngroups)
{
    u32 *ids = room(ngroups * sizeof *ids), user = random_below(NAMES);
    aclck_bytes *names = room(ngroups * sizeof *names);
    for (size_t k = 0; k < ngroups; k++)
        ids[k] = (u32)k * (NAMES / (u32)ngroups) + random_below(NAMES / (u32)ngroups);
    qsort(ids, ngroups, sizeof *ids, by_number);
    for (size_t k = 0; k < ngroups; k++)
        names[k] = name_of(1, ids[k]);
    c->id_object = (aclck_id_object){(user + 1) % NAMES, (ids[0] + 1) % NAMES};
    c->id_requester = (aclck_id_requester){user, ids, ngroups};
    c->object = (aclck_object){name_of(0, c->id_object.owner), name_of(1, c->id_object.group)};
    c->requester = (aclck_requester){name_of(0, user), names, ngroups};
}

static IdAce ace_of(const Case *c, u32 place)
{
    static const u32 masks[] = {READ, READ, CHANGE, FULL};
    const aclck_id_requester *who = &c->id_requester;
    int is_group = (int)random_below(2);
    IdAce ace = {random_below(8) ? ACLCK_ALLOW : ACLCK_DENY, 0, masks[random_below(4)], 0, random_below(NAMES)};
    if (place == 0)
        return (IdAce){ACLCK_ALLOW, 0, FULL, SPECIAL_OWNER, 0};
    if (place == c->count - 2)
        return (IdAce){ACLCK_ALLOW, ACLCK_IDENTIFIER_GROUP, READ, SPECIAL_GROUP, 0};
    if (place == c->count - 1)
        return (IdAce){ACLCK_ALLOW, 0, READ, SPECIAL_EVERYONE, 0};
    if (place == c->count / 2)
        return (IdAce){ACLCK_ALLOW, ACLCK_IDENTIFIER_GROUP, READ, 0, who->groups[random_below((u32)who->ngroups)]};
    if (place == c->count / 2 - 1)
        return (IdAce){ACLCK_DENY, 0, ACLCK_WRITE_ACL | ACLCK_WRITE_OWNER, 0, who->user};
    ace.flags = is_group ? ACLCK_IDENTIFIER_GROUP : 0;
    return ace;
}

static aclck_bytes who_of(const IdAce *ace, aclck_bytes (*name)(int, u32))
{
    static const char *specials[] = {"", "OWNER@", "GROUP@", "EVERYONE@"};
    if (ace->special)
        return aclck_string(specials[ace->special]);
    return name ? name(ace->flags & ACLCK_IDENTIFIER_GROUP, ace->id) : digits_of(ace->id);
}

static void put_word(unsigned char *at, u32 word)
{
    for (int k = 0; k < 4; k++)
        at[k] = (unsigned char)(word >> (24 - 8 * k));
}

/* Returns the bytes of a list, with names or with decimal digits. */
static aclck_bytes spelled(const IdAce *aces, u32 count, aclck_bytes (*name)(int, u32))
{
    unsigned char *bytes = room((size_t)count * 64 + 4), *at = bytes + 4;
    put_word(bytes, count);
    for (u32 k = 0; k < count; k++) {
        aclck_bytes who = who_of(aces + k, name);
        put_word(at, aces[k].kind);
        put_word(at + 4, aces[k].flags);
        put_word(at + 8, aces[k].mask);
        put_word(at + 12, (u32)who.len);
        memcpy(at + 16, who.at, who.len);
        at += 16 + (who.len + 3) / 4 * 4;
    }
    return aclck_bytes_of(bytes, (size_t)(at - bytes));
}

static void make(Case *c, u32 aces, size_t ngroups)
{
    size_t most = (size_t)aces * 64 + 4096;
    aclck_buffer first = {room(most), most}, second = {room(most), most};
    static const aclck_name nobody;
    aclck_names none = {&nobody, 0};
    aclck_fault fault;
    c->count = aces;
    c->id_aces = room(aces * sizeof *c->id_aces);
    c->name_aces = room(aces * sizeof *c->name_aces);
    make_people(c, ngroups);
    for (u32 k = 0; k < aces; k++) {
        IdAce ace = c->id_aces[k] = ace_of(c, k);
        c->name_aces[k] = (NameAce){ace.kind, ace.flags, ace.mask, ace.special, who_of(&ace, name_of)};
    }
    c->acl = spelled(c->id_aces, aces, name_of);
    expect_done(aclck_prepare(c->acl, ACLCK_FULL, first, &c->prepared.len, &fault));
    c->prepared.at = first.at;
    expect_done(aclck_prepare_ids(spelled(c->id_aces, aces, NULL), &none, ACLCK_FULL, second, &c->prepared_ids.len,
                                  &fault));
    c->prepared_ids.at = second.at;
}

/* ---- The measurement */

static Case cases[LISTS];

__attribute__((noinline)) u32 asked(aclck_decided (*ask)(const Case *), long times)
{
    u32 sum = 0;
    for (long k = 0; k < times; k++)
        for (int list = 0; list < LISTS; list++) {
            aclck_decided decided = ask(cases + list);
            sum += decided.allowed;
        }
    return sum;
}

static double now(void)
{
    struct timespec t;
    clock_gettime(CLOCK_THREAD_CPUTIME_ID, &t);
    return (double)t.tv_sec * 1e9 + (double)t.tv_nsec;
}

static int by_time(const void *a, const void *b)
{
    return (*(const double *)a > *(const double *)b) - (*(const double *)a < *(const double *)b);
}

/* Returns 1 if a call answers otherwise than the walk over ids; `granted` does not say what is denied. */
static int differs(int call)
{
    for (int list = 0; list < LISTS; list++) {
        aclck_decided a = calls[call].ask(cases + list), b = walk_over_ids(cases + list);
        if (a.allowed != b.allowed || (a.denied != b.denied && calls[call].ask != granted))
            return 1;
    }
    return 0;
}

static void measure(int rounds, u32 aces)
{
    static double took[CALLS][MOST_ROUNDS];
    long times = 1 + 20000 / ((long)aces + 20);
    u32 sum = 0;
    for (int round = 0; round < rounds; round++)
        for (int call = 0; call < CALLS; call++) {
            double start = now();
            sum += asked(calls[call].ask, times);
            took[call][round] = (now() - start) / (double)times / LISTS;
        }
    for (int call = 0; call < CALLS; call++) {
        qsort(took[call], (size_t)rounds, sizeof(double), by_time);
        printf("%s %.1f\n", calls[call].name, took[call][rounds / 2]);
    }
    if (sum == 1)
        puts("");
}

int main(int argc, char **argv)
{
    for (int call = 0; argc == 1 && call < CALLS; call++)
        puts(calls[call].name);
    if (argc < 4)
        return argc != 1;
    u32 aces = (u32)atoi(argv[2]);
    for (int list = 0; list < LISTS; list++)
        make(cases + list, aces, (size_t)atoi(argv[3]));
    for (int call = 0; call < CALLS; call++) {
        if (differs(call)) {
            fprintf(stderr, "walks: %s answers otherwise than the walk over ids\n", calls[call].name);
            return 1;
        }
        if (argc > 4 && !strcmp(argv[1], calls[call].name))
            asked(calls[call].ask, 1);
    }
    int rounds = atoi(argv[1]);
    if (argc == 4)
        measure(rounds < MOST_ROUNDS ? rounds : MOST_ROUNDS, aces);
    return 0;
}
