/* Times calls of libaclck, and the same by hand in C: a check that parses the list as bench/by_hand does and judges it
 * in full, and a check and a text of a POSIX ACL by functions of bench/by_hand, which must write the same text.
 *
 *     library LIST COUNT          times each call, with COUNT also on a list of that many ACEs, each for a user
 *     library LIST 0 CALL TIMES   makes one call so often, so that a tool can count its instructions
 *
 * LIST is the list of examples/shared_folder.xdr. Each figure is the least time of the processor of several rounds.
 */
#include "../include/aclck.h"
#include "by_hand/devices.h"
#include "by_hand/list.h"
#include "by_hand/nfs4.h"
#include "by_hand/posix.h"
#include <time.h>

enum { ROUNDS = 7, MANY = 1000 };

static double now(void)
{
    struct timespec t;
    clock_gettime(CLOCK_PROCESS_CPUTIME_ID, &t);
    return (double)t.tv_sec * 1e9 + (double)t.tv_nsec;
}

static const char *only; /* the call that is made, if it is one alone */
static long often;

#define TIME(name, times, each, call)                                                                                  \
    do {                                                                                                               \
        double best = 1e18;                                                                                            \
        u32 sum = 0;                                                                                                   \
        for (long i = 0; only && !strcmp(only, name) && i < often; i++)                                                \
            sum += (call);                                                                                             \
        if (only)                                                                                                      \
            break;                                                                                                     \
        for (int round = 0; round < ROUNDS; round++) {                                                                 \
            double start = now();                                                                                      \
            for (long i = 0; i < (times); i++)                                                                         \
                sum += (call);                                                                                         \
            double took = now() - start;                                                                               \
            best = took < best ? took : best;                                                                          \
        }                                                                                                              \
        printf("%-44s %10.1f ns   (%u)\n", name, best / (double)(times) / (each), sum / (u32)(times) / ROUNDS);         \
    } while (0)

/* Returns whether the ACE has this name. */
static int is_of(const Ace *ace, aclck_bytes name)
{
    return ace->len == name.len && !memcmp(ace->who, name.at, name.len);
}

static int has_name(const aclck_bytes *groups, size_t count, const void *at, size_t len)
{
    for (size_t k = 0; k < count; k++)
        if (groups[k].len == len && !memcmp(groups[k].at, at, len))
            return 1;
    return 0;
}

/* The hand-written check. Returns 0 if the request is granted, and 1 if it is denied. */
static u32 by_hand(const u8 *bytes, size_t len, aclck_bytes owner, aclck_bytes group, aclck_bytes user,
                   const aclck_bytes *groups, size_t count, u32 left)
{
    List list;
    if (parse(bytes, bytes + len, &list) != bytes + len)
        return 2;
    int is_owner = has_name(&owner, 1, user.at, user.len), in_group = has_name(groups, count, group.at, group.len);
    for (const Ace *ace = list.aces, *last = ace + list.count; left && ace < last; ace++) {
        if (!(ace->mask & left) || ace->flags & INHERIT_ONLY)
            continue;
        int matches = ace->rank == USER ? is_of(ace, user)
            : ace->rank == OWNER        ? is_owner
            : ace->rank == GROUP        ? in_group
            : ace->rank == GROUP_NAMED  ? has_name(groups, count, ace->who, ace->len)
                                        : 1;
        if (matches && ace->kind == DENY)
            break;
        if (matches)
            left &= ~ace->mask;
    }
    free(list.aces);
    return left != 0;
}

static void forget_entries(void)
{
    free(access_acl.entries);
    free(default_acl.entries);
    access_acl = default_acl = (Acl){ 0, 0, 0 };
}

static u8 six_entries[] = "u::rwx,u:7:rw-,g::r-x,g:8:r--,m::rwx,o::---\n";
enum { SIX_ENTRIES = sizeof six_entries - 2 };

static int posix_check_by_hand(const aclck_posix_question *question)
{
    read_entries(six_entries, SIX_ENTRIES);
    int granted = posix_grants(question->owner, question->group, question->user, question->groups,
                               (u32)question->ngroups, question->want);
    forget_entries();
    return granted;
}

static int posix_show_by_hand(void)
{
    read_entries(six_entries, SIX_ENTRIES);
    out.len = 0;
    put_entries(&access_acl, "", 0);
    put_entries(&default_acl, "default:", 8);
    forget_entries();
    return 0;
}

static u8 list[1 << 16];
static u8 bytes[1 << 16];

static void time_large(u32 count)
{
    u8 *large = malloc((size_t)count * 24 + 4), *at = large + 4;
    aclck_bytes bob = {"bob", 3};
    aclck_fault fault;
    char name[8];
    put_word(large, count);
    for (u32 k = 0; k < count; k++, at += 24) {
        memset(at, 0, 24);
        put_word(at, k % 2);
        put_word(at + 8, 1);
        put_word(at + 12, 6);
        snprintf(name, sizeof name, "u%05u", k % 100000);
        memcpy(at + 16, name, 6);
    }
    size_t len = (size_t)(at - large);
    aclck_object object = {{"a", 1}, {"s", 1}};
    aclck_requester requester = {{"bob", 3}, &bob, 0};
    aclck_question question = {ACLCK_READ_DATA, ACLCK_FULL};
    u32 word;
    TIME("check, a large list, by the ACE", 20, count,
         aclck_check(aclck_bytes_of(large, len), &object, &requester, &question, &word, &fault) + word);
    TIME("check by hand, a large list, by the ACE", 20, count, by_hand(large, len, bob, bob, bob, &bob, 0, 1));
    free(large);
}

/* Times calls on a prepared list, and on a POSIX ACL of six entries. */
static void time_others(aclck_bytes acl, const aclck_object *object, const aclck_requester *requester)
{
    static const aclck_name rows[] = {{{"alice", 5}, 1, 0}, {{"bob", 3}, 2, 0}, {{"mallory", 7}, 3, 0},
                                      {{"staff", 5}, 1, 1}, {{"editors", 7}, 2, 1}};
    static const u32 ids[] = {1, 2};
    static u8 prepared[4096];
    const aclck_names names = {rows, sizeof rows / sizeof *rows};
    const aclck_id_object id_object = {1, 1};
    const aclck_id_requester id_requester = {2, ids, 2};
    const aclck_question all = {ACLCK_ALL_RIGHTS, ACLCK_FULL};
    const aclck_buffer room = {prepared, sizeof prepared}, shown = {bytes, sizeof bytes};
    const aclck_posix_text text = {aclck_bytes_of(six_entries, SIX_ENTRIES), {NULL, 0}};
    const aclck_posix_question question = {1, 1, 2, ACLCK_PERM_READ, ids, 2};
    aclck_decided decided;
    aclck_fault fault;
    u32 word;
    size_t n;
    aclck_bytes made = {prepared, 0};
    if (aclck_prepare(acl, ACLCK_FULL, room, &made.len, &fault))
        exit(3);
    TIME("decide_prepared", 300000, 1, aclck_decide_prepared(made, object, requester, &all, &decided));
    if (aclck_prepare_ids(acl, &names, ACLCK_FULL, room, &made.len, &fault))
        exit(3);
    TIME("decide_ids", 300000, 1, aclck_decide_ids(made, &id_object, &id_requester, &all, &decided));
    TIME("posix_check, six entries", 100000, 1, aclck_posix_check(&text, &question, &word, &fault) + word);
    TIME("posix_check by hand, six entries", 100000, 1, posix_check_by_hand(&question));
    TIME("posix_show, six entries", 100000, 1, aclck_posix_show(&text, ACLCK_CANONICAL, shown, &n, &fault));
    TIME("posix_show by hand, six entries", 100000, 1, posix_show_by_hand());
    if (!only && (n != out.len || memcmp(bytes, out.bytes, n)))
        exit(3);
}

int main(int argc, char **argv)
{
    static aclck_requester who[MANY];
    static u32 granted[MANY];
    static char names[MANY][8];
    aclck_bytes groups[2] = {{"editors", 7}, {"staff", 5}}, acl;
    aclck_object object = {{"alice", 5}, {"staff", 5}};
    aclck_requester requester = {{"bob", 3}, groups, 2};
    aclck_requesters many = {who, MANY};
    aclck_question some = {ACLCK_READ_DATA | ACLCK_EXECUTE, ACLCK_FULL}, one = {ACLCK_READ_DATA, ACLCK_FULL},
                   all = {ACLCK_ALL_RIGHTS, ACLCK_FULL};
    aclck_buffer out = {bytes, sizeof bytes};
    aclck_fault fault;
    aclck_decision decision;
    aclck_decided decided;
    aclck_difference difference;
    u32 word;
    size_t n, len;
    FILE *file = argc < 3 ? NULL : fopen(argv[1], "rb");
    if (!file)
        return 2;
    only = argc > 4 ? argv[3] : NULL;
    often = argc > 4 ? atol(argv[4]) : 0;
    len = fread(list, 1, sizeof list, file);
    fclose(file);
    acl = aclck_bytes_of(list, len);
    for (int k = 0; k < MANY; k++) {
        snprintf(names[k], sizeof names[k], "u%05d", k);
        who[k].user = aclck_string(k % 2 ? "bob" : names[k]);
        who[k].groups = groups;
        who[k].ngroups = 2;
    }
    TIME("check", 300000, 1, aclck_check(acl, &object, &requester, &some, &word, &fault) + word);
    TIME("check by hand", 300000, 1, by_hand(list, len, object.owner, object.group, requester.user, groups, 2, 0x21));
    TIME("granted, all sixteen rights", 300000, 1, aclck_granted(acl, &object, &requester, &all, &word, &fault));
    TIME("decide, all sixteen rights", 300000, 1, aclck_decide(acl, &object, &requester, &all, &decided, &fault));
    TIME("deciding", 300000, 1, aclck_deciding(acl, &object, &requester, &one, &decision, &fault));
    TIME("check_many, 1,000 requesters, by the requester", 300, MANY,
         aclck_check_many(acl, &object, many, &all, (aclck_masks){granted, MANY}, &fault));
    TIME("mode", 300000, 1, aclck_mode(acl, ACLCK_FULL, &word, &fault));
    TIME("child", 100000, 1, aclck_child(acl, ACLCK_DIRECTORY, out, &n, &fault));
    TIME("show", 100000, 1, aclck_show(acl, ACLCK_FULL, out, &n, &fault));
    TIME("same, with its own bytes", 100000, 1, aclck_same(acl, acl, ACLCK_FULL, &word, &fault));
    TIME("normalize", 50000, 1, aclck_normalize(acl, ACLCK_FULL, out, &n, &fault));
    if (aclck_normalize(acl, ACLCK_FULL, out, &n, &fault))
        return 3;
    TIME("same, with its normal form", 20000, 1,
         aclck_same(acl, aclck_bytes_of(bytes, n), ACLCK_FULL, &word, &fault) + word);
    TIME("compare, with the empty list", 20000, 1,
         aclck_compare(acl, aclck_bytes_of("\0\0\0", 4), ACLCK_FULL, &difference, out, &fault));
    time_others(acl, &object, &requester);
    if (atoi(argv[2]))
        time_large((u32)atoi(argv[2]));
    return 0;
}
