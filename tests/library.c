/* Runs the cases that tests/library writes through the library for C, and checks every answer.
 *
 *     library CASES [plain|memory|threads]
 *
 * plain (the default): runs each case, and runs it again with each buffer that is too short. The bytes on both sides of
 * a buffer must not change. It also checks what the calls promise about each other. memory: runs each case again with
 * each request for memory failing in turn. threads: runs all cases in four threads at once. With -DFUZZ the program is
 * a target of libFuzzer instead.
 */
#include "aclck.h"
#include "refusing.h"
#include <pthread.h>
#include <stdio.h>
#include <stdlib.h>
#include <string.h>

enum { SIDE = 16, CANARY = 0xa5, MOST = 16 };

/* ---- cases */

typedef struct {
    char call[32];
    uint32_t status, value, right, first_grants;
    aclck_fault fault;
    aclck_bytes out, blobs[4], groups[MOST];
    uint32_t numbers[6], ids[MOST];
    aclck_name names[MOST];
    size_t nblobs, nnumbers, ngroups, nids, nnames;
} testcase;

/* The results that a call wrote. */
typedef struct {
    aclck_fault fault;
    aclck_difference difference;
    uint32_t value;
    size_t needed;
} results;

#define IS(name) (strcmp(c->call, name) == 0)

#define IMPLICATION(right, others, options)                                                                            \
    (&(const aclck_implication){(enum aclck_right)(right), (enum aclck_right)(others), (enum aclck_option)(options)})

static aclck_question asks(uint32_t mask, uint32_t options) {
    aclck_question question;
    question.mask = (enum aclck_right)mask;
    question.options = (enum aclck_option)options;
    return question;
}

static aclck_posix_text with_names(aclck_bytes text, const aclck_name *names, size_t count) {
    static const aclck_name none;
    aclck_posix_text given;
    given.text = text;
    given.names.at = names ? names : &none;
    given.names.len = count;
    return given;
}

static uint32_t ask_posix(const testcase *c, const aclck_posix_text *text, results *r) {
    const uint32_t *n = c->numbers;
    const aclck_posix_question question = {n[0], n[1], n[2], n[3], c->ids, c->nids};
    return aclck_posix_check(text, &question, &r->value, &r->fault);
}

/* Calls over POSIX texts. */
static uint32_t invoke_posix(const testcase *c, aclck_buffer out, results *r) {
    const uint32_t *n = c->numbers;
    const aclck_posix_text text = with_names(c->blobs[0], c->names, c->nnames);
    const aclck_creation creation = {n[0], n[1], (enum aclck_option)n[2]};
    if (IS("posix_check"))
        return ask_posix(c, &text, r);
    if (IS("posix_show"))
        return aclck_posix_show(&text, n[0], out, &r->needed, &r->fault);
    if (IS("posix_calc_mask"))
        return aclck_posix_calc_mask(&text, out, &r->needed, &r->fault);
    if (IS("posix_chmod"))
        return aclck_posix_chmod(&text, n[0], out, &r->needed, &r->fault);
    if (IS("posix_create"))
        return aclck_posix_create(&text, &creation, out, &r->needed, &r->fault);
    if (IS("posix_bridge"))
        return aclck_posix_bridge(&text, out, &r->needed, &r->fault);
    fprintf(stderr, "library: no call %s\n", c->call);
    exit(1);
}

static uint32_t invoke(const testcase *c, void *at, size_t cap, results *r) {
    const uint32_t *n = c->numbers;
    const aclck_bytes acl = c->blobs[0];
    const aclck_buffer out = aclck_buffer_of(at, cap);
    const aclck_object object = {c->blobs[1], c->blobs[2]};
    const aclck_requester who = {c->blobs[3], c->groups, c->ngroups};
    const aclck_question question = asks(n[0], n[1]);
    if (IS("check"))
        return aclck_check(acl, &object, &who, &question, &r->value, &r->fault);
    if (IS("mode"))
        return aclck_mode(acl, n[0], &r->value, &r->fault);
    if (IS("child"))
        return aclck_child(acl, n[0], out, &r->needed, &r->fault);
    if (IS("show"))
        return aclck_show(acl, n[0], out, &r->needed, &r->fault);
    if (IS("encode"))
        return aclck_encode(acl, n[0], out, &r->needed, &r->fault);
    if (IS("normalize"))
        return aclck_normalize(acl, n[0], out, &r->needed, &r->fault);
    if (IS("normalize_inherit"))
        return aclck_normalize_inherit(acl, n[0], out, &r->needed, &r->fault);
    if (IS("table"))
        return aclck_table(acl, &question, out, &r->needed, &r->fault);
    if (IS("compare"))
        return aclck_compare(acl, c->blobs[1], n[0], &r->difference, out, &r->fault);
    if (IS("same"))
        return aclck_same(acl, c->blobs[1], n[0], &r->value, &r->fault);
    return invoke_posix(c, out, r);
}

/* Returns whether a call answers with one number, which is 0 if the call fails. */
static int answers(const testcase *c) {
    return IS("check") || IS("mode") || IS("same") || IS("posix_check");
}

/* Returns whether a call writes bytes. */
static int writes_bytes(const testcase *c) {
    return !answers(c);
}

static results untouched(void) {
    results r;
    memset(&r, 0xee, sizeof r);
    return r;
}

#define EXPECT(c, what) ((what) ? 1 : fail(c, #what, __LINE__))

static int fail(const testcase *c, const char *what, int line) {
    printf("library: line %d: a case of %s: not so: %s\n", line, c->call, what);
    return 0;
}

static int is_difference(const aclck_difference *found, uint64_t names, uint32_t same, uint32_t right,
                         uint32_t first_grants) {
    return found->names == names && found->same == same && found->right == right && found->first_grants == first_grants;
}

/* Returns whether a call wrote the answer that its status allows: at failure the one that grants nothing. */
static int is_answer_right(const testcase *c, uint32_t status, const results *r) {
    results was = untouched();
    int done = status == ACLCK_DONE, written = done || status == ACLCK_SHORT;
    int ok = EXPECT(c, r->value == (answers(c) ? done ? c->value : 0 : was.value));
    if (!IS("compare"))
        return ok & EXPECT(c, memcmp(&r->difference, &was.difference, sizeof was.difference) == 0);
    if (written)
        return ok & EXPECT(c, is_difference(&r->difference, c->out.len, c->value, c->right, c->first_grants));
    return ok & EXPECT(c, is_difference(&r->difference, 0, 0, 0, 0));
}

/* Returns whether a call with a buffer of `cap` bytes wrote what its status allows. */
static int is_right(const testcase *c, uint32_t status, size_t cap, const unsigned char *room, const results *r) {
    results was = untouched();
    int done = writes_bytes(c) && status == ACLCK_DONE;
    size_t written = done ? c->out.len : 0;
    int ok = 1;
    ok &= EXPECT(c, status == c->status || (status == ACLCK_SHORT && cap < c->out.len));
    if (!ok)
        return 0;
    for (size_t i = 0; i < SIDE; i++)
        ok &= EXPECT(c, room[i] == CANARY && room[SIDE + cap + i] == CANARY);
    for (size_t i = written; i < cap; i++)
        ok &= EXPECT(c, room[SIDE + i] == CANARY);
    if (done)
        ok &= EXPECT(c, memcmp(room + SIDE, c->out.at, written) == 0);
    if ((done || status == ACLCK_SHORT) && !IS("compare"))
        ok &= EXPECT(c, r->needed == c->out.len);
    else
        ok &= EXPECT(c, r->needed == was.needed);
    if (status == ACLCK_REFUSED)
        ok &= EXPECT(c, memcmp(&r->fault, &c->fault, sizeof r->fault) == 0);
    else
        ok &= EXPECT(c, memcmp(&r->fault, &was.fault, sizeof was.fault) == 0);
    return ok & is_answer_right(c, status, r);
}

/* Runs a case with a buffer of `cap` bytes. */
static int is_answered(const testcase *c, size_t cap, unsigned char *room) {
    results r = untouched();
    memset(room, CANARY, cap + 2 * SIDE);
    return is_right(c, invoke(c, room + SIDE, cap, &r), cap, room, &r);
}

/* ---- what the calls promise about each other */

/* Each right is decided as check, granted, decide and deciding say. */
static int agree_on_rights(const testcase *c, const aclck_object *object, const aclck_requester *who,
                           uint32_t granted) {
    int ok = 1;
    for (int bit = 0; bit < 21; bit++) {
        const aclck_question question = asks((uint32_t)1 << bit, c->numbers[1]);
        aclck_fault fault;
        aclck_decision decision;
        aclck_decided decided;
        uint32_t one = 77;
        if (!(question.mask & ACLCK_ALL_RIGHTS))
            continue;
        ok &= EXPECT(c, aclck_check(c->blobs[0], object, who, &question, &one, &fault) == ACLCK_DONE);
        ok &= EXPECT(c, aclck_deciding(c->blobs[0], object, who, &question, &decision, &fault) == ACLCK_DONE);
        ok &= EXPECT(c, aclck_decide(c->blobs[0], object, who, &question, &decided, &fault) == ACLCK_DONE);
        if (c->numbers[0] & (uint32_t)question.mask)
            ok &= EXPECT(c, ((granted & (uint32_t)question.mask) != 0) == one);
        ok &= EXPECT(c, (decision.kind == ACLCK_ALLOW) == one);
        ok &= EXPECT(c, decided.allowed == (decision.kind == ACLCK_ALLOW ? (uint32_t)question.mask : 0));
        ok &= EXPECT(c, decided.denied == (decision.kind == ACLCK_DENY ? (uint32_t)question.mask : 0));
    }
    return ok;
}

static int agree_on_requests(const testcase *c) {
    const aclck_object object = {c->blobs[1], c->blobs[2]};
    const aclck_question question = asks(c->numbers[0], c->numbers[1]);
    aclck_fault fault;
    uint32_t granted = 77, stranger = 77, many[3] = {77, 77, 77};
    aclck_decided decided = {77, 77};
    aclck_requester who[3];
    const aclck_requesters all = {who, 3};
    const aclck_masks room = {many, 3}, two = {many, 2};
    int ok = 1;
    for (int i = 0; i < 3; i++)
        who[i] = aclck_requester_of(c->blobs[3], c->groups, c->ngroups);
    who[1].user = aclck_string("nobody-of-the-cases");
    ok &= EXPECT(c, aclck_check_many(c->blobs[0], &object, all, &question, two, &fault) == ACLCK_BAD_ARGUMENT);
    ok &= EXPECT(c, many[0] == 0 && many[1] == 0 && many[2] == 77);
    ok &= EXPECT(c, aclck_check_many(c->blobs[0], &object, all, &question, room, &fault) == c->status);
    ok &= EXPECT(c, aclck_granted(c->blobs[0], &object, who, &question, &granted, &fault) == c->status);
    ok &= EXPECT(c, aclck_decide(c->blobs[0], &object, who, &question, &decided, &fault) == c->status);
    ok &= EXPECT(c, many[0] == granted && many[2] == granted && decided.allowed == granted);
    if (c->status != ACLCK_DONE)
        return ok & EXPECT(c, granted == 0 && many[1] == 0 && decided.denied == 0);
    ok &= EXPECT(c, (granted == c->numbers[0]) == c->value);
    ok &= EXPECT(c, (decided.allowed & decided.denied) == 0);
    ok &= EXPECT(c, aclck_granted(c->blobs[0], &object, &who[1], &question, &stranger, &fault) == ACLCK_DONE);
    return ok & EXPECT(c, many[1] == stranger) & agree_on_rights(c, &object, who, granted);
}

static uint32_t word_at(const unsigned char *at) {
    return (uint32_t)at[0] << 24 | (uint32_t)at[1] << 16 | (uint32_t)at[2] << 8 | at[3];
}

/* Gives each ACE of a list the mask at its place. */
static void cut_to(unsigned char *list, const uint32_t *masks, size_t count) {
    unsigned char *at = list + 4;
    for (size_t i = 0; i < count; i++) {
        for (int k = 0; k < 4; k++)
            at[8 + k] = (unsigned char)(masks[i] >> (24 - 8 * k));
        at += 16 + (word_at(at + 12) + 3) / 4 * 4;
    }
}

/* The list of a case of normalize, cut to the rights that are needed, has the normal form of the list, and needs all of
   its rights. */
static int agree_on_needed(const testcase *c) {
    size_t len = c->blobs[0].len, most = len / 20 + 1, count = 77, again;
    uint32_t *masks = malloc(most * sizeof *masks), *kept = malloc(most * sizeof *kept);
    unsigned char *list = malloc(len ? len : 1), *form = malloc(c->out.len);
    const aclck_masks room = {masks, most};
    const aclck_bytes cut = {list, len};
    aclck_fault fault;
    int ok = 1;
    memcpy(list, c->blobs[0].at, len);
    for (size_t i = 0; i < most; i++)
        masks[i] = 77;
    uint32_t status = aclck_needed(c->blobs[0], c->numbers[0], room, &count, &fault);
    ok &= EXPECT(c, status == c->status);
    if (status == ACLCK_DONE) {
        ok &= EXPECT(c, count == word_at(list) && masks[count] == 77);
        cut_to(list, masks, count);
        ok &= EXPECT(c, aclck_normalize(cut, c->numbers[0], aclck_buffer_of(form, c->out.len), &again, &fault) ==
                            ACLCK_DONE);
        ok &= EXPECT(c, again == c->out.len && memcmp(form, c->out.at, again) == 0);
        aclck_masks rest = {kept, count};
        ok &= EXPECT(c, aclck_needed(cut, c->numbers[0], rest, &again, &fault) == ACLCK_DONE);
        ok &= EXPECT(c, again == count && memcmp(kept, masks, count * sizeof *masks) == 0);
        kept[0] = 77;
        rest.len = count - 1;
        if (count > 0)
            ok &= EXPECT(c, aclck_needed(cut, c->numbers[0], rest, &again, &fault) == ACLCK_SHORT && again == count &&
                                kept[0] == 77);
    } else {
        ok &= EXPECT(c, count == 77 && masks[0] == 77 && memcmp(&fault, &c->fault, sizeof fault) == 0);
    }
    free(masks);
    free(kept);
    free(list);
    free(form);
    return ok;
}

/* The lines of a canonical text, which is that of the access ACL or of the default ACL, as entries. */
typedef struct {
    aclck_entry *at;
    size_t len;
} entry_list;

static entry_list entries_in(const char *text, size_t len, int is_default) {
    static const struct {
        const char *word;
        uint32_t plain, named;
    } tags[] = {{"user:", ACLCK_TAG_USER_OBJ, ACLCK_TAG_USER}, {"group:", ACLCK_TAG_GROUP_OBJ, ACLCK_TAG_GROUP},
                {"mask:", ACLCK_TAG_MASK, 0}, {"other:", ACLCK_TAG_OTHER, 0}};
    static const char front[] = "default:";
    entry_list found = {malloc((len / 8 + 1) * sizeof *found.at), 0};
    for (const char *at = text, *end; at < text + len; at = end + 1) {
        int has_front = strncmp(at, front, sizeof front - 1) == 0;
        end = strchr(at, '\n');
        at += has_front ? sizeof front - 1 : 0;
        for (size_t i = 0; has_front == is_default && i < sizeof tags / sizeof *tags; i++)
            if (strncmp(at, tags[i].word, strlen(tags[i].word)) == 0) {
                const char *id = at + strlen(tags[i].word);
                aclck_entry *e = &found.at[found.len++];
                e->tag = *id == ':' ? tags[i].plain : tags[i].named;
                e->id = *id == ':' ? 0xffffffff : (uint32_t)strtoul(id, NULL, 10);
                e->perm = (end[-3] == 'r') * 4u + (end[-2] == 'w') * 2u + (end[-1] == 'x');
            }
    }
    return found;
}

static int are_equal_entries(const entry_list *a, const aclck_entry *at, size_t len) {
    return a->len == len && memcmp(a->at, at, len * sizeof *at) == 0;
}

/* The calls over entries, which are given in no order, write what the text of the result has. */
static int agree_on_written_entries(const testcase *c, const entry_list *access, const entry_list *dflt) {
    const uint32_t *n = c->numbers;
    const aclck_creation creation = {n[0], n[1], (enum aclck_option)n[2]};
    const size_t most = access->len + dflt->len + 1;
    aclck_entry *mixed = malloc(most * sizeof *mixed), *room = malloc(most * sizeof *room);
    aclck_entries entries = {mixed, access->len};
    const aclck_entry_buffer out = {room, most};
    const aclck_bytes result = c->out;
    entry_list wanted = {NULL, 0};
    aclck_fault fault;
    size_t needed = 0;
    enum aclck_status status = ACLCK_DONE;
    for (size_t i = 0; i < access->len; i++)
        mixed[i] = access->at[access->len - 1 - i];
    if (IS("posix_create")) {
        entries.at = dflt->at;
        entries.len = dflt->len;
        status = dflt->len > 0 ? aclck_entries_create(entries, &creation, out, &needed, &fault) : ACLCK_DONE;
    } else if (IS("posix_chmod")) {
        status = aclck_entries_chmod(entries, n[0], out, &needed, &fault);
    } else if (IS("posix_calc_mask")) {
        status = aclck_entries_calc_mask(entries, out, &needed, &fault);
    } else {
        status = aclck_entries_sorted(entries, ACLCK_FULL, out, &needed, &fault);
        wanted.at = malloc(most * sizeof *wanted.at);
        memcpy(wanted.at, access->at, access->len * sizeof *wanted.at);
        wanted.len = access->len;
    }
    if (!wanted.at)
        wanted = entries_in(result.at, result.len, 0);
    int ok = EXPECT(c, status == ACLCK_DONE);
    if (!IS("posix_create") || dflt->len > 0)
        ok &= EXPECT(c, are_equal_entries(&wanted, room, needed));
    free(wanted.at);
    free(mixed);
    free(room);
    return ok;
}

/* An ACL has the bytes of an attribute, which have its entries; its mode; and, where asked, its NFSv4 list. */
static int agree_on_entries_read(const testcase *c, const entry_list *access) {
    const aclck_entries entries = {access->at, access->len};
    const size_t size = 4 + 8 * access->len;
    unsigned char *bytes = malloc(size + c->out.len);
    aclck_entry *room = malloc(access->len * sizeof *room);
    const aclck_entry_buffer out = {room, access->len};
    aclck_fault fault;
    uint32_t mode = 77, group_class = 0, wanted = 0;
    size_t needed = 0;
    int ok = 1;
    for (size_t i = 0; i < access->len; i++) {
        wanted |= access->at[i].tag == ACLCK_TAG_USER_OBJ ? access->at[i].perm << 6 : 0;
        wanted |= access->at[i].tag == ACLCK_TAG_OTHER ? access->at[i].perm : 0;
        if (access->at[i].tag == ACLCK_TAG_GROUP_OBJ || access->at[i].tag == ACLCK_TAG_MASK)
            group_class = access->at[i].perm; /* the mask comes after the group */
    }
    ok &= EXPECT(c, aclck_entries_mode(entries, &mode, &fault) == ACLCK_DONE && mode == (wanted | group_class << 3));
    ok &= EXPECT(c, aclck_entries_to_attribute(entries, aclck_buffer_of(bytes, size), &needed, &fault) == ACLCK_DONE);
    ok &= EXPECT(c, needed == size && aclck_entries_from_attribute(aclck_bytes_of(bytes, size), out, &needed, &fault) ==
                                          ACLCK_DONE);
    ok &= EXPECT(c, are_equal_entries(access, room, needed));
    if (IS("posix_bridge")) {
        ok &= EXPECT(c, aclck_entries_bridge(entries, aclck_buffer_of(bytes, size + c->out.len), &needed, &fault) ==
                            ACLCK_DONE);
        ok &= EXPECT(c, needed == c->out.len && memcmp(bytes, c->out.at, c->out.len) == 0);
    }
    free(bytes);
    free(room);
    return ok;
}

/* Entries get the answers that the text with these entries gets. */
static int agree_on_entries(const testcase *c) {
    const aclck_posix_text text = with_names(c->blobs[0], c->names, c->nnames);
    const aclck_posix_question question = {c->numbers[0], c->numbers[1], c->numbers[2], c->numbers[3], c->ids, c->nids};
    aclck_fault fault;
    size_t needed = 0;
    if (c->status != ACLCK_DONE)
        return 1;
    if (aclck_posix_show(&text, ACLCK_CANONICAL, aclck_buffer_of(NULL, 0), &needed, &fault) != ACLCK_SHORT)
        return EXPECT(c, 0);
    char *shown = malloc(needed + 1);
    shown[needed] = 0;
    int ok = EXPECT(c, aclck_posix_show(&text, ACLCK_CANONICAL, aclck_buffer_of(shown, needed), &needed, &fault) ==
                           ACLCK_DONE);
    entry_list access = entries_in(shown, needed, 0), dflt = entries_in(shown, needed, 1);
    if (IS("posix_check")) {
        const aclck_entries entries = {access.at, access.len};
        aclck_posix_decision decision = {77, 77, 77, 77};
        uint32_t granted = 77;
        ok &= EXPECT(c, aclck_entries_check(entries, &question, &granted, &fault) == ACLCK_DONE && granted == c->value);
        ok &= EXPECT(c, aclck_entries_deciding(entries, &question, &decision, &fault) == ACLCK_DONE);
        ok &= EXPECT(c, decision.granted == c->value && decision.tag <= ACLCK_TAG_OTHER);
        if (decision.tag)
            ok &= EXPECT(c, decision.place < access.len && access.at[decision.place].tag == decision.tag);
    } else {
        ok &= agree_on_written_entries(c, &access, &dflt);
    }
    ok &= agree_on_entries_read(c, &access);
    free(access.at);
    free(dflt.at);
    free(shown);
    return ok;
}

/* If one list exceeds another, the requester of the answer is granted the right by the one and not by the other. */
static int is_excess_right(const testcase *c, aclck_bytes first, aclck_bytes second, int *exceeds) {
    const aclck_difference was = {77, 77, 77, 77};
    aclck_difference found = was, again = was;
    aclck_fault fault;
    aclck_bytes names[MOST + 3];
    uint32_t granted[2] = {77, 77};
    size_t count = 0;
    enum aclck_status status = aclck_excess(first, second, c->numbers[0], &found, aclck_buffer_of(NULL, 0), &fault);
    char *text = malloc(found.names + 1);
    int ok = EXPECT(c, status == (found.names > 0 ? ACLCK_SHORT : ACLCK_DONE));
    ok &= EXPECT(c, aclck_excess(first, second, c->numbers[0], &again, aclck_buffer_of(text, found.names), &fault) ==
                        ACLCK_DONE);
    ok &= EXPECT(c, is_difference(&again, found.names, found.same, found.right, found.first_grants));
    ok &= EXPECT(c, found.same ? is_difference(&found, 0, 1, 0, 0) : found.first_grants == 1);
    *exceeds = !found.same;
    for (char *at = text; at < text + found.names && count < MOST + 3; at += names[count++].len + 1)
        names[count] = aclck_string(at);
    if (!found.same && EXPECT(c, count >= 3)) {
        const aclck_object object = {names[0], names[1]};
        const aclck_requester who = aclck_requester_of(names[2], names + 3, count - 3);
        const aclck_question question = asks(found.right, c->numbers[0]);
        ok &= EXPECT(c, aclck_check(first, &object, &who, &question, &granted[0], &fault) == ACLCK_DONE);
        ok &= EXPECT(c, aclck_check(second, &object, &who, &question, &granted[1], &fault) == ACLCK_DONE);
        ok &= EXPECT(c, granted[0] == 1 && granted[1] == 0);
    }
    free(text);
    return ok;
}

/* Two lists are the same if and only if neither exceeds the other. */
static int agree_on_excess(const testcase *c) {
    int one = 1, other = 1;
    if (c->status != ACLCK_DONE)
        return 1;
    int ok = is_excess_right(c, c->blobs[0], c->blobs[1], &one) & is_excess_right(c, c->blobs[1], c->blobs[0], &other);
    return ok & EXPECT(c, c->value == (!one && !other));
}

/* If a right does not imply all rights, the requester of the answer is granted it and not the right that is missing.
   The words about a right have one line for each row of its table, or one line if there is none. */
static int agree_on_one_right(const testcase *c) {
    const aclck_bytes acl = c->blobs[0];
    const enum aclck_right all = c->numbers[1] & ACLCK_NARROW ? 0x1f01ff : 0x1f07ff;
    const aclck_question question = asks(c->numbers[0], c->numbers[1]);
    const aclck_implication implication = {question.mask, (enum aclck_right)all, question.options};
    aclck_difference found = {77, 77, 77, 77};
    aclck_fault fault;
    aclck_bytes names[MOST + 3];
    uint32_t granted[2] = {77, 77};
    size_t rows = 0, words = 0, lines[2] = {0, 0}, count = 0;
    if (c->status != ACLCK_DONE)
        return 1;
    enum aclck_status status = aclck_implies(acl, &implication, &found, aclck_buffer_of(NULL, 0), &fault);
    int ok = EXPECT(c, status == (found.names ? ACLCK_SHORT : ACLCK_DONE));
    status = aclck_table(acl, &question, aclck_buffer_of(NULL, 0), &rows, &fault);
    ok &= EXPECT(c, status == (rows ? ACLCK_SHORT : ACLCK_DONE));
    ok &= EXPECT(c, aclck_holders(acl, &question, aclck_buffer_of(NULL, 0), &words, &fault) == ACLCK_SHORT);
    char *text = malloc(found.names + rows + words + 1), *shown = text + found.names;
    ok &= EXPECT(c, aclck_implies(acl, &implication, &found, aclck_buffer_of(text, found.names), &fault) == ACLCK_DONE);
    ok &= EXPECT(c, aclck_table(acl, &question, aclck_buffer_of(shown, rows), &rows, &fault) == ACLCK_DONE);
    ok &= EXPECT(c, aclck_holders(acl, &question, aclck_buffer_of(shown + rows, words), &words, &fault) == ACLCK_DONE);
    for (size_t i = 0; i < rows + words; i++)
        lines[i >= rows] += shown[i] == '\n';
    ok &= EXPECT(c, lines[1] == (lines[0] ? lines[0] : 1));
    ok &= EXPECT(c, found.first_grants == 0 && found.same == (found.names == 0));
    for (char *at = text; at < text + found.names && count < MOST + 3; at += names[count++].len + 1)
        names[count] = aclck_string(at);
    if (!found.same && EXPECT(c, count >= 3)) {
        const aclck_object object = {names[0], names[1]};
        const aclck_requester who = aclck_requester_of(names[2], names + 3, count - 3);
        const aclck_question missing = asks(found.right, question.options);
        ok &= EXPECT(c, aclck_check(acl, &object, &who, &question, &granted[0], &fault) == ACLCK_DONE);
        ok &= EXPECT(c, aclck_check(acl, &object, &who, &missing, &granted[1], &fault) == ACLCK_DONE);
        ok &= EXPECT(c, granted[0] == 1 && granted[1] == 0);
    }
    free(text);
    return ok;
}

static int agree(const testcase *c) {
    if (IS("table"))
        return agree_on_one_right(c);
    if (IS("compare"))
        return agree_on_excess(c);
    if (IS("check"))
        return agree_on_requests(c);
    if (IS("normalize"))
        return agree_on_needed(c);
    if (strncmp(c->call, "posix_", 6) == 0)
        return agree_on_entries(c);
    return 1;
}

/* The names of rights, written and read back, and the names of reasons. */
static int are_words_right(void) {
    testcase none, *c = &none;
    char room[256];
    const aclck_buffer all = aclck_buffer_of(room, sizeof room);
    size_t needed;
    uint32_t mask;
    int ok = 1;
    memset(c, 0, sizeof *c);
    strcpy(c->call, "words");
    for (uint32_t bits = 0; bits < 1u << 21; bits += 127) {
        uint32_t status = aclck_mask_text(bits, all, &needed);
        if (bits & ~(uint32_t)ACLCK_ALL_RIGHTS) {
            ok &= EXPECT(c, status == ACLCK_BAD_ARGUMENT);
            continue;
        }
        ok &= EXPECT(c, status == ACLCK_DONE && needed <= 250);
        ok &= EXPECT(c, aclck_read_mask(aclck_bytes_of(room, needed), &mask) == ACLCK_DONE && mask == bits);
        ok &= EXPECT(c, aclck_mask_text(bits, aclck_buffer_of(room, needed - 1), &needed) == ACLCK_SHORT);
    }
    ok &= EXPECT(c, aclck_mask_text(ACLCK_ALL_RIGHTS, all, &needed) == ACLCK_DONE && needed <= 250);
    mask = 77;
    ok &= EXPECT(c, aclck_read_mask(aclck_string("READ"), &mask) == ACLCK_BAD_ARGUMENT && mask == 77);
    ok &= EXPECT(c, aclck_version() == ACLCK_VERSION);
    return ok;
}

/* The reasons of enum aclck_reason, from 1, by the names that aclck(1) prints. */
static int are_reasons_right(void) {
    static const char *const names[] = {"Truncated", "TooManyAces", "AuditOrAlarm", "AceType", "FlagBits", "MaskBits",
        "TooHeavy", "WhoLength", "WhoUtf8", "WhoControl", "SpecialWho", "Padding", "TrailingBytes", "Read", "Memory",
        "Fields", "Flag", "Mask", "Tag", "Qualifier", "Id", "UnknownName", "Permission", "EmptyEntry", "Multi",
        "Duplicate", "Miss", "Limits", "Size", "Version", "Order", "Merged", "AclFlagBits", "IflagBits",
        "NotDirectory", "Empty", "IdDiffers", "Comment", "Nul", "TooLong", "NoId", "Inherited", "Retention",
        "Separator", "AclFlags", "TooMany"};
    testcase none, *c = &none;
    int ok = 1;
    memset(c, 0, sizeof *c);
    strcpy(c->call, "reason_text");
    for (uint32_t reason = 1; reason <= ACLCK_TOO_MANY; reason++) {
        char room[16];
        size_t len = strlen(names[reason - 1]), needed = 0;
        memset(room, CANARY, sizeof room);
        ok &= EXPECT(c, aclck_reason_text(reason, aclck_buffer_of(room, len - 1), &needed) == ACLCK_SHORT);
        ok &= EXPECT(c, needed == len);
        ok &= EXPECT(c, (unsigned char)room[0] == CANARY);
        ok &= EXPECT(c, aclck_reason_text(reason, aclck_buffer_of(room, 13), &needed) == ACLCK_DONE && needed == len);
        ok &= EXPECT(c, memcmp(room, names[reason - 1], len) == 0 && (unsigned char)room[len] == CANARY);
    }
    return ok;
}

/* ---- arguments without a meaning, and rare refusals */

/* All that a call may write to. */
typedef struct {
    results r;
    aclck_decision decision;
    aclck_decided decided;
    uint32_t granted[4];
    char room[64];
} outputs;

/* ALLOW - READ_DATA bob: 24 bytes, the last of which is the zero byte of the string. */
#define BOB "\0\0\0\1" "\0\0\0\0" "\0\0\0\0" "\0\0\0\1" "\0\0\0\3" "bob"
static const aclck_bytes LIST = {BOB, sizeof BOB};
static const aclck_bytes ENTRIES = {"u::rwx,g::r-x,o::r--", 20};
static const aclck_object THEM = {{"a", 1}, {"s", 1}};
static const aclck_bytes STAFF[] = {{"staff", 5}, {"", 0}};
static const aclck_requester IN_STAFF = {{"bob", 3}, STAFF, 1};

#define OUT aclck_buffer_of(o.room, sizeof o.room), &o.r.needed, &o.r.fault

/* A call with a bad argument writes nothing. */
#define BAD(call)                                                                                                      \
    do {                                                                                                               \
        memset(&o, 0xee, sizeof o);                                                                                    \
        ok &= EXPECT(c, (call) == ACLCK_BAD_ARGUMENT);                                                                 \
        ok &= EXPECT(c, memcmp(&o, &untouched_outputs, sizeof o) == 0);                                                \
    } while (0)

/* A call with a bad argument writes the answer that grants nothing, and nothing else. */
#define CLOSED(call, answer, is_closed)                                                                                \
    do {                                                                                                               \
        memset(&o, 0xee, sizeof o);                                                                                    \
        ok &= EXPECT(c, (call) == ACLCK_BAD_ARGUMENT);                                                                 \
        ok &= EXPECT(c, is_closed);                                                                                    \
        memset(&(answer), 0xee, sizeof(answer));                                                                       \
        ok &= EXPECT(c, memcmp(&o, &untouched_outputs, sizeof o) == 0);                                                \
    } while (0)

/* The calls that ask whether one requester may do something are closed by an argument that is bad for all of them. */
static int are_questions_closed(const testcase *c, const aclck_object *object, const aclck_requester *who,
                                aclck_question question) {
    outputs o, untouched_outputs;
    int ok = 1;
    memset(&untouched_outputs, 0xee, sizeof o);
    CLOSED(aclck_check(LIST, object, who, &question, &o.r.value, &o.r.fault), o.r.value, o.r.value == 0);
    CLOSED(aclck_granted(LIST, object, who, &question, &o.r.value, &o.r.fault), o.r.value, o.r.value == 0);
    CLOSED(aclck_decide(LIST, object, who, &question, &o.decided, &o.r.fault), o.decided,
           o.decided.allowed == 0 && o.decided.denied == 0);
    CLOSED(aclck_deciding(LIST, object, who, &question, &o.decision, &o.r.fault), o.decision,
           o.decision.place == 0 && o.decision.kind == ACLCK_UNDECIDED);
    return ok;
}

/* aclck_check_many is closed by a bad argument: with room for `count` answers, all of them are 0. */
static int is_many_closed(const testcase *c, const aclck_object *object, const aclck_requester *who,
                          aclck_question question, size_t count) {
    outputs o, untouched_outputs;
    const aclck_requesters three = {who, 3};
    const aclck_masks room = {o.granted, count};
    int ok = 1;
    memset(&untouched_outputs, 0xee, sizeof o);
    memset(&o, 0xee, sizeof o);
    ok &= EXPECT(c, aclck_check_many(LIST, object, three, &question, room, &o.r.fault) == ACLCK_BAD_ARGUMENT);
    for (size_t i = 0; i < count; i++)
        ok &= EXPECT(c, o.granted[i] == 0);
    memset(o.granted, 0xee, count * sizeof *o.granted);
    return ok & EXPECT(c, memcmp(&o, &untouched_outputs, sizeof o) == 0);
}

/* Returns whether each call refuses these options, which are not its own. */
static int is_option_judged(const testcase *c, uint32_t options) {
    const aclck_requester who[] = {IN_STAFF, IN_STAFF, IN_STAFF};
    const aclck_question question = asks(1, options);
    const aclck_posix_text text = with_names(ENTRIES, NULL, 0);
    const aclck_creation creation = {0777, 022, (enum aclck_option)options};
    outputs o, untouched_outputs;
    int ok = are_questions_closed(c, &THEM, who, question) & is_many_closed(c, &THEM, who, question, 3);
    memset(&untouched_outputs, 0xee, sizeof o);
    CLOSED(aclck_mode(LIST, options, &o.r.value, &o.r.fault), o.r.value, o.r.value == 0);
    CLOSED(aclck_same(LIST, LIST, options, &o.r.value, &o.r.fault), o.r.value, o.r.value == 0);
    CLOSED(aclck_compare(LIST, LIST, options, &o.r.difference, aclck_buffer_of(o.room, sizeof o.room), &o.r.fault),
           o.r.difference, is_difference(&o.r.difference, 0, 0, 0, 0));
    CLOSED(aclck_excess(LIST, LIST, options, &o.r.difference, aclck_buffer_of(o.room, sizeof o.room), &o.r.fault),
           o.r.difference, is_difference(&o.r.difference, 0, 0, 0, 0));
    CLOSED(aclck_implies(LIST, IMPLICATION(1, 2, options), &o.r.difference, aclck_buffer_of(o.room, sizeof o.room), &o.r.fault),
           o.r.difference, is_difference(&o.r.difference, 0, 0, 0, 0));
    BAD(aclck_show(LIST, options, OUT));
    BAD(aclck_encode(aclck_string(""), options, OUT));
    BAD(aclck_normalize(LIST, options, OUT));
    BAD(aclck_normalize_inherit(LIST, options, OUT));
    BAD(aclck_table(LIST, &question, OUT));
    BAD(aclck_holders(LIST, &question, OUT));
    if (options & ~(uint32_t)(ACLCK_NARROW | ACLCK_DIRECTORY) && options != ACLCK_MARK_INHERITED)
        BAD(aclck_child(LIST, options, OUT));
    if (options != ACLCK_DIRECTORY)
        BAD(aclck_posix_create(&text, &creation, OUT));
    if (options != ACLCK_FORM_SHOWN && options != ACLCK_FORM_SHORT)
        BAD(aclck_posix_show(&text, options, OUT));
    return ok;
}

/* Returns whether each call refuses each option that it does not have, and rights in place of options. */
static int are_options_judged(void) {
    testcase none, *c = &none;
    int ok = 1;
    memset(c, 0, sizeof *c);
    strcpy(c->call, "bad options");
    for (int bit = 0; bit < 32; bit++)
        if ((uint32_t)1 << bit != ACLCK_NARROW)
            ok &= is_option_judged(c, (uint32_t)1 << bit) & is_option_judged(c, (uint32_t)1 << bit | ACLCK_NARROW);
    return ok & is_option_judged(c, ACLCK_ALL_RIGHTS);
}

/* Returns whether calls over POSIX texts refuse a table of names, or an argument, that has no meaning. */
static int are_posix_arguments_judged(const testcase *c) {
    static const uint32_t ids[] = {7, 0xffffffff};
    static const aclck_name names[][2] = {
        {{{"", 0}, 7, 0}, {{"b", 1}, 8, 0}},          {{{"b", 1}, 8, 0}, {{"12", 2}, 7, 1}},
        {{{"b", 1}, 7, 1}, {{"b", 1}, 8, 1}},         {{{"b", 1}, 8, 0}, {{"b", 1}, 8, 0}},
        {{{"b", 1}, 0xffffffff, 0}, {{"d", 1}, 8, 0}}, {{{"b", 1}, 7, 0}, {{"d", 1}, 0xffffffff, 1}},
        {{{"b", 1}, 7, 0}, {{"d", 1}, 8, 2}},
    };
    static const aclck_creation good = {0777, 022, ACLCK_FILE}, creations[] = {{01000, 022, ACLCK_FILE},
                                                                              {0777, 01000, ACLCK_FILE}};
    const aclck_posix_question read = {7, 7, 7, 4, ids, 1}, more = {7, 7, 7, 8, ids, 1};
    const aclck_posix_text plain = with_names(ENTRIES, NULL, 0);
    outputs o, untouched_outputs;
    int ok = 1;
    memset(&untouched_outputs, 0xee, sizeof o);
    for (int i = 0; i < 4; i++) { /* the owner, the group, the user or one of the groups is no id */
        const aclck_posix_question no_id = {ids[i == 0], ids[i == 1], ids[i == 2], 4, ids, i == 3 ? 2 : 1};
        CLOSED(aclck_posix_check(&plain, &no_id, &o.r.value, &o.r.fault), o.r.value, o.r.value == 0);
    }
    CLOSED(aclck_posix_check(&plain, &more, &o.r.value, &o.r.fault), o.r.value, o.r.value == 0);
    BAD(aclck_posix_chmod(&plain, 01000, OUT));
    BAD(aclck_posix_create(&plain, &creations[0], OUT));
    BAD(aclck_posix_create(&plain, &creations[1], OUT));
    for (size_t i = 0; i < sizeof names / sizeof *names; i++) {
        const aclck_posix_text text = with_names(ENTRIES, names[i], 2);
        CLOSED(aclck_posix_check(&text, &read, &o.r.value, &o.r.fault), o.r.value, o.r.value == 0);
        BAD(aclck_posix_show(&text, 0, OUT));
        BAD(aclck_posix_calc_mask(&text, OUT));
        BAD(aclck_posix_chmod(&text, 0750, OUT));
        BAD(aclck_posix_create(&text, &good, OUT));
        BAD(aclck_posix_bridge(&text, OUT));
    }
    return ok;
}

/* Returns whether each call refuses each other argument that has no meaning. */
static int are_arguments_judged(void) {
    static const uint32_t no_masks[] = {0x800, 0x8000, 0x200000, 0x80000000, 0xffffffff, ACLCK_NARROW};
    static const uint32_t no_rights[] = {0, 3, 0x1f07ff, 0x800, 0x200000, 0x80000000};
    static const aclck_object no_owner = {{"", 0}, {"s", 1}}, no_group = {{"a", 1}, {"", 0}};
    static const aclck_requester no_user = {{"", 0}, STAFF, 1}, no_name = {{"bob", 3}, STAFF, 2};
    const aclck_question read = asks(1, 0);
    aclck_requester who[] = {IN_STAFF, IN_STAFF, IN_STAFF};
    outputs o, untouched_outputs;
    testcase none, *c = &none;
    int ok = 1;
    memset(c, 0, sizeof *c);
    strcpy(c->call, "bad arguments");
    memset(&untouched_outputs, 0xee, sizeof o);
    for (size_t n = 0; n < 5; n++) /* one answer for each of three requesters, and not fewer or more */
        if (n != 3)
            ok &= is_many_closed(c, &THEM, who, read, n);
    for (int i = 0; i < 3; i++) {
        who[i] = no_name;
        ok &= is_many_closed(c, &THEM, who, read, 3);
        who[i] = no_user;
        ok &= is_many_closed(c, &THEM, who, read, 3);
        who[i] = IN_STAFF;
    }
    ok &= is_many_closed(c, &no_owner, who, read, 3) & is_many_closed(c, &no_group, who, read, 3);
    ok &= are_questions_closed(c, &no_owner, who, read) & are_questions_closed(c, &no_group, who, read);
    ok &= are_questions_closed(c, &THEM, &no_user, read) & are_questions_closed(c, &THEM, &no_name, read);
    for (size_t i = 0; i < sizeof no_masks / sizeof *no_masks; i++) {
        const aclck_question question = asks(no_masks[i], 0);
        ok &= are_questions_closed(c, &THEM, who, question) & is_many_closed(c, &THEM, who, question, 3);
        BAD(aclck_mask_text(no_masks[i], aclck_buffer_of(o.room, sizeof o.room), &o.r.needed));
        CLOSED(aclck_implies(LIST, IMPLICATION(1, no_masks[i], 0), &o.r.difference,
                             aclck_buffer_of(o.room, sizeof o.room), &o.r.fault),
               o.r.difference, is_difference(&o.r.difference, 0, 0, 0, 0));
    }
    for (size_t i = 0; i < sizeof no_rights / sizeof *no_rights; i++) {
        const aclck_question question = asks(no_rights[i], 0);
        CLOSED(aclck_deciding(LIST, &THEM, who, &question, &o.decision, &o.r.fault), o.decision,
               o.decision.place == 0 && o.decision.kind == ACLCK_UNDECIDED);
        BAD(aclck_table(LIST, &question, OUT));
        BAD(aclck_holders(LIST, &question, OUT));
        CLOSED(aclck_implies(LIST, IMPLICATION(no_rights[i], 1, 0), &o.r.difference,
                             aclck_buffer_of(o.room, sizeof o.room), &o.r.fault),
               o.r.difference, is_difference(&o.r.difference, 0, 0, 0, 0));
    }
    const aclck_question retention = asks(ACLCK_WRITE_RETENTION, ACLCK_NARROW),
                         hold = asks(ACLCK_WRITE_RETENTION_HOLD, ACLCK_NARROW);
    BAD(aclck_table(LIST, &retention, OUT));
    BAD(aclck_table(LIST, &hold, OUT));
    BAD(aclck_holders(LIST, &hold, OUT));
    BAD(aclck_reason_text(0, aclck_buffer_of(o.room, sizeof o.room), &o.r.needed));
    BAD(aclck_reason_text(ACLCK_TOO_MANY + 1, aclck_buffer_of(o.room, sizeof o.room), &o.r.needed));
    return ok & are_posix_arguments_judged(c);
}

enum { MOST_ACES = 65536, HEAVY_ACES = 4096 };

/* Writes a number as XDR does, most significant byte first. */
static unsigned char *put_word(unsigned char *at, uint32_t word) {
    for (int shift = 24; shift >= 0; shift -= 8)
        *at++ = (unsigned char)(word >> shift);
    return at;
}

/* Returns a list of `count` ACEs that allow EVERYONE@ the rights of `mask`, and a last one that allows READ_DATA. */
static aclck_bytes many_aces(uint32_t count, uint32_t mask) {
    unsigned char *all = malloc(4 + 28 * ((size_t)count + 1)), *at = put_word(all, count + 1);
    aclck_bytes bytes;
    for (uint32_t i = 0; i <= count; i++) {
        at = put_word(put_word(at, 0), 0);
        at = put_word(put_word(at, i < count ? mask : 1), 9);
        memcpy(at, "EVERYONE@\0\0\0", 12);
        at += 12;
    }
    bytes.at = all;
    bytes.len = (size_t)(at - all);
    return bytes;
}

/* Returns a text that repeats a line `count` times and has another line at its end. */
static aclck_bytes many_lines(const char *line, size_t count, const char *last) {
    size_t len = strlen(line);
    char *all = malloc(count * len + strlen(last) + 1);
    for (size_t i = 0; i < count; i++)
        memcpy(all + i * len, line, len);
    strcpy(all + count * len, last);
    return aclck_string(all);
}

/* Returns the text of a POSIX ACL with `count` named users. */
static aclck_bytes many_users(unsigned count) {
    char *all = malloc(24 * (size_t)count + 64), *at = all + sprintf(all, "u::rwx\ng::---\nm::rwx\no::---\n");
    for (unsigned i = 0; i < count; i++)
        at += sprintf(at, "u:%u:rw-\n", i);
    return aclck_string(all);
}

/* Returns whether a call was refused for the reason at the place, gave the answer that grants nothing if it answers,
   and wrote nothing else. */
static int is_refused(const testcase *c, uint32_t status, const results *r, aclck_fault fault) {
    results was = untouched();
    int value = r->value == 0 || r->value == was.value;
    int difference = is_difference(&r->difference, 0, 0, 0, 0) ||
                     memcmp(&r->difference, &was.difference, sizeof was.difference) == 0;
    return EXPECT(c, status == ACLCK_REFUSED) & EXPECT(c, memcmp(&r->fault, &fault, sizeof fault) == 0) &
           EXPECT(c, value && difference && r->needed == was.needed);
}

#define REFUSED(call, reason, offset, line, column, list)                                                              \
    do {                                                                                                               \
        const aclck_fault fault = {offset, line, column, reason, list, 0, 0};                                          \
        r = untouched();                                                                                               \
        status = (call);                                                                                               \
        ok &= is_refused(c, status, &r, fault);                                                                        \
    } while (0)

/* The limits of a list (docs/reference/formats.md): 65,536 ACEs, and as many rights over all its ACEs. */
static int are_limits_kept(void) {
    const uint32_t all = ACLCK_ALL_RIGHTS, mask_at = 4 + 28 * HEAVY_ACES + 8;
    aclck_bytes full = many_aces(MOST_ACES, 1), heavy = many_aces(HEAVY_ACES, all);
    aclck_bytes too_many = many_lines("ALLOW - READ_DATA a\n", MOST_ACES, "ALLOW - - a\n");
    aclck_bytes too_heavy = many_lines("ALLOW - READ_DATA a\n", MOST_ACES - 1, "ALLOW - READ_DATA|EXECUTE a\n");
    aclck_bytes users = many_users(40000);
    const aclck_posix_text text = with_names(users, NULL, 0);
    const aclck_question read = asks(1, 0);
    char out[8];
    const aclck_buffer room = aclck_buffer_of(out, sizeof out);
    uint32_t status;
    results r;
    testcase none, *c = &none;
    int ok = 1;
    memset(c, 0, sizeof *c);
    strcpy(c->call, "limits");
#define TO room, &r.needed, &r.fault
    REFUSED(aclck_check(full, &THEM, &IN_STAFF, &read, &r.value, &r.fault), ACLCK_TOO_MANY_ACES, 0, 0, 0, 0);
    REFUSED(aclck_check(heavy, &THEM, &IN_STAFF, &read, &r.value, &r.fault), ACLCK_TOO_HEAVY, mask_at, 0, 0, 0);
    REFUSED(aclck_mode(full, 0, &r.value, &r.fault), ACLCK_TOO_MANY_ACES, 0, 0, 0, 0);
    REFUSED(aclck_mode(heavy, 0, &r.value, &r.fault), ACLCK_TOO_HEAVY, mask_at, 0, 0, 0);
    REFUSED(aclck_normalize(full, 0, TO), ACLCK_TOO_MANY_ACES, 0, 0, 0, 0);
    REFUSED(aclck_normalize(heavy, 0, TO), ACLCK_TOO_HEAVY, mask_at, 0, 0, 0);
    REFUSED(aclck_same(full, LIST, 0, &r.value, &r.fault), ACLCK_TOO_MANY_ACES, 0, 0, 0, 0);
    REFUSED(aclck_same(LIST, full, 0, &r.value, &r.fault), ACLCK_TOO_MANY_ACES, 0, 0, 0, 1);
    REFUSED(aclck_same(LIST, heavy, 0, &r.value, &r.fault), ACLCK_TOO_HEAVY, mask_at, 0, 0, 1);
    REFUSED(aclck_compare(LIST, full, 0, &r.difference, room, &r.fault), ACLCK_TOO_MANY_ACES, 0, 0, 0, 1);
    REFUSED(aclck_compare(heavy, full, 0, &r.difference, room, &r.fault), ACLCK_TOO_HEAVY, mask_at, 0, 0, 0);
    REFUSED(aclck_excess(LIST, heavy, 0, &r.difference, room, &r.fault), ACLCK_TOO_HEAVY, mask_at, 0, 0, 1);
    REFUSED(aclck_restricted(LIST, &heavy, 0, TO), ACLCK_TOO_HEAVY, mask_at, 0, 0, 1);
    REFUSED(aclck_restricted_everywhere(LIST, &heavy, 0, TO), ACLCK_TOO_HEAVY, mask_at, 0, 0, 1);
    REFUSED(aclck_questions(heavy, 0, 0, TO), ACLCK_TOO_HEAVY, mask_at, 0, 0, 0);
    REFUSED(aclck_implies(heavy, IMPLICATION(1, 2, 0), &r.difference, room, &r.fault), ACLCK_TOO_HEAVY, mask_at, 0, 0, 0);
    REFUSED(aclck_encode(too_many, 0, TO), ACLCK_TOO_MANY_ACES, 0, MOST_ACES + 1, 1, 0);
    REFUSED(aclck_encode(too_heavy, 0, TO), ACLCK_TOO_HEAVY, 0, MOST_ACES, 9, 0);
    REFUSED(aclck_posix_bridge(&text, TO), ACLCK_LIMITS, 0, 0, 0, 0);
    free((void *)full.at);
    free((void *)heavy.at);
    free((void *)too_many.at);
    free((void *)too_heavy.at);
    free((void *)users.at);
    return ok;
}

/* The first ACE that takes part, has the right and matches decides it (RFC 8881, section 6.2.1). The list denies new
   files READ_DATA to all, allows bob READ_DATA, denies the group staff READ_DATA and EXECUTE, and allows all
   EXECUTE and WRITE_DATA. */
static int is_place_of_decision_right(void) {
    static const struct {
        const char *user;
        size_t ngroups;
        enum aclck_right right;
        uint32_t place, kind;
    } rows[] = {
        {"bob", 1, ACLCK_READ_DATA, 1, ACLCK_ALLOW},  {"eve", 1, ACLCK_READ_DATA, 2, ACLCK_DENY},
        {"bob", 1, ACLCK_EXECUTE, 2, ACLCK_DENY},     {"bob", 0, ACLCK_EXECUTE, 3, ACLCK_ALLOW},
        {"eve", 1, ACLCK_WRITE_DATA, 3, ACLCK_ALLOW}, {"eve", 0, ACLCK_READ_DATA, 0, ACLCK_UNDECIDED},
    };
    static const aclck_bytes staff[] = {{"staff", 5}};
    const aclck_bytes text = aclck_string("DENY FILE|INHERITONLY READ_DATA EVERYONE@\nALLOW - READ_DATA bob\n"
                                          "DENY GROUP READ_DATA|EXECUTE staff\n"
                                          "ALLOW - WRITE_DATA|EXECUTE EVERYONE@\n");
    char list[128];
    size_t len = 0;
    aclck_fault fault;
    testcase none, *c = &none;
    int ok;
    memset(c, 0, sizeof *c);
    strcpy(c->call, "deciding");
    ok = EXPECT(c, aclck_encode(text, 0, aclck_buffer_of(list, sizeof list), &len, &fault) == ACLCK_DONE);
    for (size_t i = 0; ok && i < sizeof rows / sizeof *rows; i++) {
        const aclck_requester who = aclck_requester_of(aclck_string(rows[i].user), staff, rows[i].ngroups);
        const aclck_question question = asks(rows[i].right, 0);
        aclck_decision decision = {77, 77};
        ok &= EXPECT(c, aclck_deciding(aclck_bytes_of(list, len), &THEM, &who, &question, &decision, &fault) ==
                            ACLCK_DONE);
        ok &= EXPECT(c, decision.place == rows[i].place && decision.kind == rows[i].kind);
    }
    return ok;
}

/* So many groups in no order are sorted (libaclck(3)). 70 ACEs deny the group `guests` READ_DATA, and the last one
   allows it to `staff`. The first and the last of 4,000 groups differ, and all others are `x`. If a request for memory
   fails, the answers are the same. */
static int are_many_groups_found(int is_memory_refused) {
    enum { ACES = 70, GROUPS = 4000 };
    static const struct {
        const char *first, *last;
        uint32_t allowed, denied;
    } rows[] = {{"x", "a", 0, 0}, {"x", "staff", 1, 0}, {"staff", "a", 1, 0}, {"staff", "guests", 0, 1}};
    aclck_bytes text = many_lines("DENY GROUP READ_DATA guests\n", ACES, "ALLOW GROUP READ_DATA staff\n");
    static aclck_bytes groups[GROUPS];
    static char list[ACES * 32 + 64], prepared[ACES * 16 + 64];
    const aclck_question read = asks(ACLCK_READ_DATA, 0);
    const aclck_requester who = aclck_requester_of(aclck_string("bob"), groups, GROUPS);
    const aclck_requesters all = {&who, 1};
    size_t len = 0, prepared_len = 0;
    aclck_fault fault;
    testcase none, *c = &none;
    int ok;
    memset(c, 0, sizeof *c);
    strcpy(c->call, "many groups");
    ok = EXPECT(c, aclck_encode(text, 0, aclck_buffer_of(list, sizeof list), &len, &fault) == ACLCK_DONE);
    ok &= EXPECT(c, aclck_prepare(aclck_bytes_of(list, len), 0, aclck_buffer_of(prepared, sizeof prepared),
                                  &prepared_len, &fault) == ACLCK_DONE);
    free((void *)text.at);
    for (size_t i = 0; i < GROUPS; i++)
        groups[i] = aclck_string("x");
/* Makes the call, and looks whether it asked for memory, which it does once. */
#define SORTS(call)                                                                                                    \
    do {                                                                                                               \
        long before = memory.held;                                                                                     \
        memory.left = is_memory_refused ? 0 : -1;                                                                      \
        ok &= EXPECT(c, (call) == ACLCK_DONE && memory.held == before);                                                \
        ok &= EXPECT(c, memory.left == (is_memory_refused ? -2 : -1));                                                 \
        memory.left = -1;                                                                                              \
    } while (0)
    for (size_t i = 0; ok && i < sizeof rows / sizeof *rows; i++) {
        const aclck_bytes acl = aclck_bytes_of(list, len), bytes = aclck_bytes_of(prepared, prepared_len);
        aclck_decided decided = {7, 7}, each = {7, 7}, one = {7, 7};
        const aclck_decided_list room = {&each, 1};
        aclck_decision decision = {7, 7};
        uint32_t granted = 7, rights = 7, masks = 7;
        groups[0] = aclck_string(rows[i].first);
        groups[GROUPS - 1] = aclck_string(rows[i].last);
        SORTS(aclck_decide(acl, &THEM, &who, &read, &decided, &fault));
        SORTS(aclck_check(acl, &THEM, &who, &read, &granted, &fault));
        SORTS(aclck_granted(acl, &THEM, &who, &read, &rights, &fault));
        SORTS(aclck_deciding(acl, &THEM, &who, &read, &decision, &fault));
        SORTS(aclck_check_many(acl, &THEM, all, &read, (aclck_masks){&masks, 1}, &fault));
        SORTS(aclck_decide_prepared(bytes, &THEM, &who, &read, &one));
        SORTS(aclck_decide_prepared_many(bytes, &THEM, all, &read, room));
        ok &= EXPECT(c, decided.allowed == rows[i].allowed && decided.denied == rows[i].denied);
        ok &= EXPECT(c, one.allowed == rows[i].allowed && one.denied == rows[i].denied);
        ok &= EXPECT(c, each.allowed == rows[i].allowed && each.denied == rows[i].denied);
        ok &= EXPECT(c, granted == rows[i].allowed && rights == rows[i].allowed && masks == rows[i].allowed);
        ok &= EXPECT(c, decision.kind == (rows[i].allowed  ? ACLCK_ALLOW
                                          : rows[i].denied ? ACLCK_DENY
                                                           : ACLCK_UNDECIDED));
    }
    return ok;
}

/* ---- reading cases */

static char *cursor;

static char *token(void) {
    char *start = cursor;
    while (*cursor && *cursor != ' ' && *cursor != '\n')
        cursor++;
    if (*cursor)
        *cursor++ = 0;
    return start;
}

static uint32_t number(void) {
    return (uint32_t)strtoul(token(), NULL, 10);
}

/* Reads bytes in hexadecimal, after a letter x. They get an allocation of their own, so that a sanitizer finds a read
   after them. */
static aclck_bytes blob(void) {
    const char *text = token() + 1;
    size_t len = strlen(text) / 2;
    unsigned char *at = malloc(len ? len : 1);
    aclck_bytes bytes;
    for (size_t i = 0; i < len; i++) {
        char two[3] = {text[2 * i], text[2 * i + 1], 0};
        at[i] = (unsigned char)strtoul(two, NULL, 16);
    }
    bytes.at = at;
    bytes.len = len;
    return bytes;
}

static void read_case(testcase *c) {
    memset(c, 0, sizeof *c);
    strncpy(c->call, token(), sizeof c->call - 1);
    c->status = number();
    c->out = blob();
    c->value = number();
    c->right = number();
    c->first_grants = number();
    c->fault.reason = number();
    c->fault.offset = number();
    c->fault.line = number();
    c->fault.column = number();
    c->fault.list = number();
    c->fault.part = number();
    c->fault.tag = number();
    for (size_t n = number(); c->nblobs < n;)
        c->blobs[c->nblobs++] = blob();
    for (size_t n = number(); c->nnumbers < n;)
        c->numbers[c->nnumbers++] = number();
    for (size_t n = number(); c->ngroups < n;)
        c->groups[c->ngroups++] = blob();
    for (size_t n = number(); c->nids < n;)
        c->ids[c->nids++] = number();
    for (size_t n = number(); c->nnames < n;) {
        aclck_name *name = &c->names[c->nnames++];
        name->name = blob();
        name->id = number();
        name->is_group = number();
    }
}

static testcase *cases;
static size_t ncases;

static int read_cases(const char *path) {
    FILE *file = fopen(path, "rb");
    long size;
    char *text;
    if (!file || fseek(file, 0, SEEK_END) || (size = ftell(file)) < 0)
        return 0;
    rewind(file);
    text = malloc((size_t)size + 1);
    if (!text || fread(text, 1, (size_t)size, file) != (size_t)size)
        return 0;
    fclose(file);
    text[size] = 0;
    for (long i = 0; i < size; i++)
        ncases += text[i] == '\n';
    cases = calloc(ncases, sizeof *cases);
    cursor = text;
    for (size_t i = 0; i < ncases; i++)
        read_case(&cases[i]);
    free(text);
    return 1;
}

/* ---- runs */

static int run_plain(void) {
    int ok = are_words_right() & are_reasons_right() & are_options_judged() & are_arguments_judged() &
             are_limits_kept() & is_place_of_decision_right() & are_many_groups_found(0);
    size_t short_ones = 0;
    for (size_t i = 0; i < ncases; i++) {
        const testcase *c = &cases[i];
        size_t len = c->out.len;
        unsigned char *room = malloc(len + 3 + 2 * SIDE);
        ok &= is_answered(c, len, room) & is_answered(c, len + 3, room) & agree(c);
        for (size_t cap = 0; writes_bytes(c) && cap < len; cap++, short_ones++)
            ok &= is_answered(c, cap, room);
        free(room);
    }
    printf("library: %zu cases, %zu buffers that are too short\n", ncases, short_ones);
    return ok;
}

/* Each request for memory fails in turn. The call must return ACLCK_MEMORY and write at most the answer that grants
   nothing, or do without the memory. It must free all memory that it got. */
static int run_memory(void) {
    int ok = are_many_groups_found(1);
    size_t requests = 0;
    for (size_t i = 0; i < ncases; i++) {
        const testcase *c = &cases[i];
        size_t len = c->out.len;
        unsigned char *room = malloc(len + 2 * SIDE);
        for (long at = 0;; at++, requests++) {
            results r = untouched(), was = untouched();
            was.value = answers(c) ? 0 : was.value;
            memset(room, CANARY, len + 2 * SIDE);
            long before = memory.held;
            memory.left = at;
            uint32_t status = invoke(c, room + SIDE, len, &r);
            int all = memory.left >= 0;
            memory.left = -1;
            ok &= EXPECT(c, memory.held == before);
            if (status == ACLCK_MEMORY) {
                ok &= EXPECT(c, !all && memcmp(&r.fault, &was.fault, sizeof r.fault) == 0);
                ok &= EXPECT(c, r.value == was.value && r.needed == was.needed);
                ok &= EXPECT(c, !IS("compare") || is_difference(&r.difference, 0, 0, 0, 0));
                for (size_t k = 0; k < len + 2 * SIDE; k++)
                    ok &= EXPECT(c, room[k] == CANARY);
            } else {
                ok &= is_right(c, status, len, room, &r);
            }
            if (all)
                break;
        }
        free(room);
    }
    printf("library: %zu cases, %zu requests for memory refused\n", ncases, requests);
    return ok;
}

static void *run_thread(void *nothing) {
    int ok = 1;
    (void)nothing;
    for (size_t i = 0; i < ncases; i++) {
        unsigned char *room = malloc(cases[i].out.len + 2 * SIDE);
        ok &= is_answered(&cases[i], cases[i].out.len, room) & agree(&cases[i]);
        free(room);
    }
    return ok ? (void *)1 : NULL;
}

static int run_threads(void) {
    pthread_t threads[4];
    void *ok;
    int all = 1;
    for (int i = 0; i < 4; i++)
        pthread_create(&threads[i], NULL, run_thread, NULL);
    for (int i = 0; i < 4; i++) {
        pthread_join(threads[i], &ok);
        all &= ok != NULL;
    }
    printf("library: %zu cases in each of 4 threads\n", ncases);
    return all;
}

#ifdef FUZZ
int LLVMFuzzerTestOneInput(const uint8_t *data, size_t size);

/* Asks bytes as prepared bytes, as an attribute, and as a list from an offset. */
static void ask_foreign_bytes(const uint8_t *data, size_t size) {
    static const uint32_t ids[] = {1, 7, 1000};
    const aclck_id_object owned = {7, 7};
    const aclck_id_requester by_id = {7, ids, 3};
    const aclck_question all = asks(ACLCK_ALL_RIGHTS, 0);
    aclck_bytes bytes = {data, size};
    aclck_decided decided;
    aclck_entry entries[64];
    const aclck_entry_buffer room = {entries, 64};
    aclck_fault fault;
    aclck_ace ace;
    size_t needed = 0, offset = data[0];
    if (aclck_decide_prepared(bytes, &THEM, &IN_STAFF, &all, &decided) > ACLCK_BAD_ARGUMENT ||
        aclck_decide_ids(bytes, &owned, &by_id, &all, &decided) > ACLCK_BAD_ARGUMENT ||
        aclck_entries_from_attribute(bytes, room, &needed, &fault) > ACLCK_SHORT || needed > size / 8 ||
        aclck_next(bytes, ACLCK_FULL, &offset, &ace, &fault) > ACLCK_BAD_ARGUMENT)
        abort();
}

static const uint32_t FLAGS_OF_LISTS =
    ACLCK_AUTO_INHERIT | ACLCK_PROTECTED | ACLCK_DEFAULTED | ACLCK_IS_TRIVIAL | ACLCK_IS_DIR;

/* Reads bytes in each form. A list that is read is written in the form, and read again: it must grant the same. */
static void ask_forms(aclck_bytes value) {
    static unsigned char room[3][1 << 14];
    aclck_buffer list = {room[0], sizeof room[0]}, text = {room[1], sizeof room[1]}, again = {room[2], sizeof room[2]};
    enum aclck_status status = ACLCK_DONE;
    for (int form = ACLCK_NFS_TOOLS_FILE; status != ACLCK_BAD_ARGUMENT; form++) {
        uint32_t flags = 0, flags_again = 0, same = 0;
        size_t len = 0, written = 0;
        aclck_fault fault;
        status = aclck_read_form(value, (enum aclck_form)form, list, &len, &flags, &fault);
        if (status ? status == ACLCK_REFUSED && fault.offset > value.len : (flags & ~FLAGS_OF_LISTS) != 0)
            abort();
        if (status)
            continue;
        aclck_bytes acl = {room[0], len};
        status = aclck_write_form(acl, (enum aclck_form)form, flags, text, &written, &fault);
        if (status == ACLCK_REFUSED)
            continue;
        if (status || aclck_read_form(aclck_bytes_of(room[1], written), (enum aclck_form)form, again, &len,
                                      &flags_again, &fault) ||
            flags_again != flags || aclck_same(acl, aclck_bytes_of(room[2], len), ACLCK_FULL, &same, &fault) || !same)
            abort();
    }
}

/* The first byte selects the call, and the second byte is its number or its options. The rest is its input, or its two
   inputs. */
int LLVMFuzzerTestOneInput(const uint8_t *data, size_t size) {
    static const char *const calls[] = {"check", "mode", "child", "show", "encode", "normalize", "normalize_inherit",
        "table", "compare", "same", "posix_check", "posix_show", "posix_calc_mask", "posix_chmod", "posix_create",
        "posix_bridge"};
    testcase one, *c = &one;
    unsigned char room[1024 + 2 * SIDE];
    results r;
    size_t half;
    uint32_t status;
    if (size < 3)
        return 0;
    memset(c, 0, sizeof *c);
    strcpy(c->call, calls[data[0] % (sizeof calls / sizeof *calls)]);
    for (int i = 0; i < 6; i++)
        c->numbers[i] = data[1];
    if (IS("check") || IS("table"))
        c->numbers[1] = data[1] & 1 ? ACLCK_NARROW : 0;
    half = IS("compare") || IS("same") ? data[2] % (size - 2) : size - 3;
    c->blobs[0].at = data + 3;
    c->blobs[0].len = half < size - 3 ? half : size - 3;
    c->blobs[1].at = data + 3 + c->blobs[0].len;
    c->blobs[1].len = size - 3 - c->blobs[0].len;
    if (IS("check"))
        c->blobs[1] = c->blobs[2] = c->blobs[3] = aclck_string("bob");
    c->names[0].name = aclck_string("bob");
    c->names[0].id = 7;
    c->nnames = data[1] & 1;
    memset(room, CANARY, sizeof room);
    memset(&r, 0, sizeof r);
    status = invoke(c, room + SIDE, 1024, &r);
    for (int i = 0; i < SIDE; i++)
        if (room[i] != CANARY || room[SIDE + 1024 + i] != CANARY)
            abort();
    if (status > ACLCK_SHORT || status == 1 || status == ACLCK_MEMORY)
        abort();
    if (status == ACLCK_SHORT && r.needed <= 1024 && r.difference.names <= 1024)
        abort();
    if (status == ACLCK_REFUSED && (r.fault.reason < 1 || r.fault.reason > ACLCK_LIMITS))
        abort();
    ask_foreign_bytes(data, size);
    ask_forms(aclck_bytes_of(data + 3, size - 3));
    return 0;
}
#else
int main(int argc, char **argv) {
    const char *how = argc > 2 ? argv[2] : "plain";
    int ok;
    if (argc < 2 || !read_cases(argv[1])) {
        fprintf(stderr, "library: no cases\n");
        return 1;
    }
    ok = strcmp(how, "memory") == 0 ? run_memory() : strcmp(how, "threads") == 0 ? run_threads() : run_plain();
    return !ok;
}
#endif
