/* Tests the calls of libaclck over POSIX entries and over the extended attributes of Linux, and the one that makes them
 * of an NFSv4 list, with rows that were worked by hand from acl(5) and RFC 8881. tests/library.c compares the same
 * calls with those over texts.
 *
 *     library_entries [FILE]
 *
 * With -DREFUSE each request for memory of the calls fails in turn. The kernel is given 4,000 attributes for FILE, and
 * must accept and refuse what aclck_entries_from_attribute() does; it also accepts an id twice.
 */
#include "library_calls.h"
#include <sys/xattr.h>

enum { MOST = 16 };

typedef struct {
    aclck_entry at[MOST];
    size_t len;
} list;

#define U(perm) {ACLCK_TAG_USER_OBJ, NONE, perm}
#define USER(id, perm) {ACLCK_TAG_USER, id, perm}
#define G(perm) {ACLCK_TAG_GROUP_OBJ, NONE, perm}
#define GROUP(id, perm) {ACLCK_TAG_GROUP, id, perm}
#define M(perm) {ACLCK_TAG_MASK, NONE, perm}
#define O(perm) {ACLCK_TAG_OTHER, NONE, perm}
#define NONE 4294967295u

/* ---- the calls */

typedef struct {
    aclck_entries entries;
    aclck_bytes attribute;
    aclck_posix_text value;
    uint32_t number;
    aclck_creation creation;
    aclck_bytes acl;
    aclck_posix_loss loss;
} given;

#define WRITER(name, call)                                                                                             \
    static enum aclck_status name(const void *with, void *room, size_t cap, size_t *needed, aclck_fault *fault) {      \
        const given *g = with;                                                                                         \
        const aclck_entry_buffer out = {room, cap};                                                                    \
        return call;                                                                                                   \
    }
#define BYTES aclck_buffer_of(out.at, out.cap)
WRITER(sort, aclck_entries_sorted(g->entries, (enum aclck_option)g->number, out, needed, fault))
WRITER(set_mode, aclck_entries_chmod(g->entries, g->number, out, needed, fault))
WRITER(calculate, aclck_entries_calc_mask(g->entries, out, needed, fault))
WRITER(create, aclck_entries_create(g->entries, &g->creation, out, needed, fault))
WRITER(bridge, aclck_entries_bridge(g->entries, BYTES, needed, fault))
WRITER(read_attribute, aclck_entries_from_attribute(g->attribute, out, needed, fault))
WRITER(read_form, aclck_entries_from_form(&g->value, (enum aclck_posix_form)g->number, out, needed, fault))
WRITER(write_form, aclck_entries_to_form(g->entries, &g->value.names, (enum aclck_posix_form)g->number, BYTES, needed,
                                         fault))
WRITER(write_attribute, aclck_entries_to_attribute(g->entries, BYTES, needed, fault))

static given with_entries(const list *l, uint32_t number) {
    given g;
    memset(&g, 0, sizeof g);
    g.entries.at = l->at;
    g.entries.len = l->len;
    g.number = number;
    g.attribute = aclck_string("");
    return g;
}

static void gives_entries(writer *write, const given *g, const list *wanted) {
    writes(write, g, sizeof(aclck_entry), wanted->at, wanted->len);
}

static aclck_fault fault_at(uint64_t offset, uint32_t reason, uint32_t tag) {
    const aclck_fault fault = {offset, 0, 0, reason, 0, 0, tag};
    return fault;
}

/* ---- questions */

/* Of a long ACL with a mask that leaves read alone: the owner and others are not limited by it. */
static void are_questions_answered(void) {
    static const list acl = {{U(7), USER(1002, 6), G(5), GROUP(30, 3), GROUP(40, 6), M(4), O(1)}, 7};
    static const struct {
        uint32_t user, want, groups[2];
        size_t ngroups;
        uint32_t granted, place, tag, masked;
    } rows[] = {
        {1001, 7, {0}, 0, 1, 0, ACLCK_TAG_USER_OBJ, 0},   {1002, 4, {0}, 0, 1, 1, ACLCK_TAG_USER, 0},
        {1002, 2, {0}, 0, 0, 1, ACLCK_TAG_USER, 1},       {1002, 1, {40}, 1, 0, 1, ACLCK_TAG_USER, 0},
        {1003, 4, {20}, 1, 1, 2, ACLCK_TAG_GROUP_OBJ, 0}, {1003, 4, {30}, 1, 0, 0, 0, 0},
        {1003, 2, {40, 30}, 2, 0, 3, ACLCK_TAG_GROUP, 1}, {1003, 4, {30, 40}, 2, 1, 4, ACLCK_TAG_GROUP, 0},
        {1003, 1, {0}, 0, 1, 6, ACLCK_TAG_OTHER, 0},      {1003, 2, {99}, 1, 0, 6, ACLCK_TAG_OTHER, 0},
        {1003, 0, {30}, 1, 1, 3, ACLCK_TAG_GROUP, 0},     {1003, 7, {20, 30}, 2, 0, 0, 0, 0},
    };
    for (size_t i = 0; i < sizeof rows / sizeof *rows; i++) {
        const aclck_posix_question question = {1001, 20, rows[i].user, rows[i].want, rows[i].groups, rows[i].ngroups};
        const aclck_entries entries = {acl.at, acl.len};
        aclck_posix_decision found;
        aclck_fault fault;
        uint32_t granted = 77;
        long before = memory.requests;
        memset(&found, 0xee, sizeof found);
        EXPECT(aclck_entries_check(entries, &question, &granted, &fault) == ACLCK_DONE && granted == rows[i].granted);
        EXPECT(aclck_entries_deciding(entries, &question, &found, &fault) == ACLCK_DONE);
        EXPECT(found.granted == rows[i].granted && found.place == rows[i].place && found.tag == rows[i].tag);
        EXPECT(found.masked == rows[i].masked && memory.requests == before);
    }
}

static int is_nothing(const aclck_posix_decision *found) {
    return !found->granted && !found->place && !found->tag && !found->masked;
}

/* Both questions end with this status, and are answered so that nothing is granted. */
static void are_closed(aclck_entries entries, const aclck_posix_question *question, enum aclck_status status,
                       aclck_fault wanted) {
    aclck_fault fault = no_fault();
    aclck_posix_decision found;
    uint32_t granted = 77;
    memset(&found, 0xee, sizeof found);
    EXPECT(aclck_entries_check(entries, question, &granted, &fault) == status && granted == 0);
    EXPECT(memcmp(&fault, &wanted, sizeof fault) == 0);
    EXPECT(aclck_entries_deciding(entries, question, &found, &fault) == status && is_nothing(&found));
    EXPECT(memcmp(&fault, &wanted, sizeof fault) == 0);
}

static void are_bad_questions_refused(void) {
    static const list acl = {{U(7), G(5), O(1)}, 3};
    static const uint32_t ids[] = {7, NONE};
    const aclck_entries entries = {acl.at, acl.len};
    for (int i = 0; i < 4; i++) { /* the owner, the group, the user or one of the groups is no id */
        const aclck_posix_question no_id = {ids[i == 0], ids[i == 1], ids[i == 2], 4, ids, i == 3 ? 2 : 1};
        are_closed(entries, &no_id, ACLCK_BAD_ARGUMENT, no_fault());
    }
    const aclck_posix_question more = {7, 7, 7, 8, ids, 1};
    are_closed(entries, &more, ACLCK_BAD_ARGUMENT, no_fault());
}

/* Whom one ACL grants more than another, and what; the other way round there is nothing more. */
static void are_excesses_found(void) {
    static const struct {
        list first, second;
        aclck_posix_difference wanted;
    } rows[] = {
        /* the owner; a named user whom the mask limits; a user whom only the second ACL names */
        {{{U(7), G(5), O(1)}, 3}, {{U(3), G(5), O(1)}, 3}, {0, 0, 0, 0, 4, 0, 0, 0}},
        {{{U(7), USER(9, 6), G(4), M(6), O(4)}, 5}, {{U(7), USER(9, 6), G(4), M(4), O(4)}, 5},
         {0, 0, 0, 9, 2, 0, 0, 0}},
        {{{U(7), G(4), O(4)}, 3}, {{U(7), USER(9, 0), G(4), M(4), O(4)}, 5}, {0, 0, 0, 9, 4, 0, 0, 0}},
        /* others; the owning group; a named group; two groups, of which the second ACL has one */
        {{{U(7), G(4), O(4)}, 3}, {{U(7), G(4), O(0)}, 3}, {0, 1, 0, 0, 4, 0, 0, 0}},
        {{{U(7), G(4), O(4)}, 3}, {{U(7), G(0), O(4)}, 3}, {0, 1, 0, 0, 4, 1, 0, 0}},
        {{{U(7), G(0), GROUP(30, 2), M(7), O(2)}, 5}, {{U(7), G(0), GROUP(30, 0), M(7), O(2)}, 5},
         {0, 1, 0, 0, 2, 1, 30, 0}},
        {{{U(7), G(0), GROUP(30, 2), M(7), O(0)}, 5}, {{U(7), G(0), GROUP(40, 0), M(7), O(2)}, 5},
         {0, 1, 0, 0, 2, 2, 30, 0}},
    };
    for (size_t i = 0; i < sizeof rows / sizeof *rows; i++) {
        const aclck_entries first = {rows[i].first.at, rows[i].first.len};
        const aclck_entries second = {rows[i].second.at, rows[i].second.len};
        const aclck_posix_difference nothing = {1, 0, 0, 0, 0, 0, 0, 0};
        aclck_posix_difference found;
        aclck_fault fault;
        long before = memory.requests;
        memset(&found, 0xee, sizeof found);
        EXPECT(aclck_entries_excess(first, second, &found, &fault) == ACLCK_DONE);
        EXPECT(memcmp(&found, &rows[i].wanted, sizeof found) == 0);
        EXPECT(aclck_entries_excess(first, first, &found, &fault) == ACLCK_DONE);
        EXPECT(memcmp(&found, &nothing, sizeof found) == 0 && memory.requests == before);
    }
}

/* The fault of the second of two ACLs says so, and that of the first comes first. */
static void are_two_acls_judged(void) {
    static const list good = {{U(7), G(5), O(1)}, 3}, bad = {{G(5), U(7), O(1)}, 3};
    const aclck_entries right = {good.at, good.len}, wrong = {bad.at, bad.len};
    for (int first = 0; first < 2; first++)
        for (int second = 0; second < 2; second++) {
            const aclck_posix_difference nothing = {0, 0, 0, 0, 0, 0, 0, 0};
            aclck_posix_difference found;
            aclck_fault fault = no_fault(), wanted = fault_at(1, ACLCK_ORDER, 0);
            wanted.list = !first;
            memset(&found, 0xee, sizeof found);
            const aclck_entries one = first ? wrong : right, other = second ? wrong : right;
            enum aclck_status status = aclck_entries_excess(one, other, &found, &fault);
            EXPECT(status == (first || second ? ACLCK_REFUSED : ACLCK_DONE));
            if (first || second) {
                EXPECT(memcmp(&found, &nothing, sizeof found) == 0);
                EXPECT(memcmp(&fault, &wanted, sizeof fault) == 0);
            }
        }
}

/* ---- entries that are no valid ACL, and their order */

static void are_faults_reported(void) {
    static const struct {
        list acl;
        uint32_t reason, place, tag;
    } rows[] = {
        {{{U(7), {0, NONE, 5}, O(1)}, 3}, ACLCK_TAG, 1, 0},
        {{{U(7), {7, NONE, 8}, O(1)}, 3}, ACLCK_TAG, 1, 0},
        {{{U(7), USER(NONE, 8), G(5), O(1)}, 4}, ACLCK_ID, 1, 0},
        {{{U(7), G(5), GROUP(NONE, 1), O(1)}, 4}, ACLCK_ID, 2, 0},
        {{{U(7), G(5), O(8)}, 3}, ACLCK_PERMISSION, 2, 0},
        {{{U(7), G(5)}, 2}, ACLCK_MISS, 0, ACLCK_TAG_OTHER},
        {{{G(5), O(1)}, 2}, ACLCK_MISS, 0, ACLCK_TAG_USER_OBJ},
        {{{U(5), O(1)}, 2}, ACLCK_MISS, 0, ACLCK_TAG_GROUP_OBJ},
        {{{U(7), USER(7, 1), G(5), O(1)}, 4}, ACLCK_MISS, 0, ACLCK_TAG_MASK},
        {{{{0, 0, 0}}, 0}, ACLCK_MISS, 0, ACLCK_TAG_USER_OBJ},
    };
    static const aclck_posix_question question = {1, 2, 3, 4, &question.user, 0};
    for (size_t i = 0; i < sizeof rows / sizeof *rows; i++) {
        const given g = with_entries(&rows[i].acl, 0);
        const aclck_fault fault = fault_at(rows[i].place, rows[i].reason, rows[i].tag);
        uint32_t mode = 77;
        aclck_fault found = no_fault();
        refuses(sort, &g, sizeof(aclck_entry), fault);
        refuses(set_mode, &g, sizeof(aclck_entry), fault);
        refuses(calculate, &g, sizeof(aclck_entry), fault);
        refuses(create, &g, sizeof(aclck_entry), fault);
        refuses(bridge, &g, 1, fault);
        refuses(write_attribute, &g, 1, fault);
        EXPECT(aclck_entries_mode(g.entries, &mode, &found) == ACLCK_REFUSED && mode == 0);
        EXPECT(memcmp(&found, &fault, sizeof fault) == 0);
        are_closed(g.entries, &question, ACLCK_REFUSED, fault);
    }
}

/* Entries that occur twice, at the place of the second of them. */
static void are_repeats_reported(void) {
    static const struct {
        list acl;
        uint32_t reason, place;
    } rows[] = {
        {{{O(1), U(7), G(5), O(2)}, 4}, ACLCK_MULTI, 3},
        {{{U(7), USER(9, 1), USER(7, 1), USER(9, 2), G(5), M(7), O(1)}, 7}, ACLCK_DUPLICATE, 3},
        {{{GROUP(9, 1), U(7), USER(9, 1), G(5), M(7), O(1), GROUP(9, 1)}, 7}, ACLCK_DUPLICATE, 6},
    };
    for (size_t i = 0; i < sizeof rows / sizeof *rows; i++) {
        const given g = with_entries(&rows[i].acl, 0);
        refuses(sort, &g, sizeof(aclck_entry), fault_at(rows[i].place, rows[i].reason, 0));
        refuses(calculate, &g, sizeof(aclck_entry), fault_at(rows[i].place, rows[i].reason, 0));
    }
}

/* Any two entries that are exchanged: the questions refuse them, and aclck_entries_sorted() puts them in order. */
static void is_order_judged(void) {
    static const list acl = {{U(7), USER(5, 6), USER(9, 6), G(5), GROUP(5, 3), GROUP(9, 6), M(4), O(1)}, 8};
    static const aclck_posix_question question = {1, 2, 3, 4, &question.user, 0};
    for (size_t i = 0; i < acl.len; i++)
        for (size_t k = i + 1; k < acl.len; k++) {
            list mixed = acl;
            mixed.at[i] = acl.at[k];
            mixed.at[k] = acl.at[i];
            const given g = with_entries(&mixed, 0);
            are_closed(g.entries, &question, ACLCK_REFUSED, fault_at(i + 1, ACLCK_ORDER, 0));
            gives_entries(sort, &g, &acl);
        }
}

/* ---- entries that are changed */

static void are_entries_changed(void) {
    static const list full = {{U(7), USER(1002, 6), G(5), GROUP(30, 3), GROUP(40, 6), M(4), O(1)}, 7};
    static const list mixed = {{O(1), GROUP(40, 6), USER(1002, 6), M(4), U(7), GROUP(30, 3), G(5)}, 7};
    static const list full_0620 = {{U(6), USER(1002, 6), G(5), GROUP(30, 3), GROUP(40, 6), M(2), O(0)}, 7};
    static const list full_calculated = {{U(7), USER(1002, 6), G(5), GROUP(30, 3), GROUP(40, 6), M(7), O(1)}, 7};
    static const list small = {{U(6), G(4), O(0)}, 3}, small_0751 = {{U(7), G(5), O(1)}, 3};
    static const list small_calculated = {{U(6), G(4), M(4), O(0)}, 4};
    static const list no_mask = {{U(7), USER(1002, 2), G(1), O(0)}, 4};
    static const list with_mask = {{U(7), USER(1002, 2), G(1), M(3), O(0)}, 5};
    static const list wide = {{U(7), USER(1002, 7), G(5), M(5), O(5)}, 5};
    static const list wide_0640 = {{U(6), USER(1002, 7), G(5), M(4), O(0)}, 5};
    static const list small_0666 = {{U(6), G(4), O(0)}, 3};
    static const struct {
        writer *write;
        const list *acl;
        uint32_t number;
        const list *wanted;
    } rows[] = {
        {sort, &full, 0, &full},
        {sort, &mixed, 0, &full},
        {sort, &mixed, ACLCK_ADD_MASK, &full},
        {sort, &small, ACLCK_ADD_MASK, &small},
        {sort, &no_mask, ACLCK_ADD_MASK, &with_mask},
        {set_mode, &mixed, 0620, &full_0620},
        {set_mode, &small, 0751, &small_0751},
        {calculate, &mixed, 0, &full_calculated},
        {calculate, &small, 0, &small_calculated},
        {create, &wide, 0640, &wide_0640},
        {create, &small, 0666, &small_0666},
    };
    for (size_t i = 0; i < sizeof rows / sizeof *rows; i++) {
        given g = with_entries(rows[i].acl, rows[i].number);
        g.creation.mode = rows[i].number;
        g.creation.umask = 077;
        gives_entries(rows[i].write, &g, rows[i].wanted);
    }
}

static void are_modes_read(void) {
    static const list full = {{U(7), USER(1002, 6), G(5), M(4), O(1)}, 5}, small = {{U(6), G(4), O(0)}, 3};
    const aclck_entries a = {full.at, full.len}, b = {small.at, small.len};
    aclck_fault fault;
    uint32_t mode = 77;
    EXPECT(aclck_entries_mode(b, &mode, &fault) == ACLCK_DONE && mode == 0640);
    EXPECT(aclck_entries_mode(a, &mode, &fault) == ACLCK_DONE && mode == 0741);
}

static void are_bad_numbers_refused(void) {
    static const list acl = {{U(6), G(4), O(0)}, 3};
    given g = with_entries(&acl, 01000);
    is_bad(set_mode, &g, sizeof(aclck_entry));
    for (int i = 0; i < 2; i++) {
        const aclck_creation creation = {i ? 01000 : 0, i ? 0 : 01000, ACLCK_FILE};
        g.creation = creation;
        is_bad(create, &g, sizeof(aclck_entry));
    }
    for (int bit = 0; bit < 32; bit++) {
        const uint32_t option = (uint32_t)1 << bit;
        const aclck_creation creation = {0777, 022, (enum aclck_option)option};
        g = with_entries(&acl, option);
        g.creation = creation;
        if (option != ACLCK_ADD_MASK)
            is_bad(sort, &g, sizeof(aclck_entry));
        if (option != ACLCK_DIRECTORY)
            is_bad(create, &g, sizeof(aclck_entry));
    }
}

/* An ACL of 40,000 users has no NFSv4 list. */
static void is_limit_kept(void) {
    enum { USERS = 40000 };
    aclck_entry *all = malloc((USERS + 4) * sizeof *all);
    const aclck_entry u = U(7), grp = G(0), m = M(7), o = O(0);
    const aclck_fault wanted = fault_at(0, ACLCK_LIMITS, 0);
    given g;
    memset(&g, 0, sizeof g);
    all[0] = u;
    for (uint32_t i = 0; i < USERS; i++) {
        const aclck_entry one = USER(i, 6);
        all[i + 1] = one;
    }
    all[USERS + 1] = grp;
    all[USERS + 2] = m;
    all[USERS + 3] = o;
    g.entries.at = all;
    g.entries.len = USERS + 4;
    written w = call(bridge, &g, 1, 64);
    EXPECT(w.status == ACLCK_REFUSED && memcmp(&w.fault, &wanted, sizeof wanted) == 0 && is_kept(&w, 0, 64));
    free(w.room);
    free(all);
}

/* ---- attributes */

#define HEAD "\2\0\0\0"
#define A_USER_OBJ(perm) "\x01\0" perm "\0\xff\xff\xff\xff"
#define A_USER(id, perm) "\x02\0" perm "\0" id "\0\0\0"
#define A_GROUP_OBJ(perm) "\x04\0" perm "\0\xff\xff\xff\xff"
#define A_GROUP(id, perm) "\x08\0" perm "\0" id "\0\0\0"
#define A_MASK(perm) "\x10\0" perm "\0\xff\xff\xff\xff"
#define A_OTHER(perm) "\x20\0" perm "\0\xff\xff\xff\xff"
#define ATTRIBUTE(text) {text, sizeof(text) - 1}

static void are_attributes_read(void) {
    static const struct {
        aclck_bytes attribute;
        list acl;
    } rows[] = {
        {ATTRIBUTE(HEAD), {{{0, 0, 0}}, 0}},
        {ATTRIBUTE(HEAD A_USER_OBJ("\6") A_GROUP_OBJ("\4") A_OTHER("\0")), {{U(6), G(4), O(0)}, 3}},
        {ATTRIBUTE(HEAD A_USER_OBJ("\7") A_USER("\7", "\6") A_USER("\x09", "\5") A_GROUP_OBJ("\5")
                       A_GROUP("\5", "\1") A_MASK("\4") A_OTHER("\1")),
         {{U(7), USER(7, 6), USER(9, 5), G(5), GROUP(5, 1), M(4), O(1)}, 7}},
    };
    for (size_t i = 0; i < sizeof rows / sizeof *rows; i++) {
        given g = with_entries(&rows[i].acl, 0);
        g.attribute = rows[i].attribute;
        gives_entries(read_attribute, &g, &rows[i].acl);
        if (rows[i].acl.len > 0)
            writes(write_attribute, &g, 1, rows[i].attribute.at, rows[i].attribute.len);
    }
}

static void are_attributes_refused(void) {
    static const struct {
        aclck_bytes attribute;
        uint32_t reason, place, tag;
    } rows[] = {
        {ATTRIBUTE(""), ACLCK_SIZE, 0, 0},
        {ATTRIBUTE("\2\0\0"), ACLCK_SIZE, 0, 0},
        {ATTRIBUTE(HEAD "\1"), ACLCK_SIZE, 0, 0},
        {ATTRIBUTE(HEAD A_USER_OBJ("\6") A_GROUP_OBJ("\4") A_OTHER("\0") "\0\0\0\0"), ACLCK_SIZE, 0, 0},
        {ATTRIBUTE("\1\0\0\0" A_USER_OBJ("\6") A_GROUP_OBJ("\4") A_OTHER("\0")), ACLCK_VERSION_2, 0, 0},
        {ATTRIBUTE("\0\0\0\2" A_USER_OBJ("\6") A_GROUP_OBJ("\4") A_OTHER("\0")), ACLCK_VERSION_2, 0, 0},
        {ATTRIBUTE(HEAD A_USER_OBJ("\6") "\x03\0\4\0\0\0\0\0" A_OTHER("\0")), ACLCK_TAG, 1, 0},
        {ATTRIBUTE(HEAD A_USER_OBJ("\6") "\x04\1\4\0\0\0\0\0" A_OTHER("\0")), ACLCK_TAG, 1, 0},
        {ATTRIBUTE(HEAD A_USER_OBJ("\6") A_GROUP_OBJ("\4") A_OTHER("\x08")), ACLCK_PERMISSION, 2, 0},
        {ATTRIBUTE(HEAD A_USER_OBJ("\6") A_GROUP_OBJ("\4") "\x20\0\0\1\0\0\0\0"), ACLCK_PERMISSION, 2, 0},
        {ATTRIBUTE(HEAD A_USER_OBJ("\6") "\x02\0\4\0\xff\xff\xff\xff" A_GROUP_OBJ("\4") A_MASK("\4") A_OTHER("\0")),
         ACLCK_ID, 1, 0},
        {ATTRIBUTE(HEAD A_GROUP_OBJ("\4") A_USER_OBJ("\6") A_OTHER("\0")), ACLCK_ORDER, 1, 0},
        {ATTRIBUTE(HEAD A_USER_OBJ("\6") A_GROUP_OBJ("\4")), ACLCK_MISS, 0, ACLCK_TAG_OTHER},
        {ATTRIBUTE(HEAD A_USER_OBJ("\6") A_USER("\7", "\4") A_GROUP_OBJ("\4") A_OTHER("\0")), ACLCK_MISS, 0,
         ACLCK_TAG_MASK},
        {ATTRIBUTE(HEAD A_USER_OBJ("\6") A_GROUP_OBJ("\4") A_OTHER("\0") A_OTHER("\0")), ACLCK_MULTI, 3, 0},
        {ATTRIBUTE(HEAD A_USER_OBJ("\6") A_USER("\7", "\4") A_USER("\7", "\4") A_GROUP_OBJ("\4") A_MASK("\4")
                       A_OTHER("\0")),
         ACLCK_DUPLICATE, 2, 0},
    };
    for (size_t i = 0; i < sizeof rows / sizeof *rows; i++) {
        given g;
        memset(&g, 0, sizeof g);
        g.attribute = rows[i].attribute;
        refuses(read_attribute, &g, sizeof(aclck_entry), fault_at(rows[i].place, rows[i].reason, rows[i].tag));
    }
}

/* ---- values of forms; the texts are those of star(1), bsdtar(1) and tar(1) */

#define TEXT(text) {text, sizeof(text) - 1}
static const aclck_name NAMES[] = {{TEXT("bob"), 1001, 0}, {TEXT("bob"), 30, 1}};
#define BASE_OF_STAR "user::rw-,group::r--,other::---"

static given with_value(aclck_bytes text, uint32_t form) {
    given g;
    memset(&g, 0, sizeof g);
    g.value.text = text;
    g.value.names.at = NAMES;
    g.value.names.len = sizeof NAMES / sizeof *NAMES;
    g.number = form;
    return g;
}

static void are_values_read(void) {
    static const struct {
        uint32_t form;
        aclck_bytes value;
        list acl;
    } rows[] = {
        {ACLCK_POSIX_ATTRIBUTE,
         ATTRIBUTE(HEAD A_USER_OBJ("\7") A_USER("\x09", "\5") A_USER("\7", "\6") A_GROUP_OBJ("\5") A_MASK("\4")
                       A_OTHER("\1")),
         {{U(7), USER(7, 6), USER(9, 5), G(5), M(4), O(1)}, 6}},
        {ACLCK_POSIX_TEXT, TEXT(BASE_OF_STAR), {{U(6), G(4), O(0)}, 3}},
        {ACLCK_POSIX_TEXT + ACLCK_POSIX_GNU_STYLE, TEXT("user::rw-\ngroup::r--\nother::---\n"),
         {{U(6), G(4), O(0)}, 3}},
        {ACLCK_POSIX_TEXT, TEXT(BASE_OF_STAR ",user:ann:rw-:7,mask::rw-"), {{U(6), USER(7, 6), G(4), M(6), O(0)}, 5}},
        {ACLCK_POSIX_TEXT, TEXT(BASE_OF_STAR ",user:bob:rw-:7,mask::rw-"), {{U(6), USER(7, 6), G(4), M(6), O(0)}, 5}},
        {ACLCK_POSIX_TEXT, TEXT(BASE_OF_STAR ",user:bob:r--,group:bob:-w-,mask::rw-"),
         {{U(6), USER(1001, 4), G(4), GROUP(30, 2), M(6), O(0)}, 6}},
        {ACLCK_POSIX_DEFAULT_OF_TEXT, TEXT(BASE_OF_STAR), {{{0, 0, 0}}, 0}},
        {ACLCK_POSIX_DEFAULT_OF_TEXT, TEXT(BASE_OF_STAR ",d:u::r--,default:group::r-x,d:o::--x"), {{U(4), G(5), O(1)}, 3}},
        {ACLCK_POSIX_DEFAULT_TEXT, TEXT("user::rwx,default:group::r-x,other::--x"), {{U(7), G(5), O(1)}, 3}},
    };
    for (size_t i = 0; i < sizeof rows / sizeof *rows; i++) {
        given g = with_value(rows[i].value, rows[i].form);
        gives_entries(read_form, &g, &rows[i].acl);
    }
}

static void are_values_refused(void) {
    static const struct {
        uint32_t form;
        aclck_bytes value;
        uint32_t reason, offset, tag;
    } rows[] = {
        {ACLCK_POSIX_ATTRIBUTE, ATTRIBUTE(HEAD), ACLCK_MISS, 4, ACLCK_TAG_USER_OBJ},
        {ACLCK_POSIX_ATTRIBUTE, ATTRIBUTE(HEAD A_USER_OBJ("\6") A_GROUP_OBJ("\4") "\x20\0\0\0\0\0\0\0"), ACLCK_QUALIFIER,
         24, 0},
        {ACLCK_POSIX_TEXT, TEXT(""), ACLCK_MISS, 0, ACLCK_TAG_USER_OBJ},
        {ACLCK_POSIX_TEXT, TEXT(BASE_OF_STAR ",user:eve:r--,mask::r--"), ACLCK_UNKNOWN_NAME, 37, 0},
        {ACLCK_POSIX_TEXT, TEXT(BASE_OF_STAR ",user:7:r--:8,mask::r--"), ACLCK_ID_DIFFERS, 43, 0},
        {ACLCK_POSIX_TEXT, TEXT(BASE_OF_STAR ",user:eve:r--:4294967295,mask::r--"), ACLCK_ID, 45, 0},
        {ACLCK_POSIX_TEXT, TEXT("user::rw-:5,group::r--,other::---"), ACLCK_FIELDS, 0, 0},
        {ACLCK_POSIX_TEXT, TEXT("# bob, his list\n" BASE_OF_STAR), ACLCK_COMMENT, 5, 0},
        {ACLCK_POSIX_TEXT, TEXT("user::rw-,user::rw-,group::r--,other::---"), ACLCK_MULTI, 10, 0},
        {ACLCK_POSIX_DEFAULT_TEXT, TEXT("user::rwx,group::,other::--x"), ACLCK_PERMISSION, 17, 0},
        {ACLCK_POSIX_DEFAULT_OF_TEXT, TEXT(BASE_OF_STAR ",d:u::r--"), ACLCK_MISS, 40, ACLCK_TAG_GROUP_OBJ},
    };
    for (size_t i = 0; i < sizeof rows / sizeof *rows; i++) {
        given g = with_value(rows[i].value, rows[i].form);
        refuses(read_form, &g, sizeof(aclck_entry), fault_at(rows[i].offset, rows[i].reason, rows[i].tag));
    }
}

/* Numbers that are no form, and a name that is no name. */
static void are_bad_forms_refused(void) {
    static const uint32_t forms[] = {0, 5, 16, 17, 19, 4294967295u};
    static const aclck_name none = {TEXT(""), 7, 0};
    for (size_t i = 0; i < sizeof forms / sizeof *forms; i++) {
        given g = with_value((aclck_bytes)TEXT(BASE_OF_STAR), forms[i]);
        is_bad(read_form, &g, sizeof(aclck_entry));
    }
    given g = with_value((aclck_bytes)TEXT(BASE_OF_STAR), ACLCK_POSIX_TEXT);
    g.value.names.at = &none;
    g.value.names.len = 1;
    is_bad(read_form, &g, sizeof(aclck_entry));
}

/* The entries of bob, of ann and of two groups, out of order, with the names that the other rows have. */
static const list OF_BOB = {{O(0), GROUP(50, 1), GROUP(30, 2), M(6), G(4), USER(1001, 6), USER(7, 4), U(6)}, 8};

static given with_form(const list *l, uint32_t form) {
    given g = with_value(aclck_string(""), form);
    g.entries.at = l->at;
    g.entries.len = l->len;
    return g;
}

static void are_values_written(void) {
    static const struct {
        uint32_t form;
        aclck_bytes value;
    } rows[] = {
        {ACLCK_POSIX_ATTRIBUTE,
         ATTRIBUTE(HEAD A_USER_OBJ("\6") A_USER("\7", "\4") "\2\0\6\0\xe9\3\0\0" A_GROUP_OBJ("\4")
                       A_GROUP("\x1e", "\2") A_GROUP("\x32", "\1") A_MASK("\6") A_OTHER("\0"))},
        {ACLCK_POSIX_TEXT, TEXT(BASE_OF_STAR ",user:7:r--,user:bob:rw-:1001,group:bob:-w-:30,group:50:--x,mask::rw-")},
        {ACLCK_POSIX_DEFAULT_TEXT,
         TEXT(BASE_OF_STAR ",user:7:r--,user:bob:rw-:1001,group:bob:-w-:30,group:50:--x,mask::rw-")},
        {ACLCK_POSIX_TEXT + ACLCK_POSIX_GNU_STYLE,
         TEXT("user::rw-\nuser:7:r--\nuser:bob:rw-\ngroup::r--\ngroup:bob:-w-\ngroup:50:--x\nmask::rw-\nother::---\n")},
        {ACLCK_POSIX_DEFAULT_TEXT + ACLCK_POSIX_GNU_STYLE,
         TEXT("user::rw-\nuser:7:r--\nuser:bob:rw-\ngroup::r--\ngroup:bob:-w-\ngroup:50:--x\nmask::rw-\nother::---\n")},
    };
    for (size_t i = 0; i < sizeof rows / sizeof *rows; i++) {
        given g = with_form(&OF_BOB, rows[i].form);
        writes(write_form, &g, 1, rows[i].value.at, rows[i].value.len);
    }
}

/* Entries that are no ACL, and entries that a text cannot hold: the place is then that in canonical order. */
static void are_entries_kept_out_of_forms(void) {
    static const list repeated = {{U(6), G(4), O(0), U(6)}, 4};
    static const list high = {{U(6), G(4), O(0), M(6), USER(2147483648u, 6)}, 5};
    static const list none = {{U(6), G(4), O(0), M(6), USER(NONE, 6)}, 5};
    static const struct {
        const list *l;
        uint32_t form, reason, place;
        aclck_name name;
    } rows[] = {
        {&repeated, ACLCK_POSIX_TEXT, ACLCK_MULTI, 3, {TEXT("bob"), 1001, 0}},
        {&none, ACLCK_POSIX_TEXT, ACLCK_ID, 4, {TEXT("bob"), 1001, 0}},
        {&high, ACLCK_POSIX_TEXT, ACLCK_ID, 1, {TEXT("bob"), 1001, 0}},
        {&OF_BOB, ACLCK_POSIX_TEXT, ACLCK_SEPARATOR, 2, {TEXT("bo,b"), 1001, 0}},
        {&OF_BOB, ACLCK_POSIX_TEXT + ACLCK_POSIX_GNU_STYLE, ACLCK_SEPARATOR, 5, {TEXT(" bob"), 50, 1}},
    };
    for (size_t i = 0; i < sizeof rows / sizeof *rows; i++) {
        given g = with_form(rows[i].l, rows[i].form);
        g.value.names.at = &rows[i].name;
        g.value.names.len = 1;
        refuses(write_form, &g, 1, fault_at(rows[i].place, rows[i].reason, 0));
    }
}

/* Numbers of no form that is written, and names that are no table: a name of two users, and an id that is none. */
static void are_bad_forms_not_written(void) {
    static const uint32_t forms[] = {0, ACLCK_POSIX_DEFAULT_OF_TEXT, 5, 16, 17, 19, 32, 4294967295u};
    static const aclck_name twice[] = {{TEXT("bob"), 7, 0}, {TEXT("bob"), 8, 0}};
    static const aclck_name none = {TEXT("bob"), NONE, 0}, neither = {TEXT("bob"), 7, 2};
    const aclck_names tables[] = {{twice, 2}, {&none, 1}, {&neither, 1}};
    for (size_t i = 0; i < sizeof forms / sizeof *forms; i++) {
        given g = with_form(&OF_BOB, forms[i]);
        is_bad(write_form, &g, 1);
    }
    for (size_t i = 0; i < sizeof tables / sizeof *tables; i++) {
        given g = with_form(&OF_BOB, ACLCK_POSIX_ATTRIBUTE);
        g.value.names = tables[i];
        is_bad(write_form, &g, 1);
    }
}

/* ---- NFSv4 lists as POSIX ACLs. What a list grants is by RFC 8881, section 6.2.1, and the check looks at the entry of
   the owner first, then at that of the user, then at those of groups, and then at OTHER. */

/* The call writes the loss that is given, and nothing but 0 if it makes no entries. */
static enum aclck_status convert(const void *with, void *room, size_t cap, size_t *needed, aclck_fault *fault) {
    static const aclck_posix_loss unknown = {0, 0, 0, 0, 0, 0, 0, 0, 0};
    const given *g = with;
    const aclck_entry_buffer out = {room, cap};
    aclck_posix_loss loss;
    memset(&loss, 0xee, sizeof loss);
    enum aclck_status status = aclck_to_posix(g->acl, &g->value.names, g->number, out, needed, &loss, fault);
    int is_made = status == ACLCK_DONE || status == ACLCK_SHORT;
    EXPECT(memcmp(&loss, is_made ? &g->loss : &unknown, sizeof loss) == 0);
    return status;
}

/* The list of a text, in which bob is the user 1002, and editors the group 30. */
static given with_list(const char *text, uint32_t most) {
    static const aclck_name names[] = {{TEXT("bob"), 1002, 0}, {TEXT("editors"), 30, 1}};
    static unsigned char bytes[512];
    const aclck_buffer room = {bytes, sizeof bytes};
    aclck_fault fault;
    given g;
    memset(&g, 0, sizeof g);
    g.acl.at = bytes;
    EXPECT(aclck_encode(aclck_string(text), ACLCK_FULL, room, &g.acl.len, &fault) == ACLCK_DONE);
    g.value.names.at = names;
    g.value.names.len = 2;
    g.number = most;
    return g;
}

/* Puts the groups into rising order, each once, and returns how many they are. */
static size_t put_in_order(const uint32_t *groups, size_t count, uint32_t *rising) {
    size_t kept = 0;
    for (size_t i = 0; i < count; i++) {
        size_t at = kept;
        while (at > 0 && rising[at - 1] > groups[i])
            at--;
        if (at > 0 && rising[at - 1] == groups[i])
            continue;
        memmove(rising + at + 1, rising + at, (kept - at) * sizeof *rising);
        rising[at] = groups[i];
        kept++;
    }
    return kept;
}

/* The list grants what is lost, and the entries deny it. */
static void is_lost(const given *g, const list *acl, const aclck_posix_loss *loss) {
    static const uint32_t rights[] = {0, ACLCK_EXECUTE, ACLCK_WRITE_DATA | ACLCK_APPEND_DATA, 0, ACLCK_READ_DATA};
    const uint32_t groups[] = {loss->first_group, loss->second_group, loss->third_group};
    const aclck_posix_question asked = {loss->owner, loss->group, loss->user, loss->want, groups, loss->ngroups};
    const aclck_entries entries = {acl->at, acl->len};
    const aclck_id_object object = {loss->owner, loss->group};
    unsigned char bytes[512];
    const aclck_buffer room = {bytes, sizeof bytes};
    aclck_bytes prepared = {bytes, 0};
    uint32_t rising[3], granted = 77;
    aclck_decided decided = {0, 0};
    aclck_fault fault;
    if (!EXPECT(loss->exact == 0 && loss->ngroups <= 3 && loss->want < 5 && rights[loss->want]))
        return;
    const aclck_id_requester who = {loss->user, rising, put_in_order(groups, loss->ngroups, rising)};
    const aclck_question all = {(enum aclck_right)rights[loss->want], ACLCK_FULL};
    EXPECT(aclck_entries_check(entries, &asked, &granted, &fault) == ACLCK_DONE && granted == 0);
    EXPECT(aclck_prepare_ids(g->acl, &g->value.names, ACLCK_FULL, room, &prepared.len, &fault) == ACLCK_DONE);
    EXPECT(aclck_decide_ids(prepared, &object, &who, &all, &decided) == ACLCK_DONE);
    EXPECT(decided.allowed == rights[loss->want]);
    for (size_t i = loss->ngroups; i < 3; i++)
        EXPECT(groups[i] == 0);
}

#define READ "READ_DATA"
#define WRITE "WRITE_DATA|APPEND_DATA"
#define ALL READ "|" WRITE "|EXECUTE"

static void are_lists_converted(void) {
    static const struct {
        const char *text;
        list acl;
        uint32_t exact;
    } rows[] = {
        {"", {{U(0), G(0), O(0)}, 3}, 1},
        {"ALLOW - " ALL " EVERYONE@\n", {{U(7), G(7), O(7)}, 3}, 1},
        /* nobody is denied by the last line who is granted by another; bob needs no entry */
        {"ALLOW - " READ " OWNER@\nALLOW - " READ " GROUP@\nDENY - " READ " bob\n", {{U(4), G(4), O(0)}, 3}, 1},
        /* bob by his name and by his id */
        {"ALLOW - " ALL " OWNER@\nALLOW - " READ " bob\nALLOW - " WRITE " 1002\n",
         {{U(7), USER(1002, 6), G(0), M(6), O(0)}, 5}, 1},
        /* the owner may be bob, and another owner loses write */
        {"DENY - " WRITE " bob\nALLOW - " READ "|" WRITE " EVERYONE@\n",
         {{U(4), USER(1002, 4), G(6), M(6), O(6)}, 5}, 0},
        /* an owner in the group loses read and execute */
        {"ALLOW GROUP READ_DATA|EXECUTE editors\n", {{U(0), G(0), GROUP(30, 5), M(5), O(0)}, 5}, 0},
        /* write needs two rights; who is in both groups loses it */
        {"ALLOW - WRITE_DATA OWNER@\nALLOW - READ_DATA|APPEND_DATA EVERYONE@\n", {{U(6), G(4), O(4)}, 3}, 1},
        {"ALLOW GROUP WRITE_DATA 5\nALLOW GROUP APPEND_DATA 7\n", {{U(0), G(0), O(0)}, 3}, 0},
        /* only new objects have this ACE */
        {"ALLOW FILE|DIR|INHERITONLY " READ " EVERYONE@\n", {{U(0), G(0), O(0)}, 3}, 1},
    };
    for (size_t i = 0; i < sizeof rows / sizeof *rows; i++) {
        static const aclck_posix_loss nothing = {1, 0, 0, 0, 0, 0, 0, 0, 0};
        given g = with_list(rows[i].text, 2);
        aclck_entry first[MOST];
        const aclck_entry_buffer room = {first, MOST};
        aclck_fault fault;
        size_t needed;
        memset(&g.loss, 0xee, sizeof g.loss);
        EXPECT(aclck_to_posix(g.acl, &g.value.names, 2, room, &needed, &g.loss, &fault) == ACLCK_DONE);
        if (rows[i].exact)
            EXPECT(memcmp(&g.loss, &nothing, sizeof nothing) == 0);
        else
            is_lost(&g, &rows[i].acl, &g.loss);
        gives_entries(convert, &g, &rows[i].acl);
    }
}

/* Names without ids, also in an ACE that does not count; then too many names; and bytes that are cut short. */
static void are_lists_not_converted(void) {
    static const char *const groups = "ALLOW GROUP " READ " editors\nDENY GROUP " READ " 7\n";
    static const struct {
        const char *text;
        uint32_t most, reason, place;
    } rows[] = {
        {"ALLOW - " READ " ann\n", 9, ACLCK_UNKNOWN_NAME, 0},
        {"ALLOW - " READ " bob\nDENY GROUP " READ " bob\n", 9, ACLCK_UNKNOWN_NAME, 1},
        {"ALLOW - " READ " bob\nALLOW - " READ " 7\nALLOW FILE|INHERITONLY " READ " ann\n", 1, ACLCK_UNKNOWN_NAME, 2},
        {"ALLOW - " READ " bob\nALLOW - " READ " 7\n", 1, ACLCK_LIMITS, 0},
        {"ALLOW - " READ " bob\n", 0, ACLCK_LIMITS, 0},
    };
    for (size_t i = 0; i < sizeof rows / sizeof *rows; i++) {
        const given g = with_list(rows[i].text, rows[i].most);
        refuses(convert, &g, sizeof(aclck_entry), fault_at(rows[i].place, rows[i].reason, 0));
    }
    for (given g = with_list(groups, 2); g.acl.len-- > 0;) {
        aclck_fault fault = no_fault();
        uint32_t mode;
        EXPECT(aclck_mode(g.acl, ACLCK_FULL, &mode, &fault) == ACLCK_REFUSED);
        refuses(convert, &g, sizeof(aclck_entry), fault);
    }
}

/* Bounds above 65535, and names that are no table. */
static void are_bad_bounds_refused(void) {
    static const aclck_name twice[] = {{TEXT("bob"), 7, 0}, {TEXT("bob"), 8, 0}}, digits = {TEXT("7"), 7, 0};
    const aclck_names tables[] = {{twice, 2}, {&digits, 1}};
    static const uint32_t bounds[] = {65536, 65537, 131071, 4294967295u};
    for (size_t i = 0; i < sizeof bounds / sizeof *bounds; i++) {
        const given g = with_list("ALLOW - " READ " bob\n", bounds[i]);
        is_bad(convert, &g, sizeof(aclck_entry));
    }
    for (size_t i = 0; i < sizeof tables / sizeof *tables; i++) {
        given g = with_list("ALLOW - " READ " bob\n", 65535);
        g.value.names = tables[i];
        is_bad(convert, &g, sizeof(aclck_entry));
    }
}

/* Writes an attribute in which some bytes are others, and returns its length. */
static size_t choose_attribute(unsigned char *bytes) {
    static const aclck_bytes good = ATTRIBUTE(HEAD A_USER_OBJ("\7") A_USER("\7", "\6") A_USER("\x09", "\5")
                                                  A_GROUP_OBJ("\5") A_GROUP("\5", "\1") A_MASK("\4") A_OTHER("\1"));
    size_t len = good.len;
    memcpy(bytes, good.at, len);
    for (uint32_t k = dice(3); k > 0; k--) {
        size_t one = 4 + 8 * dice(7), other = 4 + 8 * dice(7);
        unsigned char entry[8];
        switch (dice(4)) {
        case 0:
            bytes[dice((uint32_t)len)] = (unsigned char)(1 << dice(9));
            break;
        case 1:
            memcpy(entry, bytes + one, 8);
            memcpy(bytes + one, bytes + other, 8);
            memcpy(bytes + other, entry, 8);
            break;
        case 2:
            memcpy(bytes + one, bytes + other, 8);
            break;
        default:
            len -= dice(10);
        }
        if (len < good.len)
            break;
    }
    return len;
}

/* The kernel accepts what the call accepts, and an id twice. */
static void is_kernel_of_the_same_mind(const char *path) {
    static const aclck_bytes probe = ATTRIBUTE(HEAD A_USER_OBJ("\7") A_GROUP_OBJ("\5") A_OTHER("\1"));
    int accepted = 0, count = 4000;
    if (setxattr(path, "system.posix_acl_access", probe.at, probe.len, 0)) {
        printf("library: SKIPPED: attributes that the kernel accepts: the file system of %s has no lists\n", path);
        return;
    }
    for (int i = 0; i < count; i++) {
        unsigned char bytes[128];
        size_t len = choose_attribute(bytes), needed = 0;
        aclck_entry room[MOST];
        const aclck_entry_buffer out = {room, MOST};
        guarded g = guard(bytes, len, 1);
        aclck_fault fault = no_fault();
        enum aclck_status status = aclck_entries_from_attribute(aclck_bytes_of(g.at, len), out, &needed, &fault);
        int is_set = setxattr(path, "system.posix_acl_access", bytes, len, 0) == 0;
        let_go(g);
        EXPECT(is_set ? status == ACLCK_DONE || fault.reason == ACLCK_DUPLICATE : status == ACLCK_REFUSED);
        accepted += is_set;
    }
    printf("library_entries: the kernel accepts %d of %d attributes, and so does the call\n", accepted, count);
}

int main(int argc, char **argv) {
    static const test tests[] = {
        TEST(are_questions_answered), TEST(are_bad_questions_refused), TEST(are_excesses_found),
        TEST(are_two_acls_judged), TEST(are_faults_reported),
        TEST(are_repeats_reported), TEST(is_order_judged), TEST(are_entries_changed), TEST(are_modes_read),
        TEST(are_bad_numbers_refused), TEST(is_limit_kept), TEST(are_attributes_read), TEST(are_attributes_refused),
        TEST(are_values_read), TEST(are_values_refused), TEST(are_bad_forms_refused), TEST(are_values_written),
        TEST(are_entries_kept_out_of_forms), TEST(are_bad_forms_not_written), TEST(are_lists_converted),
        TEST(are_lists_not_converted), TEST(are_bad_bounds_refused)};
    for (size_t i = 0; i < sizeof tests / sizeof *tests; i++) {
        about = tests[i].name;
        tests[i].run();
    }
    if (argc > 1)
        is_kernel_of_the_same_mind(argv[1]);
    return failures > 0;
}
