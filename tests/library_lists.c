/* Tests the calls of libaclck over NFSv4 lists that no command of aclck has: prepared lists, by names and by ids; ACE
 * by ACE; new modes; names exchanged; bounds; questions; names that nobody knows.
 *
 *     library_lists LISTS [threads]
 *
 * LISTS has a list in hexadecimal in each line, which may be refused. Each call is compared with calls that
 * tests/library compares with the program, and with rows that were worked by hand from RFC 8881. Lists and prepared
 * bytes lie between pages that may not be read. With -DREFUSE each request for memory of the calls fails in turn. With
 * `threads` four threads ask the same prepared bytes.
 */
#include "library_calls.h"

enum { NAMES = 12, DIGITS = 11 };

/* ---- the calls */

typedef struct {
    aclck_bytes acl;
    enum aclck_option options;
    uint32_t mode, most;
    aclck_names names;
    aclck_renamings table;
    aclck_object object;
    aclck_bytes suffix, bound;
    aclck_aces aces;
    enum aclck_form form;
    uint32_t flags, *flags_read;
} given;

#define WRITER(name, call)                                                                                             \
    static enum aclck_status name(const void *with, void *room, size_t cap, size_t *needed, aclck_fault *fault) {      \
        const given *g = with;                                                                                         \
        const aclck_buffer out = aclck_buffer_of(room, cap);                                                           \
        return call;                                                                                                   \
    }
WRITER(prepare, aclck_prepare(g->acl, g->options, out, needed, fault))
WRITER(prepare_ids, aclck_prepare_ids(g->acl, &g->names, g->options, out, needed, fault))
WRITER(build, aclck_build(g->aces, g->options, out, needed, fault))
WRITER(set_mode, aclck_chmod(g->acl, g->mode, g->options, out, needed, fault))
WRITER(exchange, aclck_renamed(g->acl, &g->table, g->options, out, needed, fault))
WRITER(name_owner, aclck_resolved(g->acl, &g->object, g->options, out, needed, fault))
WRITER(name_groups, aclck_with_groups(g->acl, &g->suffix, g->options, out, needed, fault))
WRITER(keep_under, aclck_restricted(g->acl, &g->bound, g->options, out, needed, fault))
WRITER(keep_everywhere, aclck_restricted_everywhere(g->acl, &g->bound, g->options, out, needed, fault))
WRITER(ask, aclck_questions(g->acl, g->most, g->options, out, needed, fault))
WRITER(read_form, aclck_read_form(g->acl, g->form, out, needed, g->flags_read, fault))
WRITER(write_form, aclck_write_form(g->acl, g->form, g->flags, out, needed, fault))
WRITER(inherit, aclck_child(g->acl, g->options, out, needed, fault))
WRITER(encode, aclck_encode(g->acl, g->options, out, needed, fault))

static const aclck_ace no_ace;
static const aclck_name no_name;
static const aclck_renaming no_renaming;

static given list_with(aclck_bytes acl, uint32_t options) {
    given g;
    memset(&g, 0, sizeof g);
    g.acl = acl;
    g.options = (enum aclck_option)options;
    g.names.at = &no_name;
    g.table.at = &no_renaming;
    g.object = (aclck_object){aclck_string("bob"), aclck_string("staff")};
    g.suffix = aclck_string("?");
    g.bound = aclck_bytes_of("\0\0\0\0", 4);
    g.aces.at = &no_ace;
    g.most = UINT32_MAX;
    return g;
}

/* Returns what the call writes, which `*count` counts, or NULL if it fails. */
static void *result_of(writer *write, const void *with, size_t size, size_t *count) {
    char none[SIDE];
    aclck_fault fault;
    size_t needed = 0;
    enum aclck_status status = write(with, none, 0, &needed, &fault);
    void *room = malloc(needed * size + 1);
    if (status == ACLCK_SHORT)
        status = write(with, room, needed, count, &fault);
    else
        *count = 0;
    if (status == ACLCK_DONE)
        return room;
    free(room);
    return NULL;
}

static void *kept[4096];
static size_t nkept;

/* Returns what a call writes, which is freed at the end, or no bytes if it fails. */
static aclck_bytes made(writer *write, const given *g) {
    size_t len = 0;
    void *bytes = result_of(write, g, 1, &len);
    if (nkept < sizeof kept / sizeof *kept)
        kept[nkept++] = bytes;
    return aclck_bytes_of(bytes, len);
}

static aclck_bytes list_of(const char *text) {
    given g = list_with(aclck_string(text), 0);
    aclck_bytes list = made(encode, &g);
    EXPECT(list.len > 0);
    return list;
}

static int are_equal(aclck_bytes a, aclck_bytes b) {
    return a.len == b.len && memcmp(a.at, b.at, a.len) == 0;
}

static int is_special(aclck_bytes who) {
    return who.len > 0 && ((const char *)who.at)[who.len - 1] == '@';
}

static enum aclck_status judge(aclck_bytes acl, uint32_t options, aclck_fault *fault) {
    uint32_t mode;
    return aclck_mode(acl, (enum aclck_option)options, &mode, fault);
}

/* ---- ACE by ACE */

static int is_end(const aclck_ace *ace) {
    return ace->kind == ACLCK_UNDECIDED && ace->flags == 0 && ace->mask == 0 && ace->who.len == 0;
}

static int is_within(aclck_bytes part, aclck_bytes all) {
    const char *at = part.at, *begin = all.at;
    return at >= begin && at + part.len <= begin + all.len;
}

/* Reads the ACEs of a list, and returns how many there are. There must be room for all of them. */
static size_t aces_of(aclck_bytes acl, uint32_t options, aclck_ace *aces) {
    size_t offset = 0, count = 0;
    aclck_fault fault;
    aclck_ace ace;
    for (;;) {
        memset(&ace, 0xee, sizeof ace);
        if (!EXPECT(aclck_next(acl, (enum aclck_option)options, &offset, &ace, &fault) == ACLCK_DONE))
            return 0;
        if (ace.kind == ACLCK_UNDECIDED)
            break;
        if (!EXPECT(count < acl.len / 20 && is_within(ace.who, acl)))
            return 0;
        aces[count++] = ace;
    }
    EXPECT(is_end(&ace));
    EXPECT(aclck_next(acl, (enum aclck_option)options, &offset, &ace, &fault) == ACLCK_DONE && is_end(&ace));
    return count;
}

static aclck_ace *room_for_aces(aclck_bytes acl) {
    return malloc((acl.len / 20 + 1) * sizeof(aclck_ace));
}

/* A list that is read ACE by ACE and built from its ACEs has its bytes. */
static void is_read_and_built(aclck_bytes acl, uint32_t options) {
    aclck_ace *aces = room_for_aces(acl);
    given g = list_with(acl, options);
    g.aces.len = aces_of(acl, options, aces);
    g.aces.at = aces;
    writes(build, &g, 1, acl.at, acl.len);
    free(aces);
}

/* Returns whether a call wrote no ACE. */
static int is_no_ace(const aclck_ace *ace) {
    aclck_ace none;
    memset(&none, 0xee, sizeof none);
    return memcmp(ace, &none, sizeof none) == 0;
}

/* The first call refuses a list as aclck_mode() does. */
static void is_refused_at_once(aclck_bytes acl, uint32_t options) {
    aclck_fault fault = no_fault(), judged = no_fault();
    aclck_ace ace;
    size_t offset = 0;
    memset(&ace, 0xee, sizeof ace);
    EXPECT(judge(acl, options, &judged) == ACLCK_REFUSED);
    EXPECT(aclck_next(acl, (enum aclck_option)options, &offset, &ace, &fault) == ACLCK_REFUSED);
    EXPECT(memcmp(&fault, &judged, sizeof fault) == 0 && offset == 0 && is_no_ace(&ace));
}

/* Every offset has an answer, which reads no byte outside. */
static void is_any_offset_safe(aclck_bytes acl, uint32_t options) {
    static const size_t far[] = {SIZE_MAX, SIZE_MAX - 3, SIZE_MAX / 2, 1u << 31, 0xffffffff};
    const size_t near = acl.len + 24, nfar = sizeof far / sizeof *far;
    for (size_t i = 0; i < near + nfar; i++) {
        size_t offset = i < near ? i : far[i - near], was = offset;
        aclck_fault fault;
        aclck_ace ace;
        enum aclck_status status;
        memset(&ace, 0xee, sizeof ace);
        status = aclck_next(acl, (enum aclck_option)options, &offset, &ace, &fault);
        EXPECT(status == (was > acl.len ? ACLCK_BAD_ARGUMENT : status == ACLCK_DONE ? ACLCK_DONE : ACLCK_REFUSED));
        if (status == ACLCK_DONE && ace.kind != ACLCK_UNDECIDED)
            EXPECT(is_within(ace.who, acl) && offset > was && offset <= acl.len);
        else
            EXPECT(offset == was && (status ? is_no_ace(&ace) : is_end(&ace)));
    }
}

/* ---- who asks */

typedef struct {
    aclck_bytes users[NAMES + 1], groups[NAMES + 1];
    size_t nusers, ngroups;
} people;

static size_t place_of(const aclck_bytes *names, size_t count, aclck_bytes name) {
    size_t place = 0;
    while (place < count && !are_equal(names[place], name))
        place++;
    return place;
}

/* Returns some of the users and groups that a list names, and one of each that it does not name. */
static people people_of(const aclck_ace *aces, size_t count) {
    people p = {{aclck_string("nobody of the cases")}, {aclck_string("no group of the cases")}, 1, 1};
    for (size_t i = 0; i < count; i++) {
        int is_group = (aces[i].flags & ACLCK_IDENTIFIER_GROUP) != 0;
        aclck_bytes *names = is_group ? p.groups : p.users;
        size_t *many = is_group ? &p.ngroups : &p.nusers;
        if (!is_special(aces[i].who) && *many <= NAMES && place_of(names, *many, aces[i].who) == *many)
            names[(*many)++] = aces[i].who;
    }
    return p;
}

static int compare_bytes(const void *a, const void *b) {
    const aclck_bytes *one = a, *two = b;
    int found = memcmp(one->at, two->at, one->len < two->len ? one->len : two->len);
    return found ? found : (one->len > two->len) - (one->len < two->len);
}

/* Writes some of the groups to `chosen`, in the order of their bytes, and returns how many. */
static size_t choose_groups(const people *p, aclck_bytes *chosen) {
    size_t count = 0;
    for (size_t i = 0; i < p->ngroups; i++)
        if (dice(2))
            chosen[count++] = p->groups[i];
    qsort(chosen, count, sizeof *chosen, compare_bytes);
    return count;
}

static uint32_t choose_mask(void) {
    switch (dice(3)) {
    case 0:
        return ACLCK_ALL_RIGHTS;
    case 1:
        return ((uint32_t)1 << dice(21)) & ACLCK_ALL_RIGHTS;
    default:
        return dice(1u << 21) & ACLCK_ALL_RIGHTS;
    }
}

static aclck_question asks(uint32_t mask, uint32_t options) {
    aclck_question question;
    question.mask = (enum aclck_right)mask;
    question.options = (enum aclck_option)options;
    return question;
}

static int is_same_decision(aclck_decided a, aclck_decided b) {
    return a.allowed == b.allowed && a.denied == b.denied;
}

/* ---- prepared lists */

/* Prepared bytes answer as the list does, also for many requesters at once, with and without the order of groups. */
static void is_asked_alike(aclck_bytes acl, aclck_bytes prepared, uint32_t options, const people *p) {
    const aclck_object object = {p->users[dice((uint32_t)p->nusers)], p->groups[dice((uint32_t)p->ngroups)]};
    const uint32_t order = dice(2) ? ACLCK_GROUPS_IN_ORDER : 0;
    const aclck_question of_list = asks(choose_mask(), options), question = asks(of_list.mask, order);
    aclck_bytes groups[3][NAMES + 1];
    aclck_requester who[3];
    const aclck_requesters all = {who, 3};
    aclck_decided wanted[3], found, many[3];
    const aclck_decided_list room = {many, 3};
    aclck_fault fault;
    long before;
    for (int i = 0; i < 3; i++) {
        who[i].user = p->users[dice((uint32_t)p->nusers)];
        who[i].ngroups = choose_groups(p, groups[i]);
        who[i].groups = groups[i];
        before = memory.requests;
        EXPECT(aclck_decide(acl, &object, &who[i], &of_list, &wanted[i], &fault) == ACLCK_DONE);
        EXPECT(aclck_decide_prepared(prepared, &object, &who[i], &question, &found) == ACLCK_DONE);
        EXPECT(is_same_decision(found, wanted[i]) && memory.requests == before);
    }
    before = memory.requests;
    EXPECT(aclck_decide_prepared_many(prepared, &object, all, &question, room) == ACLCK_DONE);
    EXPECT(memory.requests == before);
    for (int i = 0; i < 3; i++)
        EXPECT(is_same_decision(many[i], wanted[i]));
}

/* Other bytes get an answer or none. Nothing outside is read, and at a failure nothing is decided. */
static void is_asked_safely(aclck_bytes bytes) {
    static const uint32_t ids[] = {7, 1000, 1001};
    const aclck_object object = {aclck_string("a"), aclck_string("s")};
    const aclck_bytes groups[] = {aclck_string("editors"), aclck_string("staff")};
    const aclck_requester who = {aclck_string("bob"), groups, 2};
    const aclck_id_object id_object = {1000, 7};
    const aclck_id_requester id_who = {1001, ids, 3};
    const aclck_question question = asks(ACLCK_ALL_RIGHTS, 0);
    aclck_decided found = {77, 77};
    enum aclck_status status = aclck_decide_prepared(bytes, &object, &who, &question, &found);
    EXPECT(status == ACLCK_DONE || (status == ACLCK_BAD_ARGUMENT && !found.allowed && !found.denied));
    EXPECT(((found.allowed | found.denied) & ~(uint32_t)ACLCK_ALL_RIGHTS) == 0);
    found.allowed = 77;
    status = aclck_decide_ids(bytes, &id_object, &id_who, &question, &found);
    EXPECT(status == ACLCK_DONE || (status == ACLCK_BAD_ARGUMENT && !found.allowed && !found.denied));
}

/* Prepared bytes that are cut short, or of which one byte is another. */
static void are_changed_bytes_safe(aclck_bytes prepared) {
    static const unsigned char changes[] = {0x01, 0x10, 0x80, 0xff};
    for (int is_behind = 0; is_behind < 2; is_behind++) {
        guarded g = guard(prepared.at, prepared.len, is_behind);
        for (size_t i = 0; i < prepared.len; i++)
            for (size_t k = 0; k < sizeof changes; k++) {
                g.at[i] ^= changes[k];
                is_asked_safely(aclck_bytes_of(g.at, prepared.len));
                g.at[i] ^= changes[k];
            }
        let_go(g);
    }
    for (size_t len = 0; len <= prepared.len; len++) {
        guarded g = guard(prepared.at, len, 1);
        is_asked_safely(aclck_bytes_of(g.at, len));
        let_go(g);
    }
}

static void is_prepared(aclck_bytes acl, uint32_t options, const people *p) {
    given g = list_with(acl, options);
    size_t len = 0;
    unsigned char *bytes = result_of(prepare, &g, 1, &len);
    if (!EXPECT(bytes != NULL))
        return;
    EXPECT(len <= acl.len + 8);
    writes(prepare, &g, 1, bytes, len);
    guarded at = guard(bytes, len, (int)dice(2));
    for (int i = 0; i < 20; i++)
        is_asked_alike(acl, aclck_bytes_of(at.at, len), options, p);
    let_go(at);
    free(bytes);
}

/* ---- ids */

static int has_digits_alone(aclck_bytes name) {
    for (size_t i = 0; i < name.len; i++)
        if (((const char *)name.at)[i] < '0' || ((const char *)name.at)[i] > '9')
            return 0;
    return name.len > 0;
}

/* Returns the id that a name of digits is, or 4294967295. */
static uint32_t id_of_digits(aclck_bytes name) {
    uint64_t id = 0;
    const char *at = name.at;
    for (size_t i = 0; i < name.len && id < UINT32_MAX; i++)
        id = id * 10 + (uint64_t)(at[i] - '0');
    return id >= UINT32_MAX || (at[0] == '0' && name.len > 1) ? UINT32_MAX : (uint32_t)id;
}

typedef struct {
    aclck_name rows[2 * NAMES + 2];
    aclck_names names;
    uint32_t users[NAMES + 1], groups[NAMES + 1];
    char digits[4096][DIGITS];
} table;

/* Returns the id of a name: that of its row, or the number that it is, or 4294967295. */
static uint32_t id_of(const table *t, aclck_bytes name, uint32_t is_group) {
    for (size_t i = 0; i < t->names.len; i++)
        if (t->rows[i].is_group == is_group && are_equal(t->rows[i].name, name))
            return t->rows[i].id;
    return has_digits_alone(name) ? id_of_digits(name) : UINT32_MAX;
}

/* Makes rows for the names. Users and groups get the same ids, and two users get one. */
static void give_ids(table *t, const people *p) {
    t->names.at = t->rows;
    t->names.len = 0;
    for (uint32_t is_group = 0; is_group < 2; is_group++) {
        const aclck_bytes *names = is_group ? p->groups : p->users;
        for (size_t i = 0; i < (is_group ? p->ngroups : p->nusers); i++)
            if (!has_digits_alone(names[i])) {
                const aclck_name row = {names[i], (uint32_t)(i == 3 ? 1002 : 1000 + i), is_group};
                t->rows[t->names.len++] = row;
            }
    }
    for (size_t i = 0; i < p->nusers; i++)
        t->users[i] = id_of(t, p->users[i], 0);
    for (size_t i = 0; i < p->ngroups; i++)
        t->groups[i] = id_of(t, p->groups[i], 1);
}

static int compare_ids(const void *a, const void *b) {
    uint32_t one = *(const uint32_t *)a, two = *(const uint32_t *)b;
    return (one > two) - (one < two);
}

/* Writes some of the ids, which rise, and returns how many. */
static size_t choose_ids(const uint32_t *from, size_t count, uint32_t *ids) {
    size_t many = 0, kept_ids = 0;
    for (size_t i = 0; i < count; i++)
        if (dice(2) && from[i] != UINT32_MAX)
            ids[many++] = from[i];
    qsort(ids, many, sizeof *ids, compare_ids);
    for (size_t i = 0; i < many; i++)
        if (kept_ids == 0 || ids[i] != ids[kept_ids - 1])
            ids[kept_ids++] = ids[i];
    return kept_ids;
}

static aclck_bytes digits_of(uint32_t id, char room[DIGITS]) {
    snprintf(room, DIGITS, "%u", (unsigned)id);
    return aclck_string(room);
}

/* The prepared ids answer as the list does in which each name is the digits of its id. */
static void is_asked_by_ids(aclck_bytes digits, aclck_bytes prepared, uint32_t options, const people *p,
                            const table *t) {
    uint32_t ids[NAMES + 1];
    char room[3 + NAMES + 1][DIGITS];
    const aclck_id_object object = {t->users[dice((uint32_t)p->nusers)], t->groups[dice((uint32_t)p->ngroups)]};
    const aclck_id_requester who = {t->users[dice((uint32_t)p->nusers)], ids,
                                    choose_ids(t->groups, p->ngroups, ids)};
    const aclck_object named = {digits_of(object.owner, room[0]), digits_of(object.group, room[1])};
    aclck_bytes groups[NAMES + 1];
    const aclck_requester of_digits = {digits_of(who.user, room[2]), groups, who.ngroups};
    const aclck_question of_list = asks(choose_mask(), options), question = asks(of_list.mask, 0);
    aclck_decided wanted, found;
    aclck_fault fault;
    long before = memory.requests;
    if (object.owner == UINT32_MAX || object.group == UINT32_MAX || who.user == UINT32_MAX)
        return;
    for (size_t i = 0; i < who.ngroups; i++)
        groups[i] = digits_of(ids[i], room[3 + i]);
    EXPECT(aclck_decide(digits, &named, &of_digits, &of_list, &wanted, &fault) == ACLCK_DONE);
    EXPECT(aclck_decide_ids(prepared, &object, &who, &question, &found) == ACLCK_DONE);
    EXPECT(is_same_decision(found, wanted) && memory.requests == before);
}

/* A list is prepared with ids, or its first name without an id is refused. */
static void is_prepared_with_ids(aclck_bytes acl, uint32_t options, const people *p, aclck_ace *aces, size_t count) {
    static table t;
    given g = list_with(acl, options), digits = g;
    size_t len = 0;
    give_ids(&t, p);
    g.names = t.names;
    for (size_t i = 0; i < count; i++) {
        uint32_t is_group = (aces[i].flags & ACLCK_IDENTIFIER_GROUP) != 0, id;
        if (is_special(aces[i].who))
            continue;
        id = id_of(&t, aces[i].who, is_group);
        if (id == UINT32_MAX) {
            const aclck_fault fault = {i, 0, 0, ACLCK_UNKNOWN_NAME, 0, 0, 0};
            refuses(prepare_ids, &g, 1, fault);
            return;
        }
        if (i < sizeof t.digits / sizeof *t.digits)
            aces[i].who = digits_of(id, t.digits[i]);
    }
    digits.aces.at = aces;
    digits.aces.len = count;
    unsigned char *bytes = result_of(prepare_ids, &g, 1, &len);
    size_t digits_len = 0;
    unsigned char *list = result_of(build, &digits, 1, &digits_len);
    if (EXPECT(bytes != NULL && list != NULL)) {
        guarded at = guard(bytes, len, (int)dice(2));
        writes(prepare_ids, &g, 1, bytes, len);
        for (int i = 0; i < 20; i++)
            is_asked_by_ids(aclck_bytes_of(list, digits_len), aclck_bytes_of(at.at, len), options, p, &t);
        let_go(at);
    }
    free(bytes);
    free(list);
}

/* ---- a new mode */

static aclck_bytes without_memory(writer *write, given g, uint32_t options) {
    g.options = (enum aclck_option)options;
    size_t len = 0;
    void *bytes = result_of(write, &g, 1, &len);
    EXPECT(bytes != NULL);
    return aclck_bytes_of(bytes, bytes ? len : 0);
}

/* A list after a change of the mode has the mode, grants other rights as before, and passes on what it passed on. */
static void is_mode_set(aclck_bytes acl, uint32_t options, const people *p) {
    const uint32_t of_mode = ACLCK_READ_DATA | ACLCK_WRITE_DATA | ACLCK_APPEND_DATA | ACLCK_EXECUTE;
    given g = list_with(acl, options), after = g;
    size_t len = 0;
    uint32_t mode = 0;
    aclck_fault fault;
    g.mode = dice(512);
    unsigned char *bytes = result_of(set_mode, &g, 1, &len);
    if (!EXPECT(bytes != NULL))
        return;
    writes(set_mode, &g, 1, bytes, len);
    after.acl = aclck_bytes_of(bytes, len);
    EXPECT(aclck_mode(after.acl, (enum aclck_option)options, &mode, &fault) == ACLCK_DONE && mode == g.mode);
    for (uint32_t kind = 0; kind < 2; kind++) {
        const uint32_t to = options | (kind ? ACLCK_DIRECTORY : 0);
        aclck_bytes one = without_memory(inherit, g, to), two = without_memory(inherit, after, to);
        EXPECT(are_equal(one, two));
        free((void *)one.at);
        free((void *)two.at);
    }
    for (int i = 0; i < 10; i++) {
        aclck_bytes groups[NAMES + 1];
        const aclck_object object = {p->users[dice((uint32_t)p->nusers)], p->groups[dice((uint32_t)p->ngroups)]};
        const aclck_requester who = {p->users[dice((uint32_t)p->nusers)], groups, choose_groups(p, groups)};
        const aclck_question question = asks(ACLCK_ALL_RIGHTS & ~of_mode, options);
        aclck_decided before, now;
        EXPECT(aclck_decide(acl, &object, &who, &question, &before, &fault) == ACLCK_DONE);
        EXPECT(aclck_decide(after.acl, &object, &who, &question, &now, &fault) == ACLCK_DONE);
        EXPECT(before.allowed == now.allowed);
    }
    free(bytes);
}

/* The child with ACLCK_MARK_INHERITED is the child with the flag INHERITED on each ACE. */
static void is_child_marked(aclck_bytes acl) {
    for (uint32_t kind = 0; kind < 2; kind++) {
        const uint32_t to = kind ? ACLCK_DIRECTORY : ACLCK_FILE;
        given g = list_with(acl, to), marked = list_with(acl, to | ACLCK_MARK_INHERITED), wanted = g;
        aclck_bytes child = without_memory(inherit, g, to);
        aclck_ace *aces = room_for_aces(child);
        wanted.options = ACLCK_FULL;
        wanted.aces.at = aces;
        wanted.aces.len = aces_of(child, 0, aces);
        for (size_t i = 0; i < wanted.aces.len; i++)
            aces[i].flags |= ACLCK_INHERITED;
        aclck_bytes list = without_memory(build, wanted, 0);
        writes(inherit, &marked, 1, list.at, list.len);
        free((void *)list.at);
        free((void *)child.at);
        free(aces);
    }
}

/* ---- names exchanged */

/* Names that are exchanged for others and back are as they were. Without a table nothing changes. */
static void is_exchanged_back(aclck_bytes acl, uint32_t options, const people *p) {
    aclck_renaming rows[2 * NAMES], back[2 * NAMES];
    static char names[2 * NAMES][16];
    given g = list_with(acl, options), again = g;
    size_t count = 0, len = 0;
    writes(exchange, &g, 1, acl.at, acl.len);
    for (uint32_t is_group = 0; is_group < 2; is_group++)
        for (size_t i = 1; i < (is_group ? p->ngroups : p->nusers); i++, count++) {
            const aclck_bytes from = is_group ? p->groups[i] : p->users[i];
            snprintf(names[count], sizeof names[count], "#%u of %s", (unsigned)i, is_group ? "g" : "u");
            const aclck_renaming row = {from, aclck_string(names[count]), is_group}, other = {row.to, from, is_group};
            rows[count] = row;
            back[count] = other;
        }
    g.table.at = rows;
    g.table.len = count;
    again.table.at = back;
    again.table.len = count;
    unsigned char *bytes = result_of(exchange, &g, 1, &len);
    if (EXPECT(bytes != NULL)) {
        writes(exchange, &g, 1, bytes, len);
        again.acl = aclck_bytes_of(bytes, len);
        writes(exchange, &again, 1, acl.at, acl.len);
    }
    free(bytes);
}

/* ---- bounds */

static int is_at_most(aclck_bytes list, aclck_bytes bound, uint32_t options) {
    aclck_difference found;
    aclck_fault fault;
    enum aclck_status status =
        aclck_excess(list, bound, (enum aclck_option)options, &found, aclck_buffer_of(NULL, 0), &fault);
    return EXPECT(status == ACLCK_DONE || status == ACLCK_SHORT) && found.same;
}

/* The same of the list for what is created in a directory with each list, down to a depth. What is created below the
   depth of 2 has lists of that depth (docs/proofs/proofs.md, "Paths of creations"). */
static int is_at_most_down_to(int depth, aclck_bytes list, aclck_bytes bound, uint32_t options) {
    int is = is_at_most(list, bound, options);
    for (int is_directory = 0; depth > 0 && is_directory < 2; is_directory++) {
        const uint32_t kind = is_directory ? ACLCK_DIRECTORY : 0;
        const aclck_bytes child = without_memory(inherit, list_with(list, 0), options | kind),
                          limit = without_memory(inherit, list_with(bound, 0), options | kind);
        is = is_at_most_down_to(is_directory ? depth - 1 : 0, child, limit, options) && is;
        free((void *)child.at);
        free((void *)limit.at);
    }
    return is;
}

/* Under itself a list is as it was. Under the list without its first ACE it grants at most what both grant, down to the
   depth, it is as it was if it granted no more, and nothing goes a second time. */
static void is_kept_down_to(int depth, writer *keep, aclck_bytes acl, uint32_t options, const aclck_ace *aces,
                            size_t count) {
    given rest = list_with(acl, options), g = rest;
    size_t len = 0;
    g.bound = acl;
    writes(keep, &g, 1, acl.at, acl.len);
    if (count == 0)
        return;
    rest.aces.at = aces + 1;
    rest.aces.len = count - 1;
    g.bound = without_memory(build, rest, options);
    unsigned char *bytes = result_of(keep, &g, 1, &len);
    const aclck_bytes left = aclck_bytes_of(bytes, len);
    if (EXPECT(bytes != NULL && len == acl.len)) {
        EXPECT(is_at_most_down_to(depth, left, acl, options) && is_at_most_down_to(depth, left, g.bound, options));
        EXPECT(are_equal(left, acl) == is_at_most_down_to(depth, acl, g.bound, options));
        writes(keep, &g, 1, bytes, len);
        g.acl = left;
        writes(keep, &g, 1, bytes, len);
    }
    free(bytes);
    free((void *)g.bound.at);
}

/* ---- questions */

static const aclck_fault too_many = {0, 0, 0, ACLCK_TOO_MANY, 0, 0, 0};

static size_t word_at(const unsigned char *at) {
    return (size_t)at[0] << 24 | (size_t)at[1] << 16 | (size_t)at[2] << 8 | at[3];
}

/* Returns the place after a name, which has a byte at least, or `end` if there is no name. */
static const unsigned char *after_name(const unsigned char *at, const unsigned char *end) {
    const size_t room = (size_t)(end - at), len = room < 4 ? 0 : word_at(at), padded = (len + 3) / 4 * 4;
    if (!EXPECT(len > 0 && len <= 1025 && padded + 4 <= room))
        return end;
    for (size_t i = len; i < padded; i++)
        EXPECT(at[4 + i] == 0);
    return at + 4 + padded;
}

/* All bytes are those of questions, and one question less is too few. */
static void is_asked_completely(aclck_bytes acl, uint32_t options) {
    given g = list_with(acl, options);
    size_t len = 0, count = 0;
    unsigned char *bytes = result_of(ask, &g, 1, &len);
    if (EXPECT(bytes != NULL && len >= 4)) {
        const unsigned char *at = bytes + 4, *end = bytes + len;
        for (; at < end; count++) {
            for (int i = 0; i < 3; i++)
                at = after_name(at, end);
            size_t groups = EXPECT(end - at >= 4) ? word_at(at) : 0;
            for (at = end - at < 4 ? end : at + 4; groups > 0 && EXPECT(at < end); groups--)
                at = after_name(at, end);
        }
        EXPECT(count == word_at(bytes));
        g.most = (uint32_t)count;
        writes(ask, &g, 1, bytes, len);
        g.most--;
        refuses(ask, &g, 1, too_many);
    }
    free(bytes);
}

/* ---- names that nobody knows */

static int is_nothing_possible(const aclck_possible *possible) {
    static const aclck_possible nothing;
    return memcmp(possible, &nothing, sizeof nothing) == 0;
}

/* Where every name is known, what is certain is what is decided. */
static void is_all_known(aclck_bytes acl, uint32_t options, const people *p) {
    aclck_bytes groups[NAMES + 1];
    const aclck_object object = {p->users[dice((uint32_t)p->nusers)], p->groups[dice((uint32_t)p->ngroups)]};
    const aclck_requester who = {p->users[dice((uint32_t)p->nusers)], groups, choose_groups(p, groups)};
    const aclck_question question = asks(choose_mask(), options);
    aclck_possible found;
    aclck_decided wanted;
    aclck_fault fault;
    EXPECT(aclck_decide(acl, &object, &who, &question, &wanted, &fault) == ACLCK_DONE);
    EXPECT(aclck_decide_unknown(acl, &object, &who, &question, &found, &fault) == ACLCK_DONE);
    EXPECT(found.allowed == wanted.allowed && found.denied == wanted.denied && !found.unknown && !found.left_out);
    EXPECT(found.request == (wanted.allowed == (uint32_t)question.mask ? ACLCK_ALWAYS : ACLCK_NEVER));
}

/* A list that others refuse for another reason than such names is refused alike. */
static void is_unknown_refused(aclck_bytes acl, uint32_t options) {
    const aclck_object object = {aclck_string("a"), aclck_string("s")};
    const aclck_requester who = aclck_requester_of(aclck_string("bob"), NULL, 0);
    const aclck_question question = asks(1, options);
    aclck_fault fault = no_fault(), judged;
    aclck_possible found = {77, 77, 77, 77, 77};
    enum aclck_status status = aclck_decide_unknown(acl, &object, &who, &question, &found, &fault);
    judge(acl, options, &judged);
    if (judged.reason == ACLCK_AUDIT_OR_ALARM || judged.reason == ACLCK_SPECIAL_WHO)
        return;
    EXPECT(status == ACLCK_REFUSED && memcmp(&fault, &judged, sizeof fault) == 0 && is_nothing_possible(&found));
}

/* Writes a number as XDR does, most significant byte first. */
static unsigned char *put_word(unsigned char *at, uint32_t word) {
    for (int shift = 24; shift >= 0; shift -= 8)
        *at++ = (unsigned char)(word >> shift);
    return at;
}

static unsigned char *put_ace(unsigned char *at, uint32_t kind, uint32_t flags, uint32_t mask, const char *who) {
    size_t len = strlen(who);
    at = put_word(put_word(put_word(put_word(at, kind), flags), mask), (uint32_t)len);
    memset(at, 0, (len + 3) / 4 * 4);
    memcpy(at, who, len);
    return at + (len + 3) / 4 * 4;
}

enum { UNKNOWN = 3 };

/* Gives the ACEs of g0, g1 and g2 the names of the groups that stand for the unknown identifiers, with the suffix
   `~`. */
static void aces_with_suffix(aclck_ace *aces, uint32_t count) {
    static const char *const names[UNKNOWN] = {"INTERACTIVE@~", "NETWORK@~", "DIALUP@~"};
    for (uint32_t i = 0; i < count; i++) {
        const char *who = aces[i].who.at;
        if (aces[i].who.len == 2 && who[0] == 'g')
            aces[i].who = aclck_string(names[who[1] - '0']);
    }
}

/* What is certain of a list with three unknown identifiers is what is so in each of the eight cases. */
static void is_every_case_counted(void) {
    static const char *const whos[] = {"INTERACTIVE@", "NETWORK@", "DIALUP@", "EVERYONE@", "bob", "OWNER@"};
    static const char *const named[] = {"g0", "g1", "g2", "EVERYONE@", "bob", "OWNER@"};
    unsigned char bytes[512], *at = bytes + 4;
    aclck_ace aces[12];
    const uint32_t count = dice(9), mask = 1 + dice(7);
    uint32_t kept_aces = 0, left_out = 0, always = mask, ever = 0, ever_denied = 0, granted = 0;
    for (uint32_t i = 0; i < count; i++) {
        const uint32_t kind = dice(8) ? dice(2) : 2 + dice(2), who = dice(6), one = 1 + dice(7);
        const uint32_t flags = dice(8) ? 0 : ACLCK_INHERIT_ONLY | ACLCK_FILE_INHERIT;
        at = put_ace(at, kind, flags | (who < UNKNOWN && dice(2) ? ACLCK_IDENTIFIER_GROUP : 0), one, whos[who]);
        left_out += kind > ACLCK_DENY;
        if (kind <= ACLCK_DENY) {
            const aclck_ace ace = {kind, flags | (who < UNKNOWN ? ACLCK_IDENTIFIER_GROUP : 0), one,
                                   aclck_string(named[who])};
            aces[kept_aces++] = ace;
        }
    }
    put_word(bytes, count);
    given g = list_with(aclck_string(""), 0);
    g.aces.at = aces;
    g.aces.len = kept_aces;
    aclck_bytes list = without_memory(build, g, 0);
    const aclck_object object = {aclck_string(dice(2) ? "bob" : "alice"), aclck_string("staff")};
    const aclck_question question = asks(mask, 0);
    aclck_fault fault;
    for (uint32_t matching = 0; matching < 1 << UNKNOWN; matching++) {
        aclck_bytes groups[UNKNOWN];
        aclck_requester who = {aclck_string("bob"), groups, 0};
        aclck_decided decided;
        for (uint32_t k = 0; k < UNKNOWN; k++)
            if (matching >> k & 1)
                groups[who.ngroups++] = aclck_string(named[k]);
        EXPECT(aclck_decide(list, &object, &who, &question, &decided, &fault) == ACLCK_DONE);
        always &= decided.allowed;
        ever |= decided.allowed;
        ever_denied |= decided.denied;
        granted += decided.allowed == mask;
    }
    const aclck_requester bob = aclck_requester_of(aclck_string("bob"), NULL, 0);
    const aclck_bytes given_bytes = {bytes, (size_t)(at - bytes)};
    aclck_possible found;
    EXPECT(aclck_decide_unknown(given_bytes, &object, &bob, &question, &found, &fault) == ACLCK_DONE);
    EXPECT(found.allowed == always && found.unknown == (ever & ~always) && found.denied == (ever_denied & ~ever));
    EXPECT(found.left_out == left_out);
    given by_group = list_with(given_bytes, 0);
    by_group.suffix = aclck_string("~");
    aces_with_suffix(aces, kept_aces);
    const aclck_bytes grouped = without_memory(build, g, 0);
    writes(name_groups, &by_group, 1, grouped.at, grouped.len);
    free((void *)grouped.at);
    EXPECT(found.request == (granted == 1 << UNKNOWN ? ACLCK_ALWAYS : granted ? ACLCK_DEPENDS : ACLCK_NEVER));
    free((void *)list.at);
}

/* ---- rows worked by hand */

/* RFC 8881, section 6.4.1.1, by docs/proofs/contracts.md: the owner first, names within the group, group and others
   last. */
static void are_modes_set_by_hand(void) {
#define OWNER_RW "ALLOW - READ_DATA|WRITE_DATA|APPEND_DATA OWNER@\nDENY - EXECUTE OWNER@\n"
#define GROUP_R "ALLOW - READ_DATA GROUP@\nDENY - WRITE_DATA|APPEND_DATA|EXECUTE GROUP@\n"
    static const struct {
        uint32_t mode;
        const char *list, *after;
    } rows[] = {
        {0640, "ALLOW - READ_DATA bob\nALLOW - READ_DATA EVERYONE@\n", OWNER_RW "ALLOW - READ_DATA bob\n" GROUP_R},
        {0640, "ALLOW - READ_DATA|WRITE_DATA|READ_ACL bob\n", OWNER_RW "ALLOW - READ_DATA|READ_ACL bob\n" GROUP_R},
        {0640, "DENY GROUP WRITE_DATA staff\nALLOW - EXECUTE|DELETE EVERYONE@\n",
         OWNER_RW "DENY GROUP WRITE_DATA staff\nALLOW - DELETE EVERYONE@\n" GROUP_R},
        {0640, "ALLOW FILE|INHERITONLY WRITE_DATA bob\n", OWNER_RW "ALLOW FILE|INHERITONLY WRITE_DATA bob\n" GROUP_R},
        {0640, "ALLOW FILE WRITE_DATA bob\n", OWNER_RW "ALLOW FILE|INHERITONLY WRITE_DATA bob\n" GROUP_R},
        {0604, "ALLOW - READ_DATA bob\n",
         OWNER_RW "DENY - READ_DATA bob\nDENY - READ_DATA|WRITE_DATA|APPEND_DATA|EXECUTE GROUP@\n"
                  "ALLOW - READ_DATA EVERYONE@\n"},
        {0, "", "DENY - READ_DATA|WRITE_DATA|APPEND_DATA|EXECUTE OWNER@\n"
                "DENY - READ_DATA|WRITE_DATA|APPEND_DATA|EXECUTE GROUP@\n"},
    };
    for (size_t i = 0; i < sizeof rows / sizeof *rows; i++) {
        given g = list_with(rows[i].list[0] ? list_of(rows[i].list) : aclck_bytes_of("\0\0\0\0", 4), 0);
        const aclck_bytes after = list_of(rows[i].after);
        g.mode = rows[i].mode;
        writes(set_mode, &g, 1, after.at, after.len);
    }
    given g = list_with(aclck_bytes_of("\0\0\0\0", 4), 0);
    g.mode = 01000;
    is_bad(set_mode, &g, 1);
}

static void are_names_exchanged_by_hand(void) {
    const aclck_renaming rows[] = {{aclck_string("bob"), aclck_string("rob"), 0},
                                   {aclck_string("staff"), aclck_string("crew"), 1},
                                   {aclck_string("eve"), aclck_string("bob"), 0}};
    const aclck_renaming to_eve[] = {{aclck_string("bob"), aclck_string("eve"), 0}};
    const aclck_bytes list = list_of("ALLOW - READ_DATA bob\nDENY GROUP READ_DATA bob\nALLOW GROUP READ_DATA staff\n"
                                     "ALLOW - WRITE_DATA eve\nALLOW - READ_DATA OWNER@\nALLOW - READ_DATA staff\n");
    const aclck_bytes after = list_of("ALLOW - READ_DATA rob\nDENY GROUP READ_DATA bob\nALLOW GROUP READ_DATA crew\n"
                                      "ALLOW - WRITE_DATA bob\nALLOW - READ_DATA OWNER@\nALLOW - READ_DATA staff\n");
    const aclck_bytes merged = list_of("ALLOW - READ_DATA eve\nDENY GROUP READ_DATA bob\nALLOW GROUP READ_DATA staff\n"
                                       "ALLOW - WRITE_DATA eve\nALLOW - READ_DATA OWNER@\nALLOW - READ_DATA staff\n");
    given g = list_with(list, 0);
    g.table.at = rows;
    g.table.len = 3;
    writes(exchange, &g, 1, after.at, after.len);
    g.options = ACLCK_MAY_MERGE;
    writes(exchange, &g, 1, after.at, after.len);
    g.table.at = to_eve;
    g.table.len = 1;
    writes(exchange, &g, 1, merged.at, merged.len);
    g.options = ACLCK_FULL;
    const aclck_fault fault = {3, 0, 0, ACLCK_MERGED, 0, 0, 0};
    refuses(exchange, &g, 1, fault);
}

static void are_owners_named_by_hand(void) {
    const aclck_bytes list = list_of("DENY GROUP READ_DATA bob\nALLOW FILE|GROUP READ_DATA OWNER@\n"
                                     "ALLOW - WRITE_DATA GROUP@\nALLOW - READ_DATA EVERYONE@\n");
    const aclck_bytes after = list_of("DENY GROUP READ_DATA bob\nALLOW FILE READ_DATA bob\n"
                                      "ALLOW GROUP WRITE_DATA staff\nALLOW - READ_DATA EVERYONE@\n");
    const aclck_fault owner = {1, 0, 0, ACLCK_UNKNOWN_NAME, 0, 0, 0}, group = {2, 0, 0, ACLCK_UNKNOWN_NAME, 0, 0, 0};
    given g = list_with(list, 0);
    writes(name_owner, &g, 1, after.at, after.len);
    g.object.group = aclck_string("x@");
    refuses(name_owner, &g, 1, group);
    g.object.owner = aclck_string("EVERYONE@");
    refuses(name_owner, &g, 1, owner);
    g.object.owner = aclck_string("");
    is_bad(name_owner, &g, 1);
}

static void are_bad_names_refused(void) {
    const aclck_bytes bob = aclck_string("bob"), eve = aclck_string("eve"), none = aclck_string("");
    const aclck_renaming rows[][2] = {
        {{none, bob, 0}, {eve, bob, 1}},
        {{bob, none, 0}, {eve, bob, 1}},
        {{aclck_string("OWNER@"), bob, 0}, {eve, bob, 1}},
        {{bob, aclck_string("EVERYONE@"), 1}, {eve, bob, 1}},
        {{bob, aclck_string("x@"), 0}, {eve, bob, 1}},
        {{bob, aclck_string("a\nb"), 0}, {eve, bob, 1}},
        {{bob, aclck_string("\xff"), 0}, {eve, bob, 1}},
        {{bob, eve, 0}, {bob, aclck_string("rob"), 0}},
        {{bob, eve, 1}, {bob, eve, 1}},
        {{bob, eve, 2}, {eve, bob, 1}},
    };
    for (size_t i = 0; i < sizeof rows / sizeof *rows; i++) {
        given g = list_with(aclck_bytes_of("\0\0\0\0", 4), 0);
        g.table.at = rows[i];
        g.table.len = 2;
        is_bad(exchange, &g, 1);
    }
}

/* The faults of ACEs, each with the place of the ACE. The first of two faults counts. */
static void are_wrong_aces_refused(void) {
    static char long_who[1026];
    memset(long_who, 'a', sizeof long_who - 1);
    const aclck_ace good = {ACLCK_ALLOW, 0, ACLCK_READ_DATA, aclck_string("bob")};
    const struct {
        aclck_ace ace;
        uint32_t options, reason;
    } rows[] = {
        {{2, 0, 1, good.who}, 0, ACLCK_AUDIT_OR_ALARM},
        {{3, 0, 1, good.who}, 0, ACLCK_AUDIT_OR_ALARM},
        {{4, 0, 1, good.who}, 0, ACLCK_ACE_TYPE},
        {{0, 0x100, 1, good.who}, 0, ACLCK_FLAG_BITS},
        {{0, ACLCK_INHERITED, 1, good.who}, ACLCK_NARROW, ACLCK_FLAG_BITS},
        {{0, 0, 0x800, good.who}, 0, ACLCK_MASK_BITS},
        {{0, 0, ACLCK_WRITE_RETENTION, good.who}, ACLCK_NARROW, ACLCK_MASK_BITS},
        {{0, 0, 1, aclck_string("")}, 0, ACLCK_WHO_LENGTH},
        {{0, 0, 1, aclck_string(long_who)}, 0, ACLCK_WHO_LENGTH},
        {{0, 0, 1, aclck_string("\xff")}, 0, ACLCK_WHO_UTF8},
        {{0, 0, 1, aclck_string("a\tb")}, 0, ACLCK_WHO_CONTROL},
        {{0, 0, 1, aclck_string("INTERACTIVE@")}, 0, ACLCK_SPECIAL_WHO},
    };
    for (size_t i = 0; i < sizeof rows / sizeof *rows; i++) {
        const aclck_ace aces[] = {good, good, rows[i].ace, rows[(i + 1) % (sizeof rows / sizeof *rows)].ace};
        const aclck_fault fault = {2, 0, 0, rows[i].reason, 0, 0, 0};
        given g = list_with(good.who, rows[i].options);
        g.aces.at = aces;
        g.aces.len = 4;
        refuses(build, &g, 1, fault);
    }
    enum { LIMIT = 65536, HEAVY_ACES = 4096 };
    aclck_ace *many = malloc((LIMIT + 1) * sizeof *many);
    given g = list_with(good.who, 0);
    const aclck_fault long_fault = {LIMIT, 0, 0, ACLCK_TOO_MANY_ACES, 0, 0, 0};
    const aclck_fault heavy_fault = {HEAVY_ACES, 0, 0, ACLCK_TOO_HEAVY, 0, 0, 0};
    written w;
    g.aces.at = many;
    for (size_t i = 0; i <= LIMIT; i++)
        many[i] = good;
    g.aces.len = LIMIT + 1;
    w = call(build, &g, 1, 64);
    EXPECT(w.status == ACLCK_REFUSED && memcmp(&w.fault, &long_fault, sizeof w.fault) == 0);
    free(w.room);
    for (size_t i = 0; i < HEAVY_ACES; i++)
        many[i].mask = ACLCK_ALL_RIGHTS;
    g.aces.len = HEAVY_ACES + 1;
    w = call(build, &g, 1, 64);
    EXPECT(w.status == ACLCK_REFUSED && memcmp(&w.fault, &heavy_fault, sizeof w.fault) == 0);
    free(w.room);
    free(many);
}

/* ALLOW READ X@, DENY WRITE X@, ALLOW WRITE EVERYONE@: each of the two rights may be granted, and both never are. */
static void are_unknown_names_answered_by_hand(void) {
    unsigned char bytes[256], *at = put_word(bytes, 4);
    const aclck_object object = {aclck_string("a"), aclck_string("s")};
    const aclck_requester bob = aclck_requester_of(aclck_string("bob"), NULL, 0);
    const struct {
        uint32_t mask, allowed, denied, unknown, request;
    } rows[] = {
        {1, 0, 0, 1, ACLCK_DEPENDS}, {2, 0, 0, 2, ACLCK_DEPENDS}, {3, 0, 0, 3, ACLCK_NEVER},
        {4, 0, 0, 0, ACLCK_NEVER},   {0, 0, 0, 0, ACLCK_ALWAYS},  {5, 0, 0, 1, ACLCK_NEVER},
    };
    at = put_ace(at, 2, ACLCK_SUCCESSFUL_ACCESS, 7, "EVERYONE@");
    at = put_ace(at, ACLCK_ALLOW, 0, 1, "INTERACTIVE@");
    at = put_ace(at, ACLCK_DENY, 0, 2, "INTERACTIVE@");
    at = put_ace(at, ACLCK_ALLOW, 0, 2, "EVERYONE@");
    for (size_t i = 0; i < sizeof rows / sizeof *rows; i++) {
        const aclck_question question = asks(rows[i].mask, 0);
        const aclck_possible wanted = {rows[i].allowed, rows[i].denied, rows[i].unknown, rows[i].request, 1};
        aclck_possible found;
        aclck_fault fault = no_fault();
        EXPECT(aclck_decide_unknown(aclck_bytes_of(bytes, (size_t)(at - bytes)), &object, &bob, &question, &found,
                                    &fault) == ACLCK_DONE);
        EXPECT(memcmp(&found, &wanted, sizeof wanted) == 0);
#ifdef REFUSE
        for (long refuse = 0;; refuse++) {
            long before = memory.held;
            enum aclck_status status;
            int all;
            memset(&found, 0xee, sizeof found);
            memory.left = refuse;
            status = aclck_decide_unknown(aclck_bytes_of(bytes, (size_t)(at - bytes)), &object, &bob, &question,
                                          &found, &fault);
            all = memory.left >= 0;
            memory.left = -1;
            EXPECT(memory.held == before);
            EXPECT(status == ACLCK_MEMORY ? !all && is_nothing_possible(&found)
                                          : memcmp(&found, &wanted, sizeof wanted) == 0);
            if (all)
                break;
        }
#endif
    }
}

enum { LONG = 5000 };

/* Asks for READ_DATA|WRITE_DATA of a list that begins with one ACE many times and ends with another. */
static void is_long_list_answered(uint32_t kind, uint32_t mask, uint32_t last_kind, uint32_t last_mask,
                                  aclck_possible wanted) {
    static unsigned char bytes[(LONG + 1) * 32];
    const aclck_object object = {aclck_string("a"), aclck_string("s")};
    const aclck_requester bob = aclck_requester_of(aclck_string("bob"), NULL, 0);
    const aclck_question question = asks(3, 0);
    unsigned char *at = put_word(bytes, LONG + 1);
    aclck_possible found;
    aclck_fault fault = no_fault();
    for (int i = 0; i < LONG; i++)
        at = put_ace(at, kind, 0, mask, "INTERACTIVE@");
    at = put_ace(at, last_kind, 0, last_mask, "EVERYONE@");
    EXPECT(aclck_decide_unknown(aclck_bytes_of(bytes, (size_t)(at - bytes)), &object, &bob, &question, &found,
                                &fault) == ACLCK_DONE);
    EXPECT(memcmp(&found, &wanted, sizeof wanted) == 0);
}

/* Lists of more ACEs than 4,096, and tables of more names: no call gives up. */
static void are_long_lists_answered_by_hand(void) {
    static char names[2][LONG][8];
    static aclck_renaming rows[LONG];
    const aclck_possible always = {3, 0, 0, ACLCK_ALWAYS, 0}, never = {0, 2, 1, ACLCK_NEVER, 0},
                         depends = {1, 0, 2, ACLCK_DEPENDS, 0};
    const aclck_bytes after = list_of("ALLOW - READ_DATA v4999\nALLOW - READ_DATA v0\nALLOW - READ_DATA w\n");
    is_long_list_answered(ACLCK_ALLOW, 1, ACLCK_ALLOW, 3, always);
    is_long_list_answered(ACLCK_ALLOW, 1, ACLCK_DENY, 2, never);
    is_long_list_answered(ACLCK_DENY, 2, ACLCK_ALLOW, 3, depends);
    for (size_t i = 0; i < LONG; i++) {
        snprintf(names[0][i], sizeof names[0][i], "u%zu", i);
        snprintf(names[1][i], sizeof names[1][i], "v%zu", i);
        rows[i] = (aclck_renaming){aclck_string(names[0][i]), aclck_string(names[1][i]), 0};
    }
    given g = list_with(list_of("ALLOW - READ_DATA u4999\nALLOW - READ_DATA u0\nALLOW - READ_DATA w\n"), 0);
    g.table.at = rows;
    g.table.len = LONG;
    writes(exchange, &g, 1, after.at, after.len);
}

/* The bytes of both forms, by crates/acl_eval/specs/Prepared.antt and PreparedIds.antt: another form has another start.
   The number in front of a name, 181 or 8, is a key of its bytes. */
static void are_prepared_bytes_those_of_the_form(void) {
    static const char named[] = "aclprep1\1\0\0\0\2\265\3\0bob\1\0\0\0\7\10\5\0users\1\0\0\0\10\0\0\0",
                      numbered[] = "aclpids1\1\0\0\40\351\3\0\0\1\0\0\160\7\0\0\0\1\0\0\200\0\0\0\0";
    const aclck_name rows[] = {{aclck_string("bob"), 1001, 0}, {aclck_string("users"), 7, 1}};
    given g = list_with(list_of("ALLOW - READ_DATA bob\nDENY GROUP READ_DATA users\nALLOW - READ_DATA EVERYONE@\n"), 0);
    writes(prepare, &g, 1, named, sizeof named - 1);
    g.names.at = rows;
    g.names.len = 2;
    writes(prepare_ids, &g, 1, numbered, sizeof numbered - 1);
}

static void are_groups_put_for_names_by_hand(void) {
    unsigned char bytes[256], *at = put_word(bytes, 4);
    const aclck_bytes after = list_of("DENY GROUP WRITE_DATA NOW@?\nALLOW GROUP READ_DATA NOW@?\n"
                                      "ALLOW GROUP READ_DATA NOW@!\n");
    const aclck_fault misnamed = {0, 0, 0, ACLCK_UNKNOWN_NAME, 0, 0, 0}, taken = {2, 0, 0, ACLCK_MERGED, 0, 0, 0};
    at = put_ace(at, 2, 0, 1, "NOW@");
    at = put_ace(at, ACLCK_DENY, 0, 2, "NOW@");
    at = put_ace(at, ACLCK_ALLOW, ACLCK_IDENTIFIER_GROUP, 1, "NOW@");
    at = put_ace(at, ACLCK_ALLOW, ACLCK_IDENTIFIER_GROUP, 1, "NOW@!");
    given g = list_with(aclck_bytes_of(bytes, (size_t)(at - bytes)), 0);
    writes(name_groups, &g, 1, after.at, after.len);
    g.suffix = aclck_string("!");
    refuses(name_groups, &g, 1, taken);
    g.suffix = aclck_string("@");
    refuses(name_groups, &g, 1, misnamed);
    g.suffix = aclck_string("");
    refuses(name_groups, &g, 1, misnamed);
    g.acl = aclck_bytes_of(bytes, 7);
    const aclck_fault cut = {4, 0, 0, ACLCK_TRUNCATED, 0, 0, 0};
    refuses(name_groups, &g, 1, cut);
}

/* RFC 8881, section 6.2.1: a right of an ALLOW goes if the DENYs before it, and then it, grant it to somebody whom the
   bound denies it. Nobody is two users; a user may be the owner, and a member of every group. */
static void are_lists_restricted_by_hand(void) {
    static const char no_bob[] = "DENY - READ_DATA bob\nALLOW - READ_DATA EVERYONE@\n",
                      no_temps[] = "DENY GROUP READ_DATA temps\nALLOW - READ_DATA EVERYONE@\n";
    static const struct {
        const char *list, *bound, *left;
    } rows[] = {
        {"ALLOW - READ_DATA|WRITE_DATA amy\nALLOW - READ_DATA EVERYONE@\n",
         "DENY - WRITE_DATA amy\nALLOW - READ_DATA|WRITE_DATA EVERYONE@\n",
         "ALLOW - READ_DATA amy\nALLOW - READ_DATA EVERYONE@\n"},
        {"ALLOW - READ_DATA|WRITE_DATA bob\nDENY - READ_DATA bob\n", "ALLOW - WRITE_DATA bob\n",
         "ALLOW - WRITE_DATA bob\nDENY - READ_DATA bob\n"},
        {"ALLOW - READ_DATA EVERYONE@\nDENY - READ_DATA bob\nALLOW - READ_DATA EVERYONE@\n", no_bob,
         "ALLOW - - EVERYONE@\nDENY - READ_DATA bob\nALLOW - READ_DATA EVERYONE@\n"},
        {"ALLOW GROUP READ_DATA staff\nDENY GROUP READ_DATA temps\nALLOW GROUP READ_DATA staff\n", no_temps,
         "ALLOW GROUP - staff\nDENY GROUP READ_DATA temps\nALLOW GROUP READ_DATA staff\n"},
        {"ALLOW - READ_DATA amy\n", no_bob, "ALLOW - READ_DATA amy\n"},
        {"ALLOW - READ_DATA OWNER@\nALLOW - READ_DATA bob\n", no_bob, "ALLOW - - OWNER@\nALLOW - - bob\n"},
        {"ALLOW GROUP READ_DATA staff\n", "ALLOW GROUP READ_DATA staff\nDENY GROUP READ_DATA temps\n",
         "ALLOW GROUP READ_DATA staff\n"},
        {"ALLOW FILE|INHERITONLY WRITE_DATA bob\n", no_bob, "ALLOW FILE|INHERITONLY WRITE_DATA bob\n"},
    };
    const aclck_fault cut = {4, 0, 0, ACLCK_TRUNCATED, 0, 0, 0}, cut_bound = {4, 0, 0, ACLCK_TRUNCATED, 1, 0, 0};
    given g = list_with(list_of("ALLOW - READ_DATA|WRITE_DATA EVERYONE@\n"), 0);
    const aclck_bytes nothing = list_of("ALLOW - - EVERYONE@\n");
    writes(keep_under, &g, 1, nothing.at, nothing.len);
    g.bound = aclck_bytes_of("\0\0\0\1\0\0", 6);
    refuses(keep_under, &g, 1, cut_bound);
    g.acl = g.bound;
    refuses(keep_under, &g, 1, cut);
    for (size_t i = 0; i < sizeof rows / sizeof *rows; i++) {
        const aclck_bytes left = list_of(rows[i].left);
        g = list_with(list_of(rows[i].list), 0);
        g.bound = list_of(rows[i].bound);
        writes(keep_under, &g, 1, left.at, left.len);
        g.options = ACLCK_NARROW;
        writes(keep_under, &g, 1, left.at, left.len);
    }
}

/* RFC 8881, section 6.4.3: FILE_INHERIT is about new files, DIRECTORY_INHERIT about new directories, INHERIT_ONLY about
   all but the object, and with NO_PROPAGATE_INHERIT what is created in a new directory inherits nothing. */
static void are_new_objects_restricted_by_hand(void) {
    static const struct {
        const char *list, *bound, *left;
    } rows[] = {
        {"ALLOW FILE|INHERITONLY READ_DATA|WRITE_DATA bob\n", "ALLOW FILE READ_DATA EVERYONE@\n",
         "ALLOW FILE|INHERITONLY READ_DATA bob\n"},
        {"ALLOW FILE|INHERITONLY READ_DATA bob\n", "ALLOW DIR READ_DATA EVERYONE@\n",
         "ALLOW FILE|INHERITONLY - bob\n"},
        {"ALLOW DIR|INHERITONLY READ_DATA bob\n", "ALLOW DIR|NOPROP READ_DATA EVERYONE@\n",
         "ALLOW DIR|INHERITONLY - bob\n"},
        {"ALLOW FILE|DIR|NOPROP|INHERITONLY READ_DATA bob\n", "ALLOW FILE|DIR|NOPROP READ_DATA EVERYONE@\n",
         "ALLOW FILE|DIR|NOPROP|INHERITONLY READ_DATA bob\n"},
        {"ALLOW FILE READ_DATA bob\n", "ALLOW - READ_DATA EVERYONE@\n", "ALLOW FILE - bob\n"},
        {"ALLOW - READ_DATA bob\n", "ALLOW FILE|DIR|INHERITONLY READ_DATA EVERYONE@\n", "ALLOW - - bob\n"},
        {"DENY FILE|INHERITONLY READ_DATA bob\nALLOW FILE READ_DATA EVERYONE@\n",
         "DENY FILE READ_DATA bob\nALLOW FILE READ_DATA EVERYONE@\n",
         "DENY FILE|INHERITONLY READ_DATA bob\nALLOW FILE - EVERYONE@\n"},
        {"DENY FILE READ_DATA bob\nALLOW FILE|DIR READ_DATA amy\n",
         "DENY FILE READ_DATA bob\nALLOW FILE|DIR READ_DATA EVERYONE@\n",
         "DENY FILE READ_DATA bob\nALLOW FILE|DIR READ_DATA amy\n"},
    };
    for (size_t i = 0; i < sizeof rows / sizeof *rows; i++) {
        const aclck_bytes left = list_of(rows[i].left);
        given g = list_with(list_of(rows[i].list), 0);
        g.bound = list_of(rows[i].bound);
        writes(keep_everywhere, &g, 1, left.at, left.len);
    }
}

/* RFC 4506, section 4.10. */
static unsigned char *put_name(unsigned char *at, const char *name, size_t len) {
    const size_t padded = (len + 3) / 4 * 4;
    at = put_word(at, (uint32_t)len);
    memset(at, 0, padded);
    memcpy(at, name, len);
    return at + padded;
}

/* Writes the questions of the text, in which a comma is behind each: the owner, the owning group, the user and the
   groups. Returns the number of bytes. */
static size_t put_questions(unsigned char *bytes, const char *text) {
    unsigned char *at = bytes + 4, *groups_at = at;
    uint32_t count = 0;
    for (; *text; text++, count++) {
        uint32_t names = 0;
        while (*text != ',') {
            const size_t len = strcspn(text, " ,");
            at = put_name(at, text, len);
            text += len + (text[len] == ' ');
            if (++names == 3) {
                groups_at = at;
                at += 4;
            }
        }
        put_word(groups_at, names - 3);
    }
    put_word(bytes, count);
    return (size_t)(at - bytes);
}

/* Docs/reference/lists.md, "Comparison". */
static void are_questions_asked_by_hand(void) {
    static const struct {
        const char *list, *asked;
        uint32_t count;
    } rows[] = {
        {"", "o g u,", 1},
        {"ALLOW - READ_DATA EVERYONE@\nDENY FILE|INHERITONLY WRITE_DATA bob\n", "o g u,", 1},
        {"ALLOW - - OWNER@\nDENY - READ_DATA OWNER@\n", "o g u,u g u,", 2},
        {"ALLOW - READ_DATA GROUP@\nALLOW - READ_DATA OWNER@\n", "o g u,u g u,o g u g,u g u g,", 4},
        {"ALLOW - READ_DATA bo\nDENY - READ_DATA al\n", "ooo ggg uuu,ooo ggg al,ooo ggg bo,", 3},
        {"ALLOW GROUP READ_DATA staff\nALLOW - READ_DATA amy\n",
         "oooooo gggggg uuuuuu,oooooo gggggg amy,oooooo gggggg uuuuuu staff,oooooo gggggg amy staff,", 4},
        {"ALLOW GROUP READ_DATA b\nDENY GROUP READ_DATA a\n", "oo gg uu,oo gg uu a,oo gg uu b,oo gg uu a b,", 4},
        {"ALLOW GROUP READ_DATA a\nDENY - READ_DATA GROUP@\n", "oo gg uu,oo gg uu gg,oo gg uu a,oo a uu a,", 4},
    };
    const aclck_fault cut = {4, 0, 0, ACLCK_TRUNCATED, 0, 0, 0};
    unsigned char bytes[512];
    for (size_t i = 0; i < sizeof rows / sizeof *rows; i++) {
        given g = list_with(list_of(rows[i].list), ACLCK_NARROW);
        const size_t len = put_questions(bytes, rows[i].asked);
        for (g.most = 0; g.most < rows[i].count; g.most++)
            refuses(ask, &g, 1, too_many);
        writes(ask, &g, 1, bytes, len);
        g.acl = aclck_bytes_of("\0\0\0\1\0\0", 6);
        g.most = 0;
        refuses(ask, &g, 1, cut);
    }
}

/* ---- forms of other systems */

/* The list and the text of it in nfs4_setfacl(1), "EXAMPLES". */
static const char of_the_manual[] = "A::OWNER@:rwatTnNcCy\nD::OWNER@:x\nA:g:GROUP@:rtncy\nD:g:GROUP@:waxTC\n"
                                    "A::EVERYONE@:rtncy\nD::EVERYONE@:waxTC\n";

static aclck_bytes list_of_the_manual(void) {
    return list_of("ALLOW - READ_DATA|WRITE_DATA|APPEND_DATA|READ_NAMED_ATTRS|WRITE_NAMED_ATTRS|READ_ATTRIBUTES|"
                   "WRITE_ATTRIBUTES|READ_ACL|WRITE_ACL|SYNCHRONIZE OWNER@\n"
                   "DENY - EXECUTE OWNER@\n"
                   "ALLOW GROUP READ_DATA|READ_NAMED_ATTRS|READ_ATTRIBUTES|READ_ACL|SYNCHRONIZE GROUP@\n"
                   "DENY GROUP WRITE_DATA|APPEND_DATA|EXECUTE|WRITE_ATTRIBUTES|WRITE_ACL GROUP@\n"
                   "ALLOW - READ_DATA|READ_NAMED_ATTRS|READ_ATTRIBUTES|READ_ACL|SYNCHRONIZE EVERYONE@\n"
                   "DENY - WRITE_DATA|APPEND_DATA|EXECUTE|WRITE_ATTRIBUTES|WRITE_ACL EVERYONE@\n");
}

/* The value is read as the flags and the list. */
static void is_read(enum aclck_form form, aclck_bytes value, uint32_t flags, aclck_bytes list) {
    given g = list_with(value, 0);
    uint32_t found = 77;
    g.form = form;
    g.flags_read = &found;
    writes(read_form, &g, 1, list.at, list.len);
    EXPECT(found == flags);
}

/* The value is read as the flags and the list, and these are written as the value. */
static void is_read_and_written(enum aclck_form form, aclck_bytes value, uint32_t flags, aclck_bytes list) {
    given g = list_with(list, 0);
    is_read(form, value, flags, list);
    g.form = form;
    g.flags = flags;
    writes(write_form, &g, 1, value.at, value.len);
}

static void is_not_read(enum aclck_form form, aclck_bytes value, uint32_t reason, uint64_t offset) {
    const aclck_fault fault = {offset, 0, 0, reason, 0, 0, 0};
    given g = list_with(value, 0);
    uint32_t found = 77;
    g.form = form;
    g.flags_read = &found;
    refuses(read_form, &g, 1, fault);
    EXPECT(found == 77);
}

static void is_not_written(enum aclck_form form, aclck_bytes list, uint32_t flags, uint32_t reason, uint64_t place) {
    const aclck_fault fault = {place, 0, 0, reason, 0, 0, 0};
    given g = list_with(list, 0);
    g.form = form;
    g.flags = flags;
    refuses(write_form, &g, 1, fault);
}

/* RFC 8881, section 6.2.2: the attribute dacl is a word of flags and a list. In Samba's source3/modules/nfs41acl.x an
   ACE has five words: type, flags, 1 for a special who, mask, and its number (OWNER@ is 1) or the id. The last texts
   are those that libarchive 3.6.2 prints in its four styles and with ids; it ends no text with a line feed. */
static void are_forms_read_and_written_by_hand(void) {
    const int styles[] = {0, ACLCK_FORM_COMMAS, ACLCK_FORM_FULL, ACLCK_FORM_COMMAS | ACLCK_FORM_FULL};
    const char *const printed[] = {"owner@:x::deny\ngroup:20:r::allow:20\n", "owner@:x::deny,group:20:r::allow:20",
                                   "owner@:--x-----------:-------:deny\ngroup:20:r-------------:-------:allow:20\n",
                                   "owner@:--x-----------:-------:deny,group:20:r-------------:-------:allow:20"};
    const enum aclck_form texts[] = {ACLCK_NFS_TOOLS_FILE, ACLCK_NFS_TOOLS_DIRECTORY};
    const aclck_bytes list = list_of_the_manual(), two = list_of("DENY - EXECUTE OWNER@\nALLOW GROUP READ_DATA 20\n");
    const uint32_t words[] = {ACLCK_PROTECTED, 2, ACLCK_DENY, 0, 1, ACLCK_EXECUTE, 1,
                              ACLCK_ALLOW, ACLCK_IDENTIFIER_GROUP, 0, ACLCK_READ_DATA, 20};
    unsigned char bytes[512], *at;
    for (int i = 0; i < 2; i++) {
        is_read_and_written(texts[i], aclck_string(of_the_manual), 0, list);
        is_read(texts[i], aclck_string("A::bob:X# the alias of xtcy\n"), 0,
                list_of("ALLOW - EXECUTE|READ_ATTRIBUTES|READ_ACL|SYNCHRONIZE bob\n"));
    }
    is_read_and_written(ACLCK_NFS_TOOLS_DIRECTORY, aclck_string("A:fdg:staff:D\n"), 0,
                        list_of("ALLOW FILE|DIR|GROUP DELETE_CHILD staff\n"));
    at = put_word(bytes, ACLCK_AUTO_INHERIT | ACLCK_DEFAULTED);
    memcpy(at, list.at, list.len);
    is_read_and_written(ACLCK_NFS_ACL41, aclck_bytes_of(bytes, 4 + list.len), ACLCK_AUTO_INHERIT | ACLCK_DEFAULTED,
                        list);
    at = bytes;
    for (size_t i = 0; i < sizeof words / sizeof *words; i++)
        at = put_word(at, words[i]);
    is_read_and_written(ACLCK_NFS_ACL41_IDS, aclck_bytes_of(bytes, (size_t)(at - bytes)), ACLCK_PROTECTED, two);
    for (int i = 0; i < 8; i++) {
        const enum aclck_form form = (enum aclck_form)((i % 2 ? ACLCK_NFS_TEXT_IDS : ACLCK_NFS_TEXT) | styles[i / 2]);
        is_read_and_written(form, aclck_string(printed[i / 2]), 0, two);
        is_read(form, aclck_string(" user:joe : -rx : : allow # bob's\n"), 0,
                list_of("ALLOW - READ_DATA|EXECUTE joe\n"));
        is_read(form, aclck_string("group:staff:rx::allow:20"), 0,
                list_of(i % 2 ? "ALLOW GROUP READ_DATA|EXECUTE 20\n" : "ALLOW GROUP READ_DATA|EXECUTE staff\n"));
    }
}

static void are_other_values_refused(void) {
    const enum aclck_form xdr[] = {ACLCK_NFS_ACL41, ACLCK_NFS_ACL41_IDS};
    is_not_read(ACLCK_NFS_TOOLS_FILE, aclck_string("A:f:bob:r"), ACLCK_NOT_DIRECTORY, 2);
    is_not_read(ACLCK_NFS_TOOLS_FILE, aclck_string(""), ACLCK_EMPTY, 0);
    is_not_read(ACLCK_NFS_TOOLS_FILE, aclck_string("A::bob:r\nA::eve"), ACLCK_FIELDS, 9);
    is_not_read(ACLCK_NFS_TOOLS_FILE, aclck_string("A::bob:rq"), ACLCK_MASK, 8);
    is_not_read(ACLCK_NFS_TOOLS_FILE, aclck_string("A:q:bob:r"), ACLCK_FLAG, 2);
    is_not_read(ACLCK_NFS_TOOLS_FILE, aclck_string("# a,b"), ACLCK_COMMENT, 3);
    is_not_read(ACLCK_NFS_TOOLS_DIRECTORY, aclck_bytes_of("A::bob:r\0", 9), ACLCK_NUL, 8);
    is_not_read(ACLCK_NFS_TOOLS_DIRECTORY, aclck_string("U:S:bob:r"), ACLCK_AUDIT_OR_ALARM, 0);
    for (int i = 0; i < 2; i++) {
        is_not_read(xdr[i], aclck_bytes_of("\0\0\0\010\0\0\0\0", 8), ACLCK_ACL_FLAG_BITS, 0);
        is_not_read(xdr[i], aclck_bytes_of("\0\0\0\1\0\0\0", 7), ACLCK_TRUNCATED, 4);
        is_not_read(xdr[i], aclck_bytes_of("\0\0\0\1\0\0\0\0\0", 9), ACLCK_TRAILING_BYTES, 8);
    }
    is_not_read(ACLCK_NFS_ACL41_IDS, aclck_bytes_of("\0\0\0\0\0\0\0\1\0\0\0\0\0\0\0\0\0\0\0\2", 20),
                ACLCK_IFLAG_BITS, 16);
    is_not_read(ACLCK_NFS_TEXT, aclck_string("user:7:r::allow:8"), ACLCK_ID_DIFFERS, 16);
    is_not_read(ACLCK_NFS_TEXT_IDS, aclck_string("user:bob:r::allow:x"), ACLCK_ID, 18);
    is_not_read((enum aclck_form)(ACLCK_NFS_TEXT | ACLCK_FORM_FULL), aclck_string("user:bob:ry::allow"), ACLCK_MASK,
                10);
}

/* The number, the place and the reason of each ACE that is left out, as the layouts of RFC 8881 and of nfs41acl.x have
   them: AUDIT bob, ALLOW alice, ALLOW NOW@; and ALLOW of the special identifier 9, DENY of the group 20. */
static void are_aces_left_out(void) {
    char named[] = "\0\0\0\2\0\0\0\3\0\0\0\2\0\0\0\20\0\0\0\2\0\0\0\3bob\0\0\0\0\0\0\0\0\0\0\0\0\1\0\0\0\5alice"
                         "\0\0\0\0\0\0\0\0\0\0\0\0\0\0\1\0\0\0\4NOW@";
    char numbered[] = "\0\0\0\0\0\0\0\2\0\0\0\0\0\0\0\0\0\0\0\1\0\0\0\1\0\0\0\11\0\0\0\1\0\0\0\100\0\0\0\0"
                            "\0\0\0\1\0\0\0\24";
    const aclck_bytes values[] = {aclck_bytes_of(named, sizeof named - 1),
                                  aclck_bytes_of(numbered, sizeof numbered - 1)};
    const aclck_bytes lists[] = {list_of("ALLOW - READ_DATA alice\n"), list_of("DENY GROUP READ_DATA 20\n")};
    const aclck_left_out wanted[][2] = {{{0, 8, ACLCK_AUDIT_OR_ALARM}, {2, 52, ACLCK_SPECIAL_WHO}},
                                        {{0, 8, ACLCK_SPECIAL_WHO}, {0, 0, 0}}};
    const enum aclck_form forms[] = {ACLCK_NFS_ACL41, ACLCK_NFS_ACL41_IDS};
    for (int i = 0; i < 2; i++) {
        const size_t count = i ? 1 : 2;
        unsigned char room[512] = {7};
        aclck_left_out at[2] = {{7, 7, 7}, {7, 7, 7}};
        aclck_left_outs left = {at, count - 1};
        aclck_buffer out = aclck_buffer_of(room, sizeof room);
        aclck_fault fault = {0, 0, 0, 77, 0, 0, 0};
        aclck_list_part part = {77, 77, 77};
        EXPECT(aclck_read_part(values[i], (enum aclck_form)9, &part, out, left, &fault) == ACLCK_BAD_ARGUMENT);
        EXPECT(part.needed == 77 && part.left_out == 77 && part.flags == 77);
        EXPECT(aclck_read_part(values[i], forms[i], &part, out, left, &fault) == ACLCK_SHORT);
        EXPECT(part.needed == lists[i].len && part.left_out == count && at[0].place == 7 && room[0] == 7);
        left.cap = count;
        EXPECT(!aclck_read_part(values[i], forms[i], &part, out, left, &fault) && fault.reason == 77);
        EXPECT(part.needed == lists[i].len && !memcmp(room, lists[i].at, lists[i].len));
        EXPECT(part.left_out == count && part.flags == (i ? 0 : ACLCK_PROTECTED));
        for (size_t k = 0; k < count; k++)
            EXPECT(at[k].place == wanted[i][k].place && at[k].offset == wanted[i][k].offset &&
                   at[k].reason == wanted[i][k].reason);
        out.cap = lists[i].len - 1;
        EXPECT(aclck_read_part(values[i], forms[i], &part, out, left, &fault) == ACLCK_SHORT);
    }
    numbered[11] = 1;
    aclck_fault fault;
    aclck_list_part part;
    EXPECT(aclck_read_part(values[1], forms[1], &part, aclck_buffer_of(NULL, 0), (aclck_left_outs){NULL, 0}, &fault) ==
           ACLCK_REFUSED);
    EXPECT(fault.reason == ACLCK_SPECIAL_WHO && fault.offset == 24);
}

static void are_lists_kept_out_of_forms(void) {
    const enum aclck_form all[] = {ACLCK_NFS_TOOLS_FILE, ACLCK_NFS_TOOLS_DIRECTORY, ACLCK_NFS_TEXT,
                                   ACLCK_NFS_TEXT_IDS, ACLCK_NFS_ACL41, ACLCK_NFS_ACL41_IDS};
    const uint32_t others[] = {0, 7, 8, ACLCK_NFS_ACL41 | ACLCK_FORM_COMMAS, ACLCK_FORM_FULL, ACLCK_NFS_TEXT | 64};
    const aclck_bytes bob = list_of("ALLOW - READ_DATA 7\nALLOW - READ_DATA bob\n");
    for (int i = 0; i < 6; i++) {
        uint32_t found = 77;
        given g = list_with(bob, 0);
        is_not_written(all[i], aclck_bytes_of("\0\0\0\1\0\0", 6), 0, ACLCK_TRUNCATED, 4);
        g.form = all[i];
        g.flags = 8;
        is_bad(write_form, &g, 1);
        g.form = (enum aclck_form)others[i];
        g.flags = 0;
        g.flags_read = &found;
        is_bad(write_form, &g, 1);
        is_bad(read_form, &g, 1);
        EXPECT(found == 77);
    }
    for (int i = 0; i < 4; i++) {
        is_not_written(all[i], bob, ACLCK_PROTECTED, ACLCK_ACL_FLAGS, 0);
        is_not_written(all[i], list_of("ALLOW - READ_DATA bob\nDENY - WRITE_RETENTION bob\n"), 0, ACLCK_RETENTION, 1);
        is_not_written(all[i], list_of("ALLOW - READ_DATA a:b\n"), 0, ACLCK_SEPARATOR, 0);
    }
    for (int i = 0; i < 2; i++) {
        is_not_written(all[i], aclck_bytes_of("\0\0\0\0", 4), 0, ACLCK_EMPTY, 0);
        is_not_written(all[i], list_of("ALLOW INHERITED READ_DATA bob\n"), 0, ACLCK_INHERITED_ACE, 0);
    }
    is_not_written(ACLCK_NFS_TEXT, list_of("ALLOW - READ_DATA bob \n"), 0, ACLCK_SEPARATOR, 0);
    is_not_written(ACLCK_NFS_TEXT, list_of("ALLOW - READ_DATA 2147483648\n"), 0, ACLCK_ID, 0);
    is_not_written(ACLCK_NFS_TOOLS_FILE, list_of("ALLOW FILE READ_DATA bob\n"), 0, ACLCK_NOT_DIRECTORY, 0);
    is_not_written(ACLCK_NFS_ACL41_IDS, bob, ACLCK_PROTECTED, ACLCK_NO_ID, 1);
}

/* ---- arguments without a meaning */

/* The calls that decide are closed by an argument that is bad. */
static void are_questions_closed(const aclck_object *object, const aclck_requester *who, aclck_question question) {
    const aclck_bytes list = list_of("ALLOW - READ_DATA EVERYONE@\n");
    given g = list_with(list, 0);
    const aclck_bytes prepared = made(prepare, &g);
    const aclck_requester three[] = {*who, *who, *who};
    const aclck_requesters all = {three, 3};
    aclck_decided found = {77, 77}, many[3] = {{77, 77}, {77, 77}, {77, 77}};
    const aclck_decided_list room = {many, 3};
    aclck_possible possible = {77, 77, 77, 77, 77};
    aclck_fault fault = no_fault(), none = no_fault();
    EXPECT(aclck_decide_prepared(prepared, object, who, &question, &found) == ACLCK_BAD_ARGUMENT);
    EXPECT(!found.allowed && !found.denied);
    EXPECT(aclck_decide_prepared_many(prepared, object, all, &question, room) == ACLCK_BAD_ARGUMENT);
    for (int i = 0; i < 3; i++)
        EXPECT(!many[i].allowed && !many[i].denied);
    EXPECT(aclck_decide_unknown(list, object, who, &question, &possible, &fault) == ACLCK_BAD_ARGUMENT);
    EXPECT(is_nothing_possible(&possible) && memcmp(&fault, &none, sizeof fault) == 0);
}

static void are_bad_questions_refused(void) {
    static const aclck_bytes groups[] = {{"staff", 5}, {"", 0}};
    static const aclck_object them = {{"a", 1}, {"s", 1}}, no_owner = {{"", 0}, {"s", 1}},
                              no_group = {{"a", 1}, {"", 0}};
    static const aclck_requester bob = {{"bob", 3}, groups, 1}, no_user = {{"", 0}, groups, 1},
                                 no_group_name = {{"bob", 3}, groups, 2};
    static const uint32_t no_masks[] = {0x800, 0x8000, 0x200000, 0x80000000, 0xffffffff, ACLCK_NARROW};
    are_questions_closed(&no_owner, &bob, asks(1, 0));
    are_questions_closed(&no_group, &bob, asks(1, 0));
    are_questions_closed(&them, &no_user, asks(1, 0));
    are_questions_closed(&them, &no_group_name, asks(1, 0));
    for (size_t i = 0; i < sizeof no_masks / sizeof *no_masks; i++)
        are_questions_closed(&them, &bob, asks(no_masks[i], 0));
    for (int bit = 0; bit < 32; bit++) {
        const uint32_t option = (uint32_t)1 << bit;
        if (option != ACLCK_NARROW && option != ACLCK_GROUPS_IN_ORDER)
            are_questions_closed(&them, &bob, asks(1, option));
    }
}

/* As many answers as requesters, and neither fewer nor more. */
static void are_lengths_judged(void) {
    const aclck_object them = {aclck_string("a"), aclck_string("s")};
    const aclck_requester bob = aclck_requester_of(aclck_string("bob"), NULL, 0);
    const aclck_requester three[] = {bob, bob, bob};
    const aclck_requesters all = {three, 3};
    given g = list_with(list_of("ALLOW - READ_DATA EVERYONE@\n"), 0);
    const aclck_bytes prepared = made(prepare, &g);
    const aclck_question read = asks(1, 0);
    for (size_t count = 0; count < 6; count++) {
        aclck_decided many[6] = {{77, 77}, {77, 77}, {77, 77}, {77, 77}, {77, 77}, {77, 77}};
        const aclck_decided_list room = {many, count};
        enum aclck_status status = aclck_decide_prepared_many(prepared, &them, all, &read, room);
        EXPECT(status == (count == 3 ? ACLCK_DONE : ACLCK_BAD_ARGUMENT));
        for (size_t i = 0; i < 6; i++)
            EXPECT(many[i].allowed == (i >= count ? 77u : count == 3) && many[i].denied == (i >= count ? 77u : 0));
    }
}

static void are_bad_ids_refused(void) {
    static const uint32_t rise[] = {5, 7, 9}, fall[] = {5, 9, 7}, twice[] = {5, 7, 7};
    static const aclck_name names[][2] = {
        {{{"", 0}, 7, 0}, {{"b", 1}, 8, 0}},           {{{"b", 1}, 8, 0}, {{"12", 2}, 7, 1}},
        {{{"b", 1}, 7, 1}, {{"b", 1}, 8, 1}},          {{{"b", 1}, 8, 0}, {{"b", 1}, 8, 0}},
        {{{"b", 1}, 0xffffffff, 0}, {{"d", 1}, 8, 0}}, {{{"b", 1}, 7, 0}, {{"d", 1}, 8, 2}},
    };
    given g = list_with(list_of("ALLOW GROUP READ_DATA 9\n"), 0);
    const aclck_bytes by_ids = made(prepare_ids, &g), by_names = made(prepare, &g);
    const aclck_id_object object = {1, 2};
    const aclck_id_requester who[] = {{3, rise, 3}, {3, fall, 3}, {3, twice, 3}};
    const aclck_object named = {aclck_string("1"), aclck_string("2")};
    const aclck_requester bob = aclck_requester_of(aclck_string("3"), NULL, 0);
    const aclck_question read = asks(1, 0);
    aclck_decided found;
    EXPECT(aclck_decide_ids(by_ids, &object, &who[0], &read, &found) == ACLCK_DONE && found.allowed == 1);
    for (int i = 1; i < 3; i++) {
        found.allowed = found.denied = 77;
        EXPECT(aclck_decide_ids(by_ids, &object, &who[i], &read, &found) == ACLCK_BAD_ARGUMENT);
        EXPECT(!found.allowed && !found.denied);
    }
    for (int bit = 0; bit < 32; bit++) {
        const aclck_question option = asks(1, (uint32_t)1 << bit);
        found.allowed = 77;
        EXPECT(aclck_decide_ids(by_ids, &object, &who[0], &option, &found) == ACLCK_BAD_ARGUMENT && !found.allowed);
    }
    const aclck_question no_right = asks(0x800, 0);
    EXPECT(aclck_decide_ids(by_ids, &object, &who[0], &no_right, &found) == ACLCK_BAD_ARGUMENT);
    /* Each call refuses the other form of prepared bytes. */
    EXPECT(aclck_decide_ids(by_names, &object, &who[0], &read, &found) == ACLCK_BAD_ARGUMENT);
    EXPECT(aclck_decide_prepared(by_ids, &named, &bob, &read, &found) == ACLCK_BAD_ARGUMENT);
    for (size_t i = 0; i < sizeof names / sizeof *names; i++) {
        g.names.at = names[i];
        g.names.len = 2;
        is_bad(prepare_ids, &g, 1);
    }
}

static void are_bad_options_refused(void) {
    static writer *const writers[] = {prepare, prepare_ids, build, set_mode, exchange, name_owner, name_groups,
                                     keep_under, keep_everywhere, ask, inherit};
    static const uint32_t own[] = {ACLCK_NARROW, ACLCK_NARROW, ACLCK_NARROW, ACLCK_NARROW,
                                   ACLCK_NARROW | ACLCK_MAY_MERGE, ACLCK_NARROW, ACLCK_NARROW, ACLCK_NARROW,
                                   ACLCK_NARROW, ACLCK_NARROW,
                                   ACLCK_NARROW | ACLCK_DIRECTORY | ACLCK_MARK_INHERITED};
    const aclck_bytes list = list_of("ALLOW - READ_DATA 7\n");
    for (size_t i = 0; i < sizeof writers / sizeof *writers; i++)
        for (int bit = 0; bit < 32; bit++)
            if (!(own[i] >> bit & 1)) {
                given g = list_with(list, (uint32_t)1 << bit);
                is_bad(writers[i], &g, 1);
            }
    given both = list_with(list, ACLCK_NARROW | ACLCK_MARK_INHERITED);
    is_bad(inherit, &both, 1);
    for (int bit = 0; bit < 32; bit++)
        if ((uint32_t)1 << bit != ACLCK_NARROW) {
            size_t offset = 0;
            aclck_fault fault = no_fault();
            aclck_ace ace;
            memset(&ace, 0xee, sizeof ace);
            EXPECT(aclck_next(list, (enum aclck_option)((uint32_t)1 << bit), &offset, &ace, &fault) ==
                   ACLCK_BAD_ARGUMENT);
            EXPECT(offset == 0 && is_no_ace(&ace));
        }
}

/* ---- a requester in many groups */

enum { MANY = 2000 };

/* With and without the option, a requester in many groups gets the answers of each group. */
static void are_many_groups_asked(void) {
    static char names[MANY][8];
    static aclck_bytes groups[MANY];
    const aclck_bytes list = list_of("DENY GROUP READ_DATA g0777\nALLOW GROUP WRITE_DATA g1999\n"
                                     "DENY GROUP EXECUTE h\nALLOW GROUP EXECUTE g0000\n"
                                     "ALLOW - READ_DATA EVERYONE@\n");
    given g = list_with(list, 0);
    const aclck_bytes prepared = made(prepare, &g);
    const aclck_object object = {aclck_string("a"), aclck_string("s")};
    const aclck_requester bob = {aclck_string("bob"), groups, MANY};
    for (size_t i = 0; i < MANY; i++) {
        snprintf(names[i], sizeof names[i], "g%04u", (unsigned)i);
        groups[i] = aclck_string(names[i]);
    }
    for (int i = 0; i < 2; i++) {
        const aclck_question question = asks(ACLCK_ALL_RIGHTS, i ? ACLCK_GROUPS_IN_ORDER : 0);
        const aclck_decided wanted = {ACLCK_WRITE_DATA | ACLCK_EXECUTE, ACLCK_READ_DATA};
        aclck_decided found;
        EXPECT(aclck_decide_prepared(prepared, &object, &bob, &question, &found) == ACLCK_DONE);
        EXPECT(is_same_decision(found, wanted));
    }
}

/* Groups in another order than the option says: those count that a binary search finds, and a group that was not given
   never counts. The search begins at half of the number of groups, rounded down. So of the first two groups it finds c,
   and of all four it finds c and the second z. */
static void are_no_groups_made(void) {
    const aclck_bytes groups[] = {aclck_string("z"), aclck_string("c"), aclck_string("z"), aclck_string("b")};
    const aclck_object object = {aclck_string("a"), aclck_string("s")};
    const aclck_question question = asks(ACLCK_ALL_RIGHTS, ACLCK_GROUPS_IN_ORDER);
    static const uint32_t allowed[] = {0, ACLCK_EXECUTE, ACLCK_WRITE_DATA, ACLCK_WRITE_DATA | ACLCK_EXECUTE,
                                       ACLCK_WRITE_DATA | ACLCK_EXECUTE};
    given g = list_with(list_of("ALLOW GROUP READ_DATA a\nALLOW GROUP WRITE_DATA c\nALLOW GROUP EXECUTE z\n"
                                "ALLOW GROUP DELETE b\n"), 0);
    const aclck_bytes prepared = made(prepare, &g);
    for (size_t count = 0; count <= 4; count++) {
        const aclck_requester bob = {aclck_string("bob"), groups, count};
        aclck_decided found;
        EXPECT(aclck_decide_prepared(prepared, &object, &bob, &question, &found) == ACLCK_DONE);
        EXPECT(found.allowed == allowed[count] && found.denied == 0);
    }
}

/* ---- lists of all sizes, of no order */

enum { IDS = 3000, MOST_ACES = 1000 };

static char id_names[IDS][DIGITS];

/* Returns a list whose names are numbers, or one of the three special identifiers. */
static aclck_bytes random_list(size_t count) {
    static const char *const special[] = {"OWNER@", "GROUP@", "EVERYONE@"};
    static aclck_ace aces[MOST_ACES];
    given g = list_with(aclck_string(""), 0);
    for (size_t i = 0; i < count; i++) {
        const char *who = dice(8) ? id_names[dice(dice(2) ? 40 : IDS)] : special[dice(3)];
        const uint32_t flags = dice(8) ? 0 : ACLCK_INHERIT_ONLY | ACLCK_FILE_INHERIT;
        const aclck_ace ace = {dice(2), flags | (dice(2) ? ACLCK_IDENTIFIER_GROUP : 0),
                               ((uint32_t)1 << dice(21) | (uint32_t)1 << dice(21)) & ACLCK_ALL_RIGHTS,
                               aclck_string(who)};
        aces[i] = ace;
    }
    g.aces.at = aces;
    g.aces.len = count;
    return without_memory(build, g, 0);
}

/* Names and ids get the answers of the list, for any number of groups. */
static void is_asked_by_many(aclck_bytes list, aclck_bytes by_names, aclck_bytes by_ids, size_t most_groups) {
    static aclck_bytes groups[IDS];
    static uint32_t ids[IDS];
    const uint32_t owner = dice(40), group = dice(40), user = dice(dice(2) ? 40 : IDS);
    const aclck_object object = {aclck_string(id_names[owner]), aclck_string(id_names[group])};
    const aclck_id_object id_object = {owner, group};
    aclck_requester who = {aclck_string(id_names[user]), groups, 0};
    aclck_id_requester id_who = {user, ids, 0};
    const aclck_question question = asks(choose_mask(), 0);
    aclck_decided wanted, found;
    aclck_fault fault;
    for (uint32_t id = 0; id < IDS && who.ngroups < most_groups; id++)
        if (dice(IDS) < 2 * most_groups) {
            ids[id_who.ngroups++] = id;
            groups[who.ngroups++] = aclck_string(id_names[id]);
        }
    EXPECT(aclck_decide(list, &object, &who, &question, &wanted, &fault) == ACLCK_DONE);
    EXPECT(aclck_decide_prepared(by_names, &object, &who, &question, &found) == ACLCK_DONE);
    EXPECT(is_same_decision(found, wanted));
    EXPECT(aclck_decide_ids(by_ids, &id_object, &id_who, &question, &found) == ACLCK_DONE);
    EXPECT(is_same_decision(found, wanted));
}

static void are_lists_of_all_sizes_asked(void) {
    static const size_t groups[] = {0, 1, 2, 7, 16, 17, 40, 300, 2000};
    for (size_t i = 0; i < IDS; i++)
        digits_of((uint32_t)i, id_names[i]);
    for (size_t i = 0; i < 150; i++) {
        const aclck_bytes list = random_list(i < 120 ? i / 2 : 60 + dice(MOST_ACES - 60));
        given g = list_with(list, 0);
        size_t names_len = 0, ids_len = 0;
        unsigned char *names = result_of(prepare, &g, 1, &names_len), *ids = result_of(prepare_ids, &g, 1, &ids_len);
        if (EXPECT(names != NULL && ids != NULL)) {
            guarded a = guard(names, names_len, (int)dice(2)), b = guard(ids, ids_len, (int)dice(2));
            for (size_t k = 0; k < 4 * sizeof groups / sizeof *groups; k++)
                is_asked_by_many(list, aclck_bytes_of(a.at, names_len), aclck_bytes_of(b.at, ids_len), groups[k / 4]);
            let_go(a);
            let_go(b);
        }
        free(names);
        free(ids);
        free((void *)list.at);
    }
}

/* ---- runs */

typedef struct {
    aclck_bytes *at;
    size_t count;
} lists;

/* Reads lists in hexadecimal, each between pages that may not be read. */
static lists read_lists(const char *path) {
    lists all = {NULL, 0};
    FILE *file = fopen(path, "r");
    char *line = NULL;
    size_t size = 0;
    ssize_t len;
    while (file && (len = getline(&line, &size, file)) > 0) {
        size_t count = (size_t)(len - 1) / 2;
        unsigned char *bytes = malloc(count + 1);
        for (size_t i = 0; i < count; i++) {
            const char two[3] = {line[2 * i], line[2 * i + 1], 0};
            bytes[i] = (unsigned char)strtoul(two, NULL, 16);
        }
        all.at = realloc(all.at, (all.count + 1) * sizeof *all.at);
        all.at[all.count] = aclck_bytes_of(guard(bytes, count, all.count % 4 > 0).at, count);
        all.count++;
        free(bytes);
    }
    free(line);
    if (file)
        fclose(file);
    return all;
}

static void test_list(aclck_bytes acl, uint32_t options) {
    aclck_fault fault;
    if (acl.len < 2000)
        is_any_offset_safe(acl, options);
    if (judge(acl, options, &fault)) {
        is_refused_at_once(acl, options);
        is_unknown_refused(acl, options);
        given g = list_with(acl, options);
        refuses(prepare, &g, 1, fault);
        refuses(prepare_ids, &g, 1, fault);
        refuses(set_mode, &g, 1, fault);
        refuses(exchange, &g, 1, fault);
        refuses(name_owner, &g, 1, fault);
        refuses(keep_under, &g, 1, fault);
        refuses(keep_everywhere, &g, 1, fault);
        refuses(ask, &g, 1, fault);
        return;
    }
    aclck_ace *aces = room_for_aces(acl);
    const size_t count = aces_of(acl, options, aces);
    const people p = people_of(aces, count);
    is_read_and_built(acl, options);
    is_prepared(acl, options, &p);
    is_mode_set(acl, options, &p);
    is_exchanged_back(acl, options, &p);
    if (acl.len < 2000) {
        is_kept_down_to(0, keep_under, acl, options, aces, count);
        is_kept_down_to(2, keep_everywhere, acl, options, aces, count);
        is_asked_completely(acl, options);
    }
    if (options == 0)
        is_child_marked(acl);
    for (int i = 0; i < 4; i++)
        is_all_known(acl, options, &p);
    is_prepared_with_ids(acl, options, &p, aces, count);
    free(aces);
}

static void run_rows(void) {
    static const test tests[] = {
        TEST(are_modes_set_by_hand), TEST(are_names_exchanged_by_hand), TEST(are_bad_names_refused),
        TEST(are_owners_named_by_hand), TEST(are_wrong_aces_refused), TEST(are_unknown_names_answered_by_hand),
        TEST(are_long_lists_answered_by_hand), TEST(are_prepared_bytes_those_of_the_form),
        TEST(are_groups_put_for_names_by_hand), TEST(are_lists_restricted_by_hand),
        TEST(are_new_objects_restricted_by_hand), TEST(are_questions_asked_by_hand),
        TEST(are_forms_read_and_written_by_hand), TEST(are_other_values_refused), TEST(are_aces_left_out), TEST(are_lists_kept_out_of_forms),
        TEST(are_bad_questions_refused), TEST(are_lengths_judged), TEST(are_bad_ids_refused),
        TEST(are_bad_options_refused),
        TEST(are_many_groups_asked), TEST(are_no_groups_made), TEST(are_lists_of_all_sizes_asked)};
    for (size_t i = 0; i < sizeof tests / sizeof *tests; i++) {
        about = tests[i].name;
        tests[i].run();
    }
    about = "names that nobody knows";
    for (int i = 0; i < 3000; i++)
        is_every_case_counted();
    const aclck_bytes list = list_of("DENY - WRITE_DATA bob\nALLOW GROUP READ_DATA|WRITE_DATA editors\n"
                                     "ALLOW - READ_DATA OWNER@\nDENY GROUP EXECUTE staff\nALLOW - EXECUTE EVERYONE@\n");
    const aclck_name rows[] = {{aclck_string("bob"), 1001, 0}, {aclck_string("editors"), 7, 1},
                               {aclck_string("staff"), 1000, 1}};
    given g = list_with(list, 0);
    g.names.at = rows;
    g.names.len = 3;
    about = "prepared bytes of others";
    are_changed_bytes_safe(made(prepare, &g));
    are_changed_bytes_safe(made(prepare_ids, &g));
    are_changed_bytes_safe(list);
}

/* What the threads ask: prepared bytes by names and by ids, and the answers. */
static aclck_bytes shared[2];
static aclck_decided wanted_of_threads[2];

static enum aclck_status ask_shared(aclck_decided found[2]) {
    static const uint32_t ids[] = {7, 1000};
    static const aclck_bytes groups[] = {{"editors", 7}, {"staff", 5}};
    static const aclck_object object = {{"alice", 5}, {"staff", 5}};
    static const aclck_requester bob = {{"bob", 3}, groups, 2};
    static const aclck_id_object id_object = {1000, 1000};
    static const aclck_id_requester id_bob = {1001, ids, 2};
    const aclck_question question = asks(ACLCK_ALL_RIGHTS, 0);
    enum aclck_status status = aclck_decide_prepared(shared[0], &object, &bob, &question, &found[0]);
    return status ? status : aclck_decide_ids(shared[1], &id_object, &id_bob, &question, &found[1]);
}

static void *ask_often(void *at) {
    size_t *wrong = at;
    for (int i = 0; i < 20000; i++) {
        aclck_decided found[2];
        *wrong += ask_shared(found) != ACLCK_DONE || !is_same_decision(found[0], wanted_of_threads[0]) ||
                  !is_same_decision(found[1], wanted_of_threads[1]);
    }
    return NULL;
}

static void run_threads(void) {
    const aclck_name rows[] = {{aclck_string("bob"), 1001, 0}, {aclck_string("editors"), 7, 1},
                               {aclck_string("staff"), 1000, 1}};
    const aclck_bytes list = list_of("DENY - WRITE_DATA bob\nALLOW GROUP READ_DATA|WRITE_DATA editors\n"
                                     "DENY GROUP EXECUTE staff\nALLOW - EXECUTE EVERYONE@\n");
    const aclck_decided wanted = {ACLCK_READ_DATA, ACLCK_WRITE_DATA | ACLCK_EXECUTE};
    given g = list_with(list, 0);
    pthread_t threads[4];
    size_t wrong[4] = {0};
    g.names.at = rows;
    g.names.len = 3;
    shared[0] = made(prepare, &g);
    shared[1] = made(prepare_ids, &g);
    wanted_of_threads[0] = wanted_of_threads[1] = wanted;
    for (int i = 0; i < 4; i++)
        pthread_create(&threads[i], NULL, ask_often, &wrong[i]);
    for (int i = 0; i < 4; i++) {
        pthread_join(threads[i], NULL);
        EXPECT(wrong[i] == 0);
    }
    printf("library_lists: 20000 questions in each of 4 threads\n");
}

int main(int argc, char **argv) {
    lists all = {NULL, 0};
    if (argc > 2 && strcmp(argv[2], "threads") == 0) {
        run_threads();
    } else if (argc > 1) {
        all = read_lists(argv[1]);
        run_rows();
        for (size_t i = 0; i < all.count; i++)
            for (uint32_t options = 0; options <= ACLCK_NARROW; options += ACLCK_NARROW) {
                static char name[32];
                snprintf(name, sizeof name, "list %zu", i + 1);
                about = name;
                test_list(all.at[i], options);
            }
        printf("library_lists: %zu lists\n", all.count);
    }
    for (size_t i = 0; i < nkept; i++)
        free(kept[i]);
    free(all.at);
    return failures > 0 || argc < 2;
}
