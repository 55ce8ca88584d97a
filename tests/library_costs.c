/* Makes one call of libaclck, and prints its status, how many requests for memory the call makes, for how many bytes,
 * and how many bytes of the stack it uses.
 *
 *     library_costs CALL INPUT GROUPS [shuffled]
 *
 * The requester has GROUPS groups, named h00000 and so on, in this order or in no order; `entries_to_form` has as many
 * names of users. INPUT is a file: a list, two lists of equal length for the calls over two lists, a text, or an
 * attribute for the calls over entries. What a call is given is prepared or read before it is counted. The program is
 * linked with --wrap for malloc and realloc.
 */
#include "aclck.h"
#include <pthread.h>
#include <stdio.h>
#include <stdlib.h>
#include <string.h>

enum { MOST_GROUPS = 65536, REQUESTERS = 100, ROOM = 1 << 22, STACK = 1 << 20, PAINT = 0xa5 };

static unsigned long requests, bytes;

void *__real_malloc(size_t);
void *__real_realloc(void *, size_t);
void *__wrap_malloc(size_t size);
void *__wrap_realloc(void *at, size_t size);

void *__wrap_malloc(size_t size) {
    requests++;
    bytes += size;
    return __real_malloc(size);
}

void *__wrap_realloc(void *at, size_t size) {
    requests++;
    bytes += size;
    return __real_realloc(at, size);
}

static unsigned char input[ROOM], out[ROOM];
static char names[MOST_GROUPS][8];
static aclck_bytes groups[MOST_GROUPS];
static aclck_requester who[REQUESTERS];
static uint32_t ids[MOST_GROUPS], granted[REQUESTERS];
static aclck_name users[MOST_GROUPS];
static aclck_decided decided_of_all[REQUESTERS];
static uint32_t masks[ROOM / 32];

static void name_groups(size_t count, int is_shuffled) {
    for (size_t i = 0; i < count; i++) {
        ids[i] = (uint32_t)(is_shuffled ? i * 389 % count : i);
        snprintf(names[i], sizeof names[i], "h%05u", ids[i]);
        groups[i] = aclck_string(names[i]);
        users[i].name = groups[i];
        users[i].id = ids[i];
    }
    for (size_t i = 0; i < REQUESTERS; i++) {
        who[i].user = aclck_string("x");
        who[i].groups = groups;
        who[i].ngroups = count;
    }
}

#define LIST aclck_bytes_of(input, len)
#define HALVES aclck_bytes_of(input, len / 2), aclck_bytes_of(input + len / 2, len / 2)
#define ROOM_FOR_ALL aclck_buffer_of(out, sizeof out)
#define OUT ROOM_FOR_ALL, &needed, &fault
#define IS(name) (strcmp(call, name) == 0)

/* ---- calls that are given what another call made */

static unsigned char made[ROOM];
static aclck_entry entries[ROOM / 16], changed[ROOM / 16];
static aclck_ace aces[ROOM / 32];

static void count_from_here(void) {
    requests = bytes = 0;
}

/* Gives each name that is no number an id. */
static enum aclck_status prepare_ids(size_t len, aclck_buffer out, size_t *needed, aclck_fault *fault) {
    static const aclck_name rows[] = {{{"mallory", 7}, 7, 0}, {{"editors", 7}, 1000004, 1}};
    const aclck_names table = {rows, 2};
    return aclck_prepare_ids(LIST, &table, ACLCK_FULL, out, needed, fault);
}

static uint32_t invoke_prepared(const char *call, size_t len, size_t count) {
    const aclck_object object = {aclck_string("o"), aclck_string("g")};
    const aclck_id_object id_object = {1000001, 1000002};
    const aclck_id_requester id_who = {1000003, ids, count};
    const aclck_question all = {ACLCK_ALL_RIGHTS, ACLCK_FULL};
    const aclck_requesters everybody = {who, REQUESTERS};
    const aclck_decided_list room = {decided_of_all, REQUESTERS};
    aclck_bytes prepared = {made, 0};
    aclck_decided decided;
    aclck_fault fault;
    size_t needed;
    int by_ids = IS("decide_ids");
    if (IS("prepare"))
        return aclck_prepare(LIST, ACLCK_FULL, OUT);
    if (IS("prepare_ids"))
        return prepare_ids(len, OUT);
    if (by_ids ? prepare_ids(len, aclck_buffer_of(made, sizeof made), &prepared.len, &fault)
               : aclck_prepare(LIST, ACLCK_FULL, aclck_buffer_of(made, sizeof made), &prepared.len, &fault))
        return 99;
    count_from_here();
    if (IS("decide_prepared"))
        return aclck_decide_prepared(prepared, &object, who, &all, &decided);
    if (IS("decide_prepared_many"))
        return aclck_decide_prepared_many(prepared, &object, everybody, &all, room);
    return aclck_decide_ids(prepared, &id_object, &id_who, &all, &decided);
}

/* Reads the ACEs of a list. All calls of aclck_next() are counted for `next`. */
static uint32_t read_aces(size_t len, size_t *count) {
    aclck_fault fault;
    size_t offset = 0;
    for (*count = 0;; ++*count) {
        enum aclck_status status = aclck_next(LIST, ACLCK_FULL, &offset, &aces[*count], &fault);
        if (status || aces[*count].kind == ACLCK_UNDECIDED)
            return status;
    }
}

/* Makes the POSIX ACL of a list in which each name has an id. */
static uint32_t to_posix(size_t len) {
    static const aclck_name rows[] = {{{"mallory", 7}, 7, 0}, {{"editors", 7}, 8, 1}};
    const aclck_names table = {rows, 2};
    const aclck_entry_buffer room = {changed, sizeof changed / sizeof *changed};
    aclck_posix_loss loss;
    aclck_fault fault;
    size_t needed;
    return aclck_to_posix(LIST, &table, 256, room, &needed, &loss, &fault);
}

static uint32_t invoke_list(const char *call, size_t len) {
    static const aclck_renaming rows[] = {{{"mallory", 7}, {"m", 1}, 0}, {{"editors", 7}, {"writers", 7}, 1}};
    const aclck_renamings table = {rows, 2};
    const aclck_object object = {aclck_string("o"), aclck_string("g")};
    const aclck_bytes suffix = aclck_string("?"), halves[] = {HALVES};
    const aclck_question all = {ACLCK_ALL_RIGHTS, ACLCK_FULL};
    aclck_possible possible;
    aclck_fault fault;
    uint32_t flags;
    size_t needed, count;
    if (IS("chmod"))
        return aclck_chmod(LIST, 0640, ACLCK_FULL, OUT);
    if (IS("renamed"))
        return aclck_renamed(LIST, &table, ACLCK_FULL, OUT);
    if (IS("resolved"))
        return aclck_resolved(LIST, &object, ACLCK_FULL, OUT);
    if (IS("with_groups"))
        return aclck_with_groups(LIST, &suffix, ACLCK_FULL, OUT);
    if (IS("restricted"))
        return aclck_restricted(halves[0], &halves[1], ACLCK_FULL, OUT);
    if (IS("restricted_everywhere"))
        return aclck_restricted_everywhere(halves[0], &halves[1], ACLCK_FULL, OUT);
    if (IS("questions"))
        return aclck_questions(LIST, 10000, ACLCK_FULL, OUT);
    if (IS("read_form"))
        return aclck_read_form(LIST, ACLCK_NFS_TOOLS_DIRECTORY, ROOM_FOR_ALL, &needed, &flags, &fault);
    if (IS("write_form"))
        return aclck_write_form(LIST, ACLCK_NFS_TOOLS_DIRECTORY, 0, OUT);
    if (IS("to_posix"))
        return to_posix(len);
    if (IS("decide_unknown"))
        return aclck_decide_unknown(LIST, &object, who, &all, &possible, &fault);
    if (read_aces(len, &count) || IS("next"))
        return count == 0;
    count_from_here();
    return aclck_build((aclck_aces){aces, count}, ACLCK_FULL, OUT);
}

static uint32_t invoke_entries(const char *call, size_t len, size_t count) {
    const aclck_posix_question question = {1, 1, 1000000, ACLCK_PERM_READ, ids, count};
    const aclck_creation creation = {0777, 022, ACLCK_DIRECTORY};
    const aclck_entry_buffer all = {entries, sizeof entries / sizeof *entries};
    const aclck_entry_buffer room = {changed, sizeof changed / sizeof *changed};
    const aclck_posix_text value = {LIST, {NULL, 0}};
    const aclck_names named = {users, count};
    aclck_entries given = {entries, 0};
    aclck_posix_decision decision;
    aclck_posix_difference difference;
    aclck_fault fault;
    uint32_t word;
    size_t needed;
    enum aclck_status status = aclck_entries_from_attribute(LIST, all, &given.len, &fault);
    if (status || IS("entries_from_attribute"))
        return status;
    count_from_here();
    if (IS("entries_from_form"))
        return aclck_entries_from_form(&value, ACLCK_POSIX_ATTRIBUTE, room, &needed, &fault);
    if (IS("entries_check"))
        return aclck_entries_check(given, &question, &word, &fault);
    if (IS("entries_deciding"))
        return aclck_entries_deciding(given, &question, &decision, &fault);
    if (IS("entries_excess"))
        return aclck_entries_excess(given, given, &difference, &fault);
    if (IS("entries_mode"))
        return aclck_entries_mode(given, &word, &fault);
    if (IS("entries_sorted"))
        return aclck_entries_sorted(given, ACLCK_ADD_MASK, room, &needed, &fault);
    if (IS("entries_chmod"))
        return aclck_entries_chmod(given, 0640, room, &needed, &fault);
    if (IS("entries_calc_mask"))
        return aclck_entries_calc_mask(given, room, &needed, &fault);
    if (IS("entries_create"))
        return aclck_entries_create(given, &creation, room, &needed, &fault);
    if (IS("entries_bridge"))
        return aclck_entries_bridge(given, OUT);
    if (IS("entries_to_form"))
        return aclck_entries_to_form(given, &named, ACLCK_POSIX_TEXT, OUT);
    if (IS("entries_to_attribute"))
        return aclck_entries_to_attribute(given, OUT);
    return 99;
}

static uint32_t invoke_posix(const char *call, size_t len, size_t count) {
    aclck_posix_text text = {LIST, {&(aclck_name){{"", 0}, 0, 0}, 0}};
    aclck_posix_question question = {1, 1, 1, ACLCK_PERM_READ, ids, count};
    aclck_creation creation = {0777, 022, ACLCK_DIRECTORY};
    aclck_fault fault;
    uint32_t word;
    size_t needed;
    if (IS("posix_check"))
        return aclck_posix_check(&text, &question, &word, &fault);
    if (IS("posix_show"))
        return aclck_posix_show(&text, ACLCK_FORM_SHOWN, OUT);
    if (IS("posix_calc_mask"))
        return aclck_posix_calc_mask(&text, OUT);
    if (IS("posix_chmod"))
        return aclck_posix_chmod(&text, 0750, OUT);
    if (IS("posix_create"))
        return aclck_posix_create(&text, &creation, OUT);
    if (IS("posix_bridge"))
        return aclck_posix_bridge(&text, OUT);
    return 99;
}

static uint32_t invoke(const char *call, size_t len, size_t count) {
    aclck_object object = {{"o", 1}, {"g", 1}};
    aclck_requester requester = {{"x", 1}, groups, count};
    aclck_question all = {ACLCK_ALL_RIGHTS, ACLCK_FULL}, one = {ACLCK_READ_DATA, ACLCK_FULL};
    aclck_fault fault;
    aclck_decision decision;
    aclck_decided decided;
    aclck_difference difference;
    uint32_t word;
    size_t needed;
    if (IS("decide"))
        return aclck_decide(LIST, &object, &requester, &all, &decided, &fault);
    if (IS("check"))
        return aclck_check(LIST, &object, &requester, &one, &word, &fault);
    if (IS("granted"))
        return aclck_granted(LIST, &object, &requester, &all, &word, &fault);
    if (IS("deciding"))
        return aclck_deciding(LIST, &object, &requester, &one, &decision, &fault);
    if (IS("check_many"))
        return aclck_check_many(LIST, &object, (aclck_requesters){who, REQUESTERS}, &all,
                                (aclck_masks){granted, REQUESTERS}, &fault);
    if (IS("mode"))
        return aclck_mode(LIST, ACLCK_FULL, &word, &fault);
    if (IS("child"))
        return aclck_child(LIST, ACLCK_DIRECTORY, OUT);
    if (IS("show"))
        return aclck_show(LIST, ACLCK_FULL, OUT);
    if (IS("encode"))
        return aclck_encode(LIST, ACLCK_FULL, OUT);
    if (IS("normalize"))
        return aclck_normalize(LIST, ACLCK_FULL, OUT);
    if (IS("normalize_inherit"))
        return aclck_normalize_inherit(LIST, ACLCK_FULL, OUT);
    if (IS("table"))
        return aclck_table(LIST, &one, OUT);
    if (IS("needed"))
        return aclck_needed(LIST, ACLCK_FULL, (aclck_masks){masks, sizeof masks / sizeof *masks}, &needed, &fault);
    if (IS("same"))
        return aclck_same(HALVES, ACLCK_FULL, &word, &fault);
    if (IS("compare"))
        return aclck_compare(HALVES, ACLCK_FULL, &difference, ROOM_FOR_ALL, &fault);
    if (strncmp(call, "posix_", 6) == 0)
        return invoke_posix(call, len, count);
    if (strncmp(call, "entries_", 8) == 0)
        return invoke_entries(call, len, count);
    if (strncmp(call, "prepare", 7) == 0 || strncmp(call, "decide_prepared", 15) == 0 || IS("decide_ids"))
        return invoke_prepared(call, len, count);
    if (IS("excess"))
        return aclck_excess(HALVES, ACLCK_FULL, &difference, ROOM_FOR_ALL, &fault);
    return invoke_list(call, len);
}

typedef struct {
    const char *call;
    size_t len, count;
    uint32_t status;
} work;

static void *nothing(void *at) {
    return at;
}

/* Makes the call after the C library has made its arena for this thread. */
static void *make_call(void *at) {
    work *w = at;
    void *volatile first;
    first = malloc(1);
    free(first);
    requests = bytes = 0;
    w->status = invoke(w->call, w->len, w->count);
    return at;
}

/* Runs a function in a thread, and returns how many bytes of the thread's stack it changes. */
static size_t stack_of(void *(*run)(void *), work *w) {
    unsigned char *stack;
    void *room;
    pthread_attr_t attributes;
    pthread_t thread;
    size_t unused = 0;
    if (posix_memalign(&room, 4096, STACK))
        exit(3);
    stack = memset(room, PAINT, STACK);
    pthread_attr_init(&attributes);
    pthread_attr_setstack(&attributes, stack, STACK);
    if (pthread_create(&thread, &attributes, run, w) || pthread_join(thread, NULL))
        exit(3);
    while (unused < STACK && stack[unused] == PAINT)
        unused++;
    free(room);
    return STACK - unused;
}

int main(int argc, char **argv) {
    FILE *file = argc < 4 ? NULL : fopen(argv[2], "rb");
    size_t count = file ? (size_t)atoi(argv[3]) : 0, len, of_thread, stack;
    work w;
    if (!file || count > MOST_GROUPS)
        return 2;
    len = fread(input, 1, sizeof input, file);
    fclose(file);
    name_groups(count, argc > 4);
    w.call = argv[1];
    w.len = len;
    w.count = count;
    of_thread = stack_of(nothing, &w);
    stack = stack_of(make_call, &w);
    printf("%u %lu %lu %zu\n", (unsigned)w.status, requests, bytes, stack - of_thread);
    return 0;
}
