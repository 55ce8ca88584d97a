/* Functions of SQLite over libaclck, as an extension that SQLite loads (docs/reference/database.md).
 *
 * Each function reads its arguments, makes one call of the library, and shows the answer. If an argument is NULL, the
 * result is NULL. All memory is SQLite's, and what a function holds while it runs is in `struct call`, which is freed
 * when the function returns.
 */
#include "../common/answers.h"
#include <sqlite3ext.h>

SQLITE_EXTENSION_INIT1

enum { HELD = 4 };

struct function;

/* A call of a function of SQL: its arguments, the memory that it holds, and whether an error is reported. */
struct call {
    sqlite3_context *context;
    sqlite3_value **values;
    int count;
    const struct function *function;
    void *held[HELD];
    int nheld;
    int failed;
};

/* A function of SQL. Functions that only make bytes share a body: `make` makes them, and `is_text` says what they
   are. */
struct function {
    const char *name;
    int arguments;
    void (*body)(struct call *call);
    maker *make;
    int is_text;
};

/* ---- errors */

/* Reports an error, if none is reported yet. */
static void fail(struct call *call, const char *first, const char *second) {
    char *text;
    if (call->failed)
        return;
    call->failed = 1;
    text = sqlite3_mprintf("%s: %s%s", call->function->name, first, second);
    if (text)
        sqlite3_result_error(call->context, text, -1);
    else
        sqlite3_result_error_nomem(call->context);
    sqlite3_free(text);
}

static void fail_without_memory(struct call *call) {
    if (!call->failed)
        sqlite3_result_error_nomem(call->context);
    call->failed = 1;
}

static void refused(struct call *call, const aclck_fault *fault, enum source source) {
    const struct reason reason = reason_of(fault, source);
    char what[40];
    snprintf(what, sizeof what, "%s refused: ", refused_what(source, fault));
    fail(call, what, reason.text);
}

/* Returns whether a call of the library is done. If it is not, reports the error. */
static int is_done(struct call *call, enum aclck_status status, const aclck_fault *fault, enum source source) {
    if (status == ACLCK_REFUSED)
        refused(call, fault, source);
    else if (status == ACLCK_BAD_ARGUMENT)
        fail(call, "a name is empty, or a number means nothing", "");
    else if (status != ACLCK_DONE)
        fail_without_memory(call);
    return status == ACLCK_DONE;
}

/* ---- arguments */

/* Returns memory for some things, which is freed when the call ends, or NULL. */
static void *hold(struct call *call, size_t count, size_t size) {
    void *at = call->failed ? NULL : sqlite3_malloc64((sqlite3_uint64)(count + 1) * size);
    if (!at)
        fail_without_memory(call);
    else
        call->held[call->nheld++] = at;
    return at;
}

static aclck_bytes blob_at(struct call *call, int place) {
    sqlite3_value *value = call->values[place];
    const void *at;
    if (sqlite3_value_type(value) != SQLITE_BLOB) {
        fail(call, "a list and an attribute are of the type BLOB", "");
        return aclck_bytes_of(NULL, 0);
    }
    at = sqlite3_value_blob(value);
    return aclck_bytes_of(at, (size_t)sqlite3_value_bytes(value));
}

/* Returns the bytes of a text. Those of a BLOB are taken as they are, and those of a number are its digits. */
static aclck_bytes text_at(struct call *call, int place) {
    sqlite3_value *value = call->values[place];
    int type = sqlite3_value_type(value);
    const void *at = type == SQLITE_BLOB ? sqlite3_value_blob(value) : (const void *)sqlite3_value_text(value);
    int len = sqlite3_value_bytes(value);
    if (type == SQLITE_FLOAT)
        fail(call, "a name is of the type TEXT, BLOB or INTEGER", "");
    else if (!at && (type != SQLITE_BLOB || len))
        fail_without_memory(call);
    return aclck_bytes_of(at, at ? (size_t)len : 0);
}

static uint32_t number_at(struct call *call, int place) {
    int type = sqlite3_value_type(call->values[place]);
    sqlite3_int64 number = sqlite3_value_int64(call->values[place]);
    if (type != SQLITE_INTEGER || number < 0 || number > UINT32_MAX)
        fail(call, "a number is from 0 to 4294967295", "");
    return (uint32_t)number;
}

static enum aclck_option kind_at(struct call *call, int place) {
    uint32_t number = number_at(call, place);
    if (number > 1)
        fail(call, "a new object is a file (0) or a directory (1)", "");
    return number ? ACLCK_DIRECTORY : ACLCK_FILE;
}

/* Returns how many pieces a text has, with a character between them. A piece may be empty; an empty text has none. */
static size_t pieces(aclck_bytes text, char between) {
    size_t count = text.len > 0, i;
    for (i = 0; i < text.len; i++)
        count += ((const char *)text.at)[i] == between;
    return count;
}

/* Reads the names of groups, one on each line. */
static aclck_requester requester_at(struct call *call, int user, int groups) {
    const aclck_bytes name = text_at(call, user);
    aclck_bytes text = text_at(call, groups);
    size_t count = pieces(text, '\n'), i;
    aclck_bytes *each = hold(call, count, sizeof *each);
    for (i = 0; each && i < count; i++)
        each[i] = cut(&text, '\n');
    return aclck_requester_of(name, each, each ? count : 0);
}

/* Reads ids with commas between them. */
static const uint32_t *ids_at(struct call *call, int place, size_t *count) {
    aclck_bytes text = text_at(call, place), piece;
    size_t most = pieces(text, ','), i, k;
    uint32_t *ids = hold(call, most, sizeof *ids);
    *count = most;
    for (i = 0; ids && i < most; i++) {
        uint64_t id = 0;
        piece = cut(&text, ',');
        for (k = 0; k < piece.len && id <= UINT32_MAX; k++) {
            char digit = ((const char *)piece.at)[k];
            id = digit < '0' || digit > '9' ? (uint64_t)UINT32_MAX + 1 : id * 10 + (uint64_t)(digit - '0');
        }
        if (piece.len == 0 || id > UINT32_MAX)
            fail(call, "groups are ids with commas between them", "");
        ids[i] = (uint32_t)id;
    }
    return ids;
}

/* Reads the names that a text may use, one on each line. */
static void names_at(struct call *call, int place, struct given *given) {
    aclck_bytes text;
    aclck_name *names;
    size_t i;
    if (place >= call->count)
        return;
    text = text_at(call, place);
    given->nnames = pieces(text, '\n');
    given->names = names = hold(call, given->nnames, sizeof *names);
    for (i = 0; names && i < given->nnames; i++) {
        if (!read_name(cut(&text, '\n'), &names[i]))
            fail(call, "a name is u:NAME=ID or g:NAME=ID", "");
    }
}

/* Reads an attribute, which is a BLOB, or a text and, at `names`, the names that it may use. */
static enum source posix_at(struct call *call, int place, int names, struct given *given) {
    if (sqlite3_value_type(call->values[place]) != SQLITE_BLOB) {
        given->bytes = text_at(call, place);
        names_at(call, names, given);
        return A_TEXT;
    }
    given->bytes = blob_at(call, place);
    if (names < call->count)
        fail(call, "an attribute has ids, and takes no names", "");
    given->entries = most_entries(given->bytes.len);
    given->room = hold(call, 2 * given->entries, sizeof *given->room);
    return AN_ATTRIBUTE;
}

static aclck_question question_at(struct call *call, int place) {
    aclck_question question;
    question.mask = (enum aclck_right)number_at(call, place);
    question.options = ACLCK_FULL;
    return question;
}

static aclck_object object_at(struct call *call, int place) {
    aclck_object object;
    object.owner = text_at(call, place);
    object.group = text_at(call, place + 1);
    return object;
}

/* ---- functions that make bytes */

/* Calls `make` with as much room as it needs. Returns the bytes, which the caller frees, or NULL if it fails or there is
 * no list. */
static void *made(struct call *call, maker *make, const struct given *given, enum source source, size_t *len) {
    size_t cap = 2 * given->bytes.len + 256;
    for (;;) {
        aclck_fault fault = {0};
        void *out = call->failed ? NULL : sqlite3_malloc64(cap);
        enum aclck_status status;
        *len = 0;
        if (!out) {
            fail_without_memory(call);
            return NULL;
        }
        status = make(given, aclck_buffer_of(out, cap), len, &fault);
        if (status == ACLCK_DONE)
            return out;
        sqlite3_free(out);
        if (status != ACLCK_SHORT || *len <= cap) {
            if (!has_no_list(given, status, &fault))
                is_done(call, status, &fault, source);
            return NULL;
        }
        cap = *len;
    }
}

static void show_bytes(struct call *call, maker *make, const struct given *given, enum source source, int is_text) {
    size_t len;
    void *out = made(call, make, given, source, &len);
    if (out && is_text)
        sqlite3_result_text64(call->context, out, len, sqlite3_free, SQLITE_UTF8);
    else if (out)
        sqlite3_result_blob64(call->context, out, len, sqlite3_free);
}

static void of_list(struct call *call) {
    struct given given = {0};
    given.bytes = blob_at(call, 0);
    if (call->count > 1)
        given.options = kind_at(call, 1);
    show_bytes(call, call->function->make, &given, A_LIST, call->function->is_text);
}

/* The result is NULL if the list needs a name that no ACE can have. */
static void resolved(struct call *call) {
    const aclck_object object = object_at(call, 1);
    struct given given = {0};
    given.bytes = blob_at(call, 0);
    given.object = &object;
    show_bytes(call, make_resolved, &given, A_LIST, 0);
}

static void encode(struct call *call) {
    struct given given = {0};
    given.bytes = text_at(call, 0);
    show_bytes(call, make_encode, &given, A_TEXT, 0);
}

static void posix_show(struct call *call) {
    static const enum aclck_option options[] = {ACLCK_CANONICAL, ACLCK_FORM_SHOWN, ACLCK_FORM_SHORT};
    static const char *const forms[] = {"canonical", "shown", "short"};
    struct given given = {0};
    const aclck_bytes form = text_at(call, 1);
    size_t i = 0;
    given.bytes = text_at(call, 0);
    while (i < 3 && (strlen(forms[i]) != form.len || memcmp(forms[i], form.at, form.len)))
        i++;
    if (i == 3)
        fail(call, "a form is canonical, shown or short", "");
    else
        given.options = options[i];
    names_at(call, 2, &given);
    show_bytes(call, make_posix_show, &given, A_TEXT, 1);
}

static void posix_chmod(struct call *call) {
    struct given given = {0};
    enum source source = posix_at(call, 0, 2, &given);
    given.number = number_at(call, 1);
    show_bytes(call, source == A_TEXT ? make_posix_chmod : make_attribute_chmod, &given, source, source == A_TEXT);
}

static void posix_calc_mask(struct call *call) {
    struct given given = {0};
    enum source source = posix_at(call, 0, 1, &given);
    show_bytes(call, source == A_TEXT ? make_posix_calc_mask : make_attribute_calc_mask, &given, source,
               source == A_TEXT);
}

static void posix_create(struct call *call) {
    struct given given = {0};
    enum source source = posix_at(call, 0, 4, &given);
    given.number = number_at(call, 1);
    given.umask = number_at(call, 2);
    given.options = kind_at(call, 3);
    show_bytes(call, source == A_TEXT ? make_posix_create : make_attribute_create, &given, source, source == A_TEXT);
}

static void posix_bridge(struct call *call) {
    struct given given = {0};
    enum source source = posix_at(call, 0, 1, &given);
    show_bytes(call, source == A_TEXT ? make_posix_bridge : make_attribute_bridge, &given, source, 0);
}

/* The text is judged, and its names become ids, when it is shown. */
static void attribute(struct call *call) {
    struct given text = {0}, given = {0};
    size_t len;
    void *shown;
    text.bytes = text_at(call, 0);
    names_at(call, 1, &text);
    shown = made(call, make_posix_show, &text, A_TEXT, &len);
    if (!shown)
        return;
    given.bytes = aclck_bytes_of(shown, len);
    given.entries = most_entries(len);
    given.room = hold(call, given.entries, sizeof *given.room);
    show_bytes(call, make_attribute, &given, A_TEXT, 0);
    sqlite3_free(shown);
}

static void posix_of_mode(struct call *call) {
    struct given given = {0};
    given.number = number_at(call, 0);
    show_bytes(call, make_of_mode, &given, AN_ATTRIBUTE, 0);
}

/* ---- functions that answer with a number or a text */

static void rights(struct call *call) {
    uint32_t mask;
    if (aclck_read_mask(text_at(call, 0), &mask))
        fail(call, "no right has this name", "");
    if (!call->failed)
        sqlite3_result_int64(call->context, mask);
}

static void rights_text(struct call *call) {
    char text[256];
    size_t len;
    if (aclck_mask_text((enum aclck_right)number_at(call, 0), aclck_buffer_of(text, sizeof text), &len))
        fail(call, "a bit of the number is no right", "");
    if (!call->failed)
        sqlite3_result_text(call->context, text, (int)len, SQLITE_TRANSIENT);
}

static void granted(struct call *call) {
    const aclck_bytes acl = blob_at(call, 0);
    const aclck_object object = object_at(call, 1);
    const aclck_requester requester = requester_at(call, 3, 4);
    const aclck_question question = question_at(call, 5);
    aclck_fault fault;
    uint32_t rights;
    if (!call->failed &&
        is_done(call, aclck_granted(acl, &object, &requester, &question, &rights, &fault), &fault, A_LIST))
        sqlite3_result_int64(call->context, rights);
}

static void grants(struct call *call) {
    const aclck_bytes acl = blob_at(call, 0);
    const aclck_object object = object_at(call, 1);
    const aclck_requester requester = requester_at(call, 3, 4);
    const aclck_question question = question_at(call, 5);
    aclck_fault fault;
    uint32_t all;
    if (!call->failed && is_done(call, aclck_check(acl, &object, &requester, &question, &all, &fault), &fault, A_LIST))
        sqlite3_result_int64(call->context, all);
}

static void mode(struct call *call) {
    const aclck_bytes acl = blob_at(call, 0);
    aclck_fault fault;
    uint32_t mode;
    if (!call->failed && is_done(call, aclck_mode(acl, ACLCK_FULL, &mode, &fault), &fault, A_LIST))
        sqlite3_result_int64(call->context, mode);
}

static void same(struct call *call) {
    const aclck_bytes first = blob_at(call, 0), second = blob_at(call, 1);
    aclck_fault fault;
    uint32_t same;
    if (!call->failed && is_done(call, aclck_same(first, second, ACLCK_FULL, &same, &fault), &fault, A_LIST))
        sqlite3_result_int64(call->context, same);
}

/* The result is NULL for a list that is accepted. */
static void show_fault(struct call *call, enum aclck_status status, const aclck_fault *fault, enum source source) {
    if (status == ACLCK_REFUSED)
        sqlite3_result_text(call->context, reason_of(fault, source).text, -1, SQLITE_TRANSIENT);
    else
        is_done(call, status, fault, source);
}

static void list_fault(struct call *call) {
    const aclck_bytes acl = blob_at(call, 0);
    aclck_fault fault;
    aclck_ace ace;
    size_t offset = 0;
    if (!call->failed)
        show_fault(call, aclck_next(acl, ACLCK_FULL, &offset, &ace, &fault), &fault, A_LIST);
}

/* A text is judged when it is shown, here in no room. */
static void posix_fault(struct call *call) {
    struct given given = {0};
    enum source source = posix_at(call, 0, 1, &given);
    aclck_entries entries;
    aclck_fault fault;
    size_t len;
    enum aclck_status status;
    if (call->failed)
        return;
    if (source == A_TEXT)
        status = make_posix_show(&given, aclck_buffer_of(NULL, 0), &len, &fault);
    else
        status = read_attribute(&given, &entries, &fault);
    show_fault(call, status == ACLCK_SHORT ? ACLCK_DONE : status, &fault, source);
}

static aclck_posix_question posix_question_at(struct call *call) {
    aclck_posix_question question = {0};
    question.owner = number_at(call, 1);
    question.group = number_at(call, 2);
    question.user = number_at(call, 3);
    question.groups = ids_at(call, 4, &question.ngroups);
    question.want = number_at(call, 5);
    return question;
}

static void posix_grants(struct call *call) {
    struct given given = {0};
    enum source source = posix_at(call, 0, 6, &given);
    const aclck_posix_question question = posix_question_at(call);
    const aclck_posix_text text = text_of(&given);
    aclck_entries entries;
    aclck_fault fault;
    enum aclck_status status;
    uint32_t granted = 0;
    if (call->failed)
        return;
    if (source == A_TEXT) {
        status = aclck_posix_check(&text, &question, &granted, &fault);
    } else {
        status = read_attribute(&given, &entries, &fault);
        if (!status)
            status = aclck_entries_check(entries, &question, &granted, &fault);
    }
    if (is_done(call, status, &fault, source))
        sqlite3_result_int64(call->context, granted);
}

/* Reads an attribute that must be one, at `place`. */
static int attribute_at(struct call *call, int place, struct given *given, aclck_entries *entries, aclck_fault *fault) {
    enum aclck_status status;
    given->bytes = blob_at(call, place);
    given->entries = most_entries(given->bytes.len);
    given->room = hold(call, given->entries, sizeof *given->room);
    if (call->failed)
        return 0;
    status = read_attribute(given, entries, fault);
    fault->list = (uint32_t)place;
    return is_done(call, status, fault, AN_ATTRIBUTE);
}

static void posix_mode(struct call *call) {
    struct given given = {0};
    aclck_entries entries;
    aclck_fault fault = {0};
    uint32_t mode;
    if (attribute_at(call, 0, &given, &entries, &fault) &&
        is_done(call, aclck_entries_mode(entries, &mode, &fault), &fault, AN_ATTRIBUTE))
        sqlite3_result_int64(call->context, mode);
}

/* ---- functions that answer with a text of JSON */

/* Writes a name. A name of a list has no control characters, so that only `"` and `\` need a character in front. */
static void put_name(sqlite3_str *text, aclck_bytes name) {
    const char *at = name.at;
    size_t i;
    sqlite3_str_appendchar(text, 1, '"');
    for (i = 0; i < name.len; i++) {
        if (at[i] == '"' || at[i] == '\\')
            sqlite3_str_appendchar(text, 1, '\\');
        sqlite3_str_appendchar(text, 1, at[i]);
    }
    sqlite3_str_appendchar(text, 1, '"');
}

/* Makes the text the result, if nothing failed, and frees it. */
static void show_json(struct call *call, sqlite3_str *text) {
    int code = sqlite3_str_errcode(text), len = sqlite3_str_length(text);
    char *made = sqlite3_str_finish(text);
    if (!call->failed && code == SQLITE_OK)
        sqlite3_result_text(call->context, made, len, sqlite3_free);
    else
        sqlite3_free(made);
    if (!call->failed && code != SQLITE_OK)
        sqlite3_result_error_code(call->context, code);
}

static void deciding(struct call *call) {
    const aclck_bytes acl = blob_at(call, 0);
    const aclck_object object = object_at(call, 1);
    const aclck_requester requester = requester_at(call, 3, 4);
    const aclck_question question = question_at(call, 5);
    aclck_fault fault;
    aclck_decision decision;
    sqlite3_str *text;
    if (call->failed ||
        !is_done(call, aclck_deciding(acl, &object, &requester, &question, &decision, &fault), &fault, A_LIST) ||
        decision.kind == ACLCK_UNDECIDED)
        return;
    text = sqlite3_str_new(sqlite3_context_db_handle(call->context));
    sqlite3_str_appendf(text, "{\"place\":%llu,\"kind\":\"%s\"}", (unsigned long long)decision.place,
                        kind_name(decision.kind));
    show_json(call, text);
}

/* The names are the owner, the owning group, the user, and the groups of the user, each before a zero byte. */
static void put_difference(sqlite3_str *text, aclck_bytes names, const aclck_difference *difference) {
    static const char *const heads[] = {"{\"owner\":", ",\"group\":", ",\"user\":"};
    size_t i;
    for (i = 0; i < 3; i++) {
        sqlite3_str_appendall(text, heads[i]);
        put_name(text, cut(&names, 0));
    }
    sqlite3_str_appendall(text, ",\"groups\":[");
    for (i = 0; names.len > 0; i++) {
        sqlite3_str_appendall(text, i ? "," : "");
        put_name(text, cut(&names, 0));
    }
    sqlite3_str_appendf(text, "],\"right\":%u,\"first\":%u}", difference->right, difference->first_grants);
}

/* aclck_compare() or aclck_excess(). The result is NULL if there is no difference. */
static void difference(struct call *call) {
    aclck_difference difference = {0};
    struct given given = {0};
    sqlite3_str *text;
    size_t len;
    void *names;
    given.bytes = blob_at(call, 0);
    given.second = blob_at(call, 1);
    given.difference = &difference;
    names = made(call, call->function->make, &given, A_LIST, &len);
    if (names && !difference.same) {
        text = sqlite3_str_new(sqlite3_context_db_handle(call->context));
        put_difference(text, aclck_bytes_of(names, len), &difference);
        show_json(call, text);
    }
    sqlite3_free(names);
}

static void table(struct call *call) {
    struct given given = {0};
    sqlite3_str *text;
    struct row row;
    aclck_bytes lines;
    size_t len;
    void *out;
    given.bytes = blob_at(call, 0);
    given.number = number_at(call, 1);
    out = made(call, make_table, &given, A_LIST, &len);
    if (!out)
        return;
    text = sqlite3_str_new(sqlite3_context_db_handle(call->context));
    lines = aclck_bytes_of(out, len);
    while (next_row(&lines, &row)) {
        sqlite3_str_appendf(text, "%s{\"place\":%lu,\"kind\":\"%s\",\"is_group\":%d,\"who\":",
                            sqlite3_str_length(text) ? "," : "[", row.place, row.is_deny ? "DENY" : "ALLOW",
                            row.is_group);
        put_name(text, row.who);
        sqlite3_str_appendchar(text, 1, '}');
    }
    sqlite3_str_appendall(text, sqlite3_str_length(text) ? "]" : "[]");
    show_json(call, text);
    sqlite3_free(out);
}

static void entries(struct call *call) {
    const aclck_bytes acl = blob_at(call, 0);
    sqlite3_str *text;
    size_t offset = 0, place;
    aclck_ace ace;
    aclck_fault fault;
    if (call->failed)
        return;
    text = sqlite3_str_new(sqlite3_context_db_handle(call->context));
    for (place = 0; is_done(call, aclck_next(acl, ACLCK_FULL, &offset, &ace, &fault), &fault, A_LIST) &&
                    ace.kind != ACLCK_UNDECIDED;
         place++) {
        sqlite3_str_appendf(text, "%s{\"place\":%llu,\"kind\":\"%s\",\"flags\":%u,\"rights\":%u,\"who\":",
                            place ? "," : "[", (unsigned long long)place, kind_name(ace.kind), ace.flags, ace.mask);
        put_name(text, ace.who);
        sqlite3_str_appendchar(text, 1, '}');
    }
    sqlite3_str_appendall(text, place ? "]" : "[]");
    show_json(call, text);
}

static void posix_entries(struct call *call) {
    struct given given = {0};
    aclck_entries list;
    aclck_fault fault = {0};
    sqlite3_str *text;
    size_t i;
    if (!attribute_at(call, 0, &given, &list, &fault))
        return;
    text = sqlite3_str_new(sqlite3_context_db_handle(call->context));
    for (i = 0; i < list.len; i++) {
        const aclck_entry *entry = &list.at[i];
        int has_id = entry->tag == ACLCK_TAG_USER || entry->tag == ACLCK_TAG_GROUP;
        sqlite3_str_appendf(text, "%s{\"place\":%llu,\"tag\":\"%s\",\"id\":", i ? "," : "[", (unsigned long long)i,
                            tag_name(entry->tag));
        if (has_id)
            sqlite3_str_appendf(text, "%u", entry->id);
        else
            sqlite3_str_appendall(text, "null");
        sqlite3_str_appendf(text, ",\"perm\":%u}", entry->perm);
    }
    sqlite3_str_appendall(text, i ? "]" : "[]");
    show_json(call, text);
}

static void posix_deciding(struct call *call) {
    struct given given = {0};
    aclck_entries list;
    aclck_fault fault = {0};
    aclck_posix_decision decision;
    aclck_posix_question question;
    sqlite3_str *text;
    if (!attribute_at(call, 0, &given, &list, &fault))
        return;
    question = posix_question_at(call);
    if (call->failed ||
        !is_done(call, aclck_entries_deciding(list, &question, &decision, &fault), &fault, AN_ATTRIBUTE))
        return;
    text = sqlite3_str_new(sqlite3_context_db_handle(call->context));
    if (decision.tag)
        sqlite3_str_appendf(text, "{\"place\":%llu,\"tag\":\"%s\"", (unsigned long long)decision.place,
                            tag_name(decision.tag));
    else
        sqlite3_str_appendall(text, "{\"place\":null,\"tag\":null");
    sqlite3_str_appendf(text, ",\"granted\":%u,\"masked\":%u}", decision.granted, decision.masked);
    show_json(call, text);
}

static void posix_excess(struct call *call) {
    struct given first = {0}, second = {0};
    aclck_entries lists[2];
    aclck_fault fault = {0};
    aclck_posix_difference found;
    sqlite3_str *text;
    if (!attribute_at(call, 0, &first, &lists[0], &fault) || !attribute_at(call, 1, &second, &lists[1], &fault) ||
        !is_done(call, aclck_entries_excess(lists[0], lists[1], &found, &fault), &fault, AN_ATTRIBUTE) || found.same)
        return;
    text = sqlite3_str_new(sqlite3_context_db_handle(call->context));
    sqlite3_str_appendf(text, "{\"owner\":%u,\"group\":%u,\"user\":%u,\"groups\":[", found.owner, found.group,
                        found.user);
    if (found.ngroups > 0)
        sqlite3_str_appendf(text, "%u", found.first_group);
    if (found.ngroups > 1)
        sqlite3_str_appendf(text, ",%u", found.second_group);
    sqlite3_str_appendf(text, "],\"want\":%u}", found.want);
    show_json(call, text);
}

/* ---- the extension */

static const struct function FUNCTIONS[] = {
    {"acl_rights", 1, rights, NULL, 0},
    {"acl_rights_text", 1, rights_text, NULL, 0},
    {"acl_granted", 6, granted, NULL, 0},
    {"acl_grants", 6, grants, NULL, 0},
    {"acl_deciding", 6, deciding, NULL, 0},
    {"acl_normal", 1, of_list, make_normal, 0},
    {"acl_normal_inherit", 1, of_list, make_normal_inherit, 0},
    {"acl_same", 2, same, NULL, 0},
    {"acl_compare", 2, difference, make_compare, 0},
    {"acl_excess", 2, difference, make_excess, 0},
    {"acl_show", 1, of_list, make_show, 1},
    {"acl_encode", 1, encode, NULL, 0},
    {"acl_child", 2, of_list, make_child, 0},
    {"acl_resolved", 3, resolved, NULL, 0},
    {"acl_mode", 1, mode, NULL, 0},
    {"acl_table", 2, table, NULL, 0},
    {"acl_fault", 1, list_fault, NULL, 0},
    {"acl_entries", 1, entries, NULL, 0},
    {"acl_posix_grants", 6, posix_grants, NULL, 0},
    {"acl_posix_grants", 7, posix_grants, NULL, 0},
    {"acl_posix_deciding", 6, posix_deciding, NULL, 0},
    {"acl_posix_mode", 1, posix_mode, NULL, 0},
    {"acl_posix_excess", 2, posix_excess, NULL, 0},
    {"acl_posix_fault", 1, posix_fault, NULL, 0},
    {"acl_posix_fault", 2, posix_fault, NULL, 0},
    {"acl_posix_entries", 1, posix_entries, NULL, 0},
    {"acl_posix_show", 2, posix_show, NULL, 0},
    {"acl_posix_show", 3, posix_show, NULL, 0},
    {"acl_posix_chmod", 2, posix_chmod, NULL, 0},
    {"acl_posix_chmod", 3, posix_chmod, NULL, 0},
    {"acl_posix_calc_mask", 1, posix_calc_mask, NULL, 0},
    {"acl_posix_calc_mask", 2, posix_calc_mask, NULL, 0},
    {"acl_posix_create", 4, posix_create, NULL, 0},
    {"acl_posix_create", 5, posix_create, NULL, 0},
    {"acl_posix_bridge", 1, posix_bridge, NULL, 0},
    {"acl_posix_bridge", 2, posix_bridge, NULL, 0},
    {"acl_posix_of_mode", 1, posix_of_mode, NULL, 0},
    {"acl_attribute", 1, attribute, NULL, 0},
    {"acl_attribute", 2, attribute, NULL, 0},
};

static void run(sqlite3_context *context, int count, sqlite3_value **values) {
    struct call call = {0};
    int i;
    call.context = context;
    call.count = count;
    call.values = values;
    call.function = sqlite3_user_data(context);
    for (i = 0; i < count; i++) {
        if (sqlite3_value_type(values[i]) == SQLITE_NULL)
            return;
    }
    call.function->body(&call);
    while (call.nheld > 0)
        sqlite3_free(call.held[--call.nheld]);
}

int sqlite3_aclck_init(sqlite3 *db, char **error, const sqlite3_api_routines *api) {
    const int flags = SQLITE_UTF8 | SQLITE_DETERMINISTIC | SQLITE_INNOCUOUS;
    size_t i;
    (void)error;
    SQLITE_EXTENSION_INIT2(api);
    for (i = 0; i < sizeof FUNCTIONS / sizeof *FUNCTIONS; i++) {
        int status = sqlite3_create_function(db, FUNCTIONS[i].name, FUNCTIONS[i].arguments, flags,
                                             (void *)&FUNCTIONS[i], run, NULL, NULL);
        if (status != SQLITE_OK)
            return status;
    }
    return SQLITE_OK;
}
