/* What the functions of SQL have in common: sql/postgres/aclck.c and sql/sqlite/aclck.c include this file.
 *
 * Each of the two reads the arguments of a function, gives them to a call of libaclck, and shows the answer. This file
 * has the calls that write bytes, in one form, and what reads a fault or a text of the library. It allocates no memory,
 * keeps nothing, and decides nothing.
 */
#ifndef ACLCK_SQL_ANSWERS_H
#define ACLCK_SQL_ANSWERS_H

#include <aclck.h>
#include <stdio.h>
#include <string.h>

/* ---- what is refused */

/* What was given. */
enum source { A_LIST, A_TEXT, AN_ATTRIBUTE };

/* How a message begins. */
static inline const char *refused_what(enum source source, const aclck_fault *fault) {
    static const char *const names[2][3] = {{"list", "text", "attribute"}, {"second list", "text", "second attribute"}};
    return names[fault->list == 1][source];
}

/* A fault in words, such as `Truncated at byte 4`. */
struct reason {
    char text[96];
};

static inline const char *tag_name(uint32_t tag) {
    static const char *const names[] = {"-", "USER_OBJ", "USER", "GROUP_OBJ", "GROUP", "MASK", "OTHER"};
    return names[tag < sizeof names / sizeof *names ? tag : 0];
}

static inline const char *kind_name(uint32_t kind) {
    return kind == ACLCK_DENY ? "DENY" : "ALLOW";
}

/* Returns why and where something is refused, in the words of aclck(1). An attribute does not say whether it is the
   access ACL or the default ACL, and so the words for it do not either. */
static inline struct reason reason_of(const aclck_fault *fault, enum source source) {
    struct reason reason;
    char name[16] = "", part[20] = "";
    size_t len = 0;
    unsigned long long offset = fault->offset, line = fault->line, column = fault->column;
    uint32_t why = fault->reason;
    int of_part = why == ACLCK_MULTI || why == ACLCK_DUPLICATE || why == ACLCK_MISS;
    if (aclck_reason_text(why, aclck_buffer_of(name, sizeof name - 1), &len))
        strcpy(name, "Unknown");
    if (of_part && source == A_TEXT)
        snprintf(part, sizeof part, "Invalid %s: ", fault->part == ACLCK_PART_ACCESS ? "access" : "default");
    if (line)
        snprintf(reason.text, sizeof reason.text, "%s at line %llu column %llu", name, line, column);
    else if (why == ACLCK_MISS)
        snprintf(reason.text, sizeof reason.text, "%s%s %s", part, name, tag_name(fault->tag));
    else if (why == ACLCK_LIMITS || why == ACLCK_SIZE || why == ACLCK_VERSION_2)
        snprintf(reason.text, sizeof reason.text, "%s", name);
    else
        snprintf(reason.text, sizeof reason.text, "%s%s at %s %llu", part, name,
                 of_part || source == AN_ATTRIBUTE ? "entry" : "byte", offset);
    return reason;
}

/* ---- the calls that write bytes */

/* What such a call is given. A call uses what it needs, and the rest is 0. */
struct given {
    aclck_bytes bytes;            /* a list, a text, or an attribute */
    aclck_bytes second;           /* the second of two lists */
    uint32_t number;              /* a right or a mode */
    uint32_t umask;
    enum aclck_option options;
    const aclck_object *object;   /* whose owner and owning group stand for OWNER@ and GROUP@ */
    const aclck_name *names;      /* the names that a text may use */
    size_t nnames;
    aclck_entry *room;            /* for an attribute: room for two times `entries` entries */
    size_t entries;
    aclck_difference *difference; /* where two lists differ */
};

/* Writes bytes to `out` and their number to *needed, as the calls of aclck.h do. */
typedef enum aclck_status maker(const struct given *given, aclck_buffer out, size_t *needed, aclck_fault *fault);

static inline enum aclck_status make_normal(const struct given *given, aclck_buffer out, size_t *needed,
                                            aclck_fault *fault) {
    return aclck_normalize(given->bytes, ACLCK_FULL, out, needed, fault);
}

static inline enum aclck_status make_normal_inherit(const struct given *given, aclck_buffer out, size_t *needed,
                                                    aclck_fault *fault) {
    return aclck_normalize_inherit(given->bytes, ACLCK_FULL, out, needed, fault);
}

static inline enum aclck_status make_show(const struct given *given, aclck_buffer out, size_t *needed,
                                          aclck_fault *fault) {
    return aclck_show(given->bytes, ACLCK_FULL, out, needed, fault);
}

static inline enum aclck_status make_encode(const struct given *given, aclck_buffer out, size_t *needed,
                                            aclck_fault *fault) {
    return aclck_encode(given->bytes, ACLCK_FULL, out, needed, fault);
}

/* The options say whether the new object is a directory. */
static inline enum aclck_status make_child(const struct given *given, aclck_buffer out, size_t *needed,
                                           aclck_fault *fault) {
    return aclck_child(given->bytes, given->options, out, needed, fault);
}

static inline enum aclck_status make_resolved(const struct given *given, aclck_buffer out, size_t *needed,
                                              aclck_fault *fault) {
    return aclck_resolved(given->bytes, given->object, ACLCK_FULL, out, needed, fault);
}

/* Returns whether there is no list for an object, because its owner or its group has a name that no ACE can have. */
static inline int has_no_list(const struct given *given, enum aclck_status status, const aclck_fault *fault) {
    return given->object && status == ACLCK_REFUSED && fault->reason == ACLCK_UNKNOWN_NAME;
}

static inline enum aclck_status make_table(const struct given *given, aclck_buffer out, size_t *needed,
                                           aclck_fault *fault) {
    const aclck_question question = {(enum aclck_right)given->number, ACLCK_FULL};
    return aclck_table(given->bytes, &question, out, needed, fault);
}

static inline enum aclck_status make_compare(const struct given *given, aclck_buffer out, size_t *needed,
                                             aclck_fault *fault) {
    enum aclck_status status = aclck_compare(given->bytes, given->second, ACLCK_FULL, given->difference, out, fault);
    *needed = given->difference->names;
    return status;
}

static inline enum aclck_status make_excess(const struct given *given, aclck_buffer out, size_t *needed,
                                            aclck_fault *fault) {
    enum aclck_status status = aclck_excess(given->bytes, given->second, ACLCK_FULL, given->difference, out, fault);
    *needed = given->difference->names;
    return status;
}

/* ---- the same of texts of POSIX ACLs */

static inline aclck_posix_text text_of(const struct given *given) {
    static const aclck_name none;
    aclck_posix_text text;
    text.text = given->bytes;
    text.names.at = given->nnames ? given->names : &none;
    text.names.len = given->nnames;
    return text;
}

static inline enum aclck_status make_posix_show(const struct given *given, aclck_buffer out, size_t *needed,
                                                aclck_fault *fault) {
    const aclck_posix_text text = text_of(given);
    return aclck_posix_show(&text, given->options, out, needed, fault);
}

static inline enum aclck_status make_posix_calc_mask(const struct given *given, aclck_buffer out, size_t *needed,
                                                     aclck_fault *fault) {
    const aclck_posix_text text = text_of(given);
    return aclck_posix_calc_mask(&text, out, needed, fault);
}

static inline enum aclck_status make_posix_chmod(const struct given *given, aclck_buffer out, size_t *needed,
                                                 aclck_fault *fault) {
    const aclck_posix_text text = text_of(given);
    return aclck_posix_chmod(&text, given->number, out, needed, fault);
}

static inline enum aclck_status make_posix_create(const struct given *given, aclck_buffer out, size_t *needed,
                                                  aclck_fault *fault) {
    const aclck_posix_text text = text_of(given);
    const aclck_creation creation = {given->number, given->umask, given->options};
    return aclck_posix_create(&text, &creation, out, needed, fault);
}

static inline enum aclck_status make_posix_bridge(const struct given *given, aclck_buffer out, size_t *needed,
                                                  aclck_fault *fault) {
    const aclck_posix_text text = text_of(given);
    return aclck_posix_bridge(&text, out, needed, fault);
}

/* ---- the same of attributes with POSIX ACLs */

/* Returns how many entries there may be, for an attribute of some bytes, before and after a mask is added. */
static inline size_t most_entries(size_t bytes) {
    return bytes / 8 + 1;
}

/* Reads an attribute into the first half of the room. */
static inline enum aclck_status read_attribute(const struct given *given, aclck_entries *entries, aclck_fault *fault) {
    aclck_entry_buffer room;
    room.at = given->room;
    room.cap = given->entries;
    entries->at = given->room;
    entries->len = 0;
    return aclck_entries_from_attribute(given->bytes, room, &entries->len, fault);
}

static inline enum aclck_status make_attribute_bridge(const struct given *given, aclck_buffer out, size_t *needed,
                                                      aclck_fault *fault) {
    aclck_entries entries;
    enum aclck_status status = read_attribute(given, &entries, fault);
    return status ? status : aclck_entries_bridge(entries, out, needed, fault);
}

/* The attribute with the access ACL of a text that make_posix_show() wrote, which has ids and no names. */
static inline enum aclck_status make_attribute(const struct given *given, aclck_buffer out, size_t *needed,
                                               aclck_fault *fault) {
    const aclck_posix_text text = text_of(given);
    const aclck_entry_buffer room = {given->room, given->entries};
    aclck_entries entries = {given->room, 0};
    enum aclck_status status = aclck_entries_from_form(&text, ACLCK_POSIX_TEXT, room, &entries.len, fault);
    return status ? status : aclck_entries_to_attribute(entries, out, needed, fault);
}

/* How a new ACL is made of an ACL. */
enum change { CHMOD, CALC_MASK, CREATE };

static inline enum aclck_status changed(const struct given *given, enum change change, aclck_entries entries,
                                        aclck_entry_buffer room, size_t *count, aclck_fault *fault) {
    const aclck_creation creation = {given->number, given->umask, given->options};
    if (change == CHMOD)
        return aclck_entries_chmod(entries, given->number, room, count, fault);
    if (change == CALC_MASK)
        return aclck_entries_calc_mask(entries, room, count, fault);
    return aclck_entries_create(entries, &creation, room, count, fault);
}

/* Reads the attribute, makes the new ACL in the second half of the room, and writes its attribute. */
static inline enum aclck_status make_changed(const struct given *given, enum change change, aclck_buffer out,
                                             size_t *needed, aclck_fault *fault) {
    aclck_entries entries, made;
    aclck_entry_buffer room;
    enum aclck_status status = read_attribute(given, &entries, fault);
    room.at = given->room + given->entries;
    room.cap = given->entries;
    made.at = room.at;
    made.len = 0;
    if (!status)
        status = changed(given, change, entries, room, &made.len, fault);
    return status ? status : aclck_entries_to_attribute(made, out, needed, fault);
}

static inline enum aclck_status make_attribute_chmod(const struct given *given, aclck_buffer out, size_t *needed,
                                                     aclck_fault *fault) {
    return make_changed(given, CHMOD, out, needed, fault);
}

static inline enum aclck_status make_attribute_calc_mask(const struct given *given, aclck_buffer out, size_t *needed,
                                                         aclck_fault *fault) {
    return make_changed(given, CALC_MASK, out, needed, fault);
}

static inline enum aclck_status make_attribute_create(const struct given *given, aclck_buffer out, size_t *needed,
                                                      aclck_fault *fault) {
    return make_changed(given, CREATE, out, needed, fault);
}

/* The attribute of a file that has only a mode: the entries of nobody, after the mode is set. */
static inline enum aclck_status make_of_mode(const struct given *given, aclck_buffer out, size_t *needed,
                                             aclck_fault *fault) {
    static const aclck_entry nobody[] = {{ACLCK_TAG_USER_OBJ, 0, 0}, {ACLCK_TAG_GROUP_OBJ, 0, 0},
                                         {ACLCK_TAG_OTHER, 0, 0}};
    const aclck_entries entries = {nobody, 3};
    aclck_entry entry[3];
    const aclck_entry_buffer room = {entry, 3};
    aclck_entries made = {entry, 0};
    enum aclck_status status = aclck_entries_chmod(entries, given->number, room, &made.len, fault);
    return status ? status : aclck_entries_to_attribute(made, out, needed, fault);
}

/* ---- what calls write as texts */

/* A line of aclck_table(): the place of an ACE, its kind, whether its who is a group, and its who. */
struct row {
    unsigned long place;
    int is_deny, is_group;
    aclck_bytes who;
};

/* Takes the bytes up to a character from the front of `text`, and that character too. */
static inline aclck_bytes cut(aclck_bytes *text, char at) {
    const char *from = text->at, *end = memchr(from, at, text->len);
    aclck_bytes piece;
    piece.at = from;
    piece.len = end ? (size_t)(end - from) : text->len;
    text->at = from + piece.len + (end != NULL);
    text->len -= piece.len + (end != NULL);
    return piece;
}

/* Takes a line of aclck_table() from the front of `text`. Returns 0 if there is none. */
static inline int next_row(aclck_bytes *text, struct row *row) {
    aclck_bytes line, place, kind, group;
    size_t i;
    if (text->len == 0)
        return 0;
    line = cut(text, '\n');
    place = cut(&line, ' ');
    kind = cut(&line, ' ');
    group = cut(&line, ' ');
    row->place = 0;
    for (i = 0; i < place.len; i++)
        row->place = row->place * 10 + (unsigned long)(((const char *)place.at)[i] - '0');
    row->is_deny = kind.len == 4;
    row->is_group = group.len == 5;
    row->who = line;
    return 1;
}

/* Reads `u:NAME=ID` or `g:NAME=ID`, where the last `=` is in front of the id. Returns 0 if `word` is neither. */
static inline int read_name(aclck_bytes word, aclck_name *name) {
    const char *at = word.at;
    size_t last = word.len, i;
    uint64_t id = 0;
    while (last > 0 && at[last - 1] != '=')
        last--;
    if (last < 3 || last == word.len || (at[0] != 'u' && at[0] != 'g') || at[1] != ':')
        return 0;
    for (i = last; i < word.len; i++) {
        if (at[i] < '0' || at[i] > '9' || (id = id * 10 + (uint64_t)(at[i] - '0')) > UINT32_MAX)
            return 0;
    }
    name->name.at = at + 2;
    name->name.len = last - 3;
    name->id = (uint32_t)id;
    name->is_group = at[0] == 'g';
    return 1;
}

#endif
