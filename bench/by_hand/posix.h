/* POSIX ACLs. */

enum { USER_OBJ, NAMED_USER, GROUP_OBJ, NAMED_GROUP, MASK, OTHER };

typedef struct {
    u64 key; /* the tag in the high bits and the id in the low bits */
    u32 perm;
} Entry;

typedef struct {
    Entry *entries;
    u32 count, most;
} Acl;

typedef struct {
    const u8 *from, *to;
} Field;

static Word *named[2];
static u32 *ids[2], named_count[2];

static const u8 is_stop[256] = { [':'] = 1, [','] = 1, ['\n'] = 1, ['#'] = 1 };

static int is_blank_byte(u8 byte)
{
    return byte == ' ' || byte == '\t';
}

/* Returns whether a field is a word of this length, or the first letter of that word. */
static inline int is_either(Field field, const char *word, size_t len)
{
    size_t has = (size_t)(field.to - field.from);
    return has == len ? !memcmp(field.from, word, len) : has == 1 && *field.from == (u8)*word;
}

/* Reads the fields of a piece, and returns where it ends: at a comma, a `#`, a line feed or the end of the text. A line
 * feed follows the text. */
static const u8 *fields_of(const u8 *at, Field *fields, int *count)
{
    for (*count = 0;;) {
        while (is_blank_byte(*at))
            at++;
        Field field = { at, at };
        while (!is_stop[*at])
            at++;
        field.to = at;
        while (field.to > field.from && is_blank_byte(field.to[-1]))
            field.to--;
        if (*count == 4)
            end(2, "refused");
        fields[(*count)++] = field;
        if (*at != ':')
            return at;
        at++;
    }
}

static u32 id_of(Field field, int is_group)
{
    u64 id = 0;
    const u8 *at = field.from;
    for (u32 digit; at < field.to && (digit = *at - (u32)'0') < 10; at++)
        if ((id = id * 10 + digit) > 4294967294u)
            end(2, "refused");
    if (at == field.to)
        return (u32)id;
    for (u32 k = 0; k < named_count[is_group]; k++) {
        const Word *word = &named[is_group][k];
        if (word->len == (size_t)(field.to - field.from) && !memcmp(word->name, field.from, word->len))
            return ids[is_group][k];
    }
    end(2, "refused");
    return 0;
}

static u32 perm_of(Field field)
{
    static const u8 bits[256] = { ['r'] = 4, ['w'] = 2, ['x'] = 1, ['-'] = 8 };
    u32 perm = 0;
    for (const u8 *at = field.from; at < field.to; at++) {
        u32 bit = bits[*at];
        if (!bit || perm & bit & 7)
            end(2, "refused");
        perm |= bit;
    }
    return perm & 7;
}

static Entry entry_of(const Field *fields)
{
    u64 tag = is_either(fields[0], "user", 4) ? USER_OBJ
        : is_either(fields[0], "group", 5)    ? GROUP_OBJ
        : is_either(fields[0], "mask", 4)     ? MASK
        : is_either(fields[0], "other", 5)    ? OTHER
                                                : 9;
    u32 id = 0;
    if (tag == 9)
        end(2, "refused");
    if (fields[1].from < fields[1].to) {
        if (tag > GROUP_OBJ)
            end(2, "refused");
        id = id_of(fields[1], tag == GROUP_OBJ);
        tag++;
    }
    return (Entry){ tag << 32 | id, perm_of(fields[2]) };
}

static void add(Acl *acl, Entry entry)
{
    if (acl->count == acl->most) {
        acl->most = acl->most * 2 + 64;
        if (!(acl->entries = realloc(acl->entries, acl->most * sizeof(Entry))))
            end(4, "out of memory");
    }
    acl->entries[acl->count++] = entry;
}

static int entry_order(const void *a, const void *b)
{
    const Entry *x = a, *y = b;
    return (x->key > y->key) - (x->key < y->key);
}

static void validate(Acl *acl)
{
    u32 seen = 0, rises = 1;
    for (u32 k = 1; k < acl->count && rises; k++)
        rises = acl->entries[k - 1].key < acl->entries[k].key;
    if (!rises)
        qsort(acl->entries, acl->count, sizeof(Entry), entry_order);
    for (u32 k = 0; k < acl->count; k++) {
        if (k && acl->entries[k - 1].key == acl->entries[k].key)
            end(2, "refused");
        seen |= 1u << (acl->entries[k].key >> 32);
    }
    u32 needed = 1u << USER_OBJ | 1u << GROUP_OBJ | 1u << OTHER;
    if (seen & (1u << NAMED_USER | 1u << NAMED_GROUP))
        needed |= 1u << MASK;
    if ((seen & needed) != needed)
        end(2, "refused");
}

static Acl access_acl, default_acl;

/* Reads a text, behind which a line feed may be written. */
static void read_entries(u8 *text, size_t len)
{
    const u8 *at = text, *last = at + len;
    text[len] = '\n';
    while (at < last) {
        Field fields[4];
        int count, is_default;
        const u8 *start = at;
        while (at < last && is_blank_byte(*at))
            at++;
        if (at == last)
            break;
        if (*at == '\n') {
            at++;
            continue;
        }
        if (*at != '#')
            for (at = start;; at++) {
                at = fields_of(at, fields, &count);
                is_default = is_either(fields[0], "default", 7);
                if (count - is_default != 3)
                    end(2, "refused");
                add(is_default ? &default_acl : &access_acl, entry_of(fields + is_default));
                if (at == last || *at != ',')
                    break;
            }
        if (at < last && *at == '#')
            while (at < last && *at != '\n')
                at++;
        if (at < last)
            at++;
    }
    validate(&access_acl);
    if (default_acl.count)
        validate(&default_acl);
}

static void read_file(void)
{
    read_all();
    read_entries(in.bytes, in.len);
}

static void names_in(int argc, char **argv)
{
    for (int kind = 0; kind < 2; kind++) {
        named[kind] = room((size_t)argc, sizeof(Word));
        ids[kind] = room((size_t)argc, sizeof(u32));
    }
    for (int k = 2; k < argc; k++) {
        if (!strncmp(argv[k], "--", 2)) {
            k += argv[k][2] != 0;
            continue;
        }
        char *last = strrchr(argv[k], '=');
        int kind = argv[k][0] == 'g';
        if (!last || (argv[k][0] != 'u' && !kind) || argv[k][1] != ':')
            end(3, "usage");
        named[kind][named_count[kind]] = (Word){ (u8 *)argv[k] + 2, (size_t)(last - argv[k] - 2) };
        ids[kind][named_count[kind]++] = (u32)strtoul(last + 1, 0, 10);
    }
}

static const char leads[][8] = { "user:", "user:", "group:", "group:", "mask:", "other:" };
static const u8 lengths[] = { 5, 5, 6, 6, 5, 6 };

static void put_entries(const Acl *acl, const char *lead, size_t len)
{
    want((size_t)acl->count * 30);
    for (const Entry *it = acl->entries, *last = it + acl->count; it < last; it++) {
        u64 tag = it->key >> 32;
        u8 *at = out.bytes + out.len;
        memcpy(at, lead, len);
        memcpy(at += len, leads[tag], 8);
        at += lengths[tag];
        if (tag == NAMED_USER || tag == NAMED_GROUP) {
            u8 digits[10], *from = digits_before(digits + 10, (u32)it->key);
            memcpy(at, from, (size_t)(digits + 10 - from));
            at += digits + 10 - from;
        }
        at[0] = ':';
        at[1] = it->perm & 4 ? 'r' : '-';
        at[2] = it->perm & 2 ? 'w' : '-';
        at[3] = it->perm & 1 ? 'x' : '-';
        at[4] = '\n';
        out.len = (size_t)(at + 5 - out.bytes);
    }
}

static void put_file(void)
{
    put_entries(&access_acl, "", 0);
    put_entries(&default_acl, "default:", 8);
    finish(0);
}

static void show_posix(int argc, char **argv)
{
    names_in(argc, argv);
    read_file();
    put_file();
}

static Entry *entry_at(u64 tag)
{
    for (u32 k = 0; k < access_acl.count; k++)
        if (access_acl.entries[k].key >> 32 == tag)
            return &access_acl.entries[k];
    return 0;
}

static void calc_mask(int argc, char **argv)
{
    names_in(argc, argv);
    read_file();
    u32 perm = 0;
    for (u32 k = 0; k < access_acl.count; k++) {
        u64 tag = access_acl.entries[k].key >> 32;
        if (tag >= NAMED_USER && tag <= NAMED_GROUP)
            perm |= access_acl.entries[k].perm;
    }
    Entry *mask = entry_at(MASK);
    if (mask) {
        mask->perm = perm;
    } else {
        Entry last = access_acl.entries[access_acl.count - 1];
        access_acl.entries[access_acl.count - 1] = (Entry){ (u64)MASK << 32, perm };
        add(&access_acl, last);
    }
    put_file();
}

static void change_mode(int argc, char **argv)
{
    const char *digits = option(argc, argv, "mode");
    if (!digits)
        end(3, "usage");
    u32 mode = (u32)strtoul(digits, 0, 8);
    names_in(argc, argv);
    read_file();
    Entry *mask = entry_at(MASK);
    entry_at(USER_OBJ)->perm = mode >> 6 & 7;
    (mask ? mask : entry_at(GROUP_OBJ))->perm = mode >> 3 & 7;
    entry_at(OTHER)->perm = mode & 7;
    put_file();
}

static const Entry *look_up(u64 key)
{
    u32 low = 0, high = access_acl.count;
    while (low < high) {
        u32 half = (low + high) / 2;
        if (access_acl.entries[half].key < key)
            low = half + 1;
        else
            high = half;
    }
    return low < access_acl.count && access_acl.entries[low].key == key ? &access_acl.entries[low] : 0;
}

static int posix_grants(u32 owner, u32 group, u32 user, const u32 *groups, u32 count, u32 want)
{
    const Entry *mask = look_up((u64)MASK << 32), *entry;
    u32 cut = mask ? mask->perm : 7;
    int matches = 0;
    if (user == owner)
        return (look_up((u64)USER_OBJ << 32)->perm & want) == want;
    if ((entry = look_up((u64)NAMED_USER << 32 | user)))
        return (entry->perm & cut & want) == want;
    for (u32 k = 0; k < count; k++) {
        entry = look_up((u64)NAMED_GROUP << 32 | groups[k]);
        matches |= entry || groups[k] == group;
        if (entry && (entry->perm & cut & want) == want)
            return 1;
        if (groups[k] == group && (look_up((u64)GROUP_OBJ << 32)->perm & cut & want) == want)
            return 1;
    }
    return !matches && (look_up((u64)OTHER << 32)->perm & want) == want;
}

static void check_posix(int argc, char **argv)
{
    const char *owner = option(argc, argv, "owner"), *group = option(argc, argv, "group");
    const char *user = option(argc, argv, "user"), *wanted = option(argc, argv, "want");
    const char *more = option(argc, argv, "groups");
    if (!owner || !group || !user || !wanted)
        end(3, "usage");
    u32 want = 0, count = 0, *groups = room(more ? strlen(more) : 0, sizeof(u32));
    for (const char *at = strcmp(wanted, "none") ? wanted : ""; *at; at++)
        want |= *at == 'r' ? 4 : *at == 'w' ? 2 : 1;
    for (char *at = (char *)more; at && *at; at += *at == ',')
        groups[count++] = (u32)strtoul(at, &at, 10);
    names_in(argc, argv);
    read_file();
    int granted = posix_grants((u32)strtoul(owner, 0, 10), (u32)strtoul(group, 0, 10), (u32)strtoul(user, 0, 10),
                               groups, count, want);
    put_text(granted ? "granted\n" : "denied\n");
    finish(granted ? 0 : 1);
}

static u32 weight, count_of_bridge;

static void put_bridged(const Entry *entry, u32 kind, u32 perm)
{
    u64 tag = entry->key >> 32;
    u8 digits[10], *at;
    u32 mask = (perm & 4 ? 1 : 0) | (perm & 2 ? 6 : 0) | (perm & 1 ? 0x20 : 0);
    if (!perm)
        return;
    weight += (u32)__builtin_popcount(mask);
    if (++count_of_bridge > MOST || weight > MOST)
        end(2, "Limits");
    if (tag == NAMED_USER || tag == NAMED_GROUP) {
        at = digits_before(digits + 10, (u32)entry->key);
        put_ace(kind, tag == NAMED_GROUP ? OF_GROUP : 0, mask, at, (u32)(digits + 10 - at));
    } else {
        const char *who = tag == USER_OBJ ? "OWNER@" : tag == GROUP_OBJ ? "GROUP@" : "EVERYONE@";
        put_ace(kind, 0, mask, (const u8 *)who, (u32)strlen(who));
    }
}

static void bridge(int argc, char **argv)
{
    names_in(argc, argv);
    read_file();
    size_t head = begin_list();
    const Entry *mask = look_up((u64)MASK << 32), *first = access_acl.entries, *last = first + access_acl.count, *it;
    u32 cut = mask ? mask->perm : 7;
    for (it = first; it->key >> 32 < GROUP_OBJ; it++) {
        u32 perm = it->key >> 32 == USER_OBJ ? it->perm : it->perm & cut;
        put_bridged(it, ALLOW, perm);
        put_bridged(it, DENY, 7 - perm);
    }
    const Entry *of_groups = it;
    for (; it->key >> 32 < MASK; it++)
        put_bridged(it, ALLOW, it->perm & cut);
    for (it = of_groups; it->key >> 32 < MASK; it++)
        put_bridged(it, DENY, 7 - (it->perm & cut));
    put_bridged(last - 1, ALLOW, last[-1].perm);
    put_word(out.bytes + head, count_of_bridge);
    finish(0);
}
