/* NFSv4 lists: their XDR, and the names of rights and flags. */

typedef struct {
    const u8 *who;
    u32 len, mask;
    u8 kind, flags, rank;
} Ace;

typedef struct {
    Ace *aces;
    u32 count;
} List;

static inline u32 word_at(const u8 *at)
{
    u32 word;
    memcpy(&word, at, 4);
    return __builtin_bswap32(word);
}

static inline void put_word(u8 *at, u32 word)
{
    word = __builtin_bswap32(word);
    memcpy(at, &word, 4);
}

static int is_utf8(const u8 *at, const u8 *last)
{
    while (at < last) {
        u32 first = *at++;
        if (first < 0x80)
            continue;
        int more = first >= 0xf0 ? 3 : first >= 0xe0 ? 2 : 1;
        if (first < 0xc2 || first > 0xf4 || last - at < more)
            return 0;
        if ((first == 0xe0 && *at < 0xa0) || (first == 0xed && *at > 0x9f) || (first == 0xf0 && *at < 0x90)
            || (first == 0xf4 && *at > 0x8f))
            return 0;
        for (; more; more--)
            if ((*at++ & 0xc0) != 0x80)
                return 0;
    }
    return 1;
}

static int is_any_who(const u8 *who, u32 len)
{
    for (u32 k = 0; k < len; k++)
        if (who[k] < 0x20 || who[k] == 0x7f)
            return 0;
    return is_utf8(who, who + len);
}

/* Returns whether each of eight bytes is printable ASCII. */
static inline int are_plain(u64 bytes)
{
    const u64 each = 0x0101010101010101;
    return !((bytes | (bytes - 0x20 * each) | ((bytes ^ 0x7f * each) - each)) & 0x80 * each);
}

/* Reads eight bytes. Those from `len` on count as blanks. */
static inline u64 eight_at(const u8 *at, u32 len)
{
    u64 bytes;
    memcpy(&bytes, at, 8);
    if (len >= 8)
        return bytes;
    u64 mask = ~0ull << len * 8;
    return (bytes & ~mask) | (0x2020202020202020 & mask);
}

static inline int is_who(const u8 *who, u32 len)
{
    for (u32 k = 0; k < len; k += 8)
        if (!are_plain(eight_at(who + k, len - k)))
            return is_any_who(who, len);
    return 1;
}

/* Returns the rank of a who, or -1 if it ends in `@` and is not one of the three special identifiers. */
static inline int rank_of(const u8 *who, u32 len, u32 flags)
{
    if (who[len - 1] != '@')
        return flags & OF_GROUP ? GROUP_NAMED : USER;
    if (len == 6 && !memcmp(who, "OWNER@", 6))
        return OWNER;
    if (len == 6 && !memcmp(who, "GROUP@", 6))
        return GROUP;
    return len == 9 && !memcmp(who, "EVERYONE@", 9) ? EVERYONE : -1;
}

static const u8 *parse(const u8 *at, const u8 *last, List *list)
{
    if (last - at < 4 || (list->count = word_at(at)) > MOST)
        end(2, "refused");
    at += 4;
    list->aces = room(list->count, sizeof(Ace));
    u32 weight = 0;
    for (u32 k = 0; k < list->count; k++) {
        if (last - at < 16)
            end(2, "refused");
        u32 kind = word_at(at), flags = word_at(at + 4), mask = word_at(at + 8), len = word_at(at + 12);
        weight += (u32)__builtin_popcount(mask);
        if (kind > 1 || flags > 0xff || mask & ~(u32)RIGHTS || weight > MOST || len - 1 >= LONGEST)
            end(2, "refused");
        at += 16;
        u32 whole = (len + 3) & ~3u;
        if ((size_t)(last - at) < whole || !is_who(at, len))
            end(2, "refused");
        for (u32 more = len; more < whole; more++)
            if (at[more])
                end(2, "refused");
        int rank = rank_of(at, len, flags);
        if (rank < 0)
            end(2, "refused");
        list->aces[k] = (Ace){ at, len, mask, (u8)kind, (u8)flags, (u8)rank };
        at += whole;
    }
    return at;
}

static List read_list(void)
{
    List list;
    read_all();
    if (parse(in.bytes, in.bytes + in.len, &list) != in.bytes + in.len)
        end(2, "refused");
    return list;
}

static inline void put_ace(u32 kind, u32 flags, u32 mask, const u8 *who, u32 len)
{
    u32 whole = (len + 3) & ~3u;
    want(16 + whole);
    u8 *at = out.bytes + out.len;
    put_word(at, kind);
    put_word(at + 4, flags);
    put_word(at + 8, mask);
    put_word(at + 12, len);
    put_word(at + 12 + whole, 0);
    put_word(at + 12, len);
    memcpy(at + 16, who, len);
    out.len += 16 + whole;
}

static size_t begin_list(void)
{
    put("\0\0\0\0", 4);
    return out.len - 4;
}

typedef struct {
    u32 bit;
    const char *name, *second;
    u32 len;
} Name;

#define NAME(bit, name, second) { bit, name, second, sizeof(name) - 1 }

/* tools/tables writes both tables. */
static const Name rights[] = {
    NAME(0x1, "READ_DATA", "LIST_DIRECTORY"), NAME(0x2, "WRITE_DATA", "ADD_FILE"),
    NAME(0x4, "APPEND_DATA", "ADD_SUBDIRECTORY"), NAME(0x8, "READ_NAMED_ATTRS", 0), NAME(0x10, "WRITE_NAMED_ATTRS", 0),
    NAME(0x20, "EXECUTE", 0), NAME(0x40, "DELETE_CHILD", 0), NAME(0x80, "READ_ATTRIBUTES", 0),
    NAME(0x100, "WRITE_ATTRIBUTES", 0), NAME(0x200, "WRITE_RETENTION", 0), NAME(0x400, "WRITE_RETENTION_HOLD", 0),
    NAME(0x10000, "DELETE", 0), NAME(0x20000, "READ_ACL", 0), NAME(0x40000, "WRITE_ACL", 0),
    NAME(0x80000, "WRITE_OWNER", 0), NAME(0x100000, "SYNCHRONIZE", 0),
    { 0, 0, 0, 0 },
};

static const Name flag_names[] = {
    NAME(0x1, "FILE", 0), NAME(0x2, "DIR", 0), NAME(0x4, "NOPROP", 0), NAME(0x8, "INHERITONLY", 0),
    NAME(0x10, "SUCCESS", 0), NAME(0x20, "FAILED", 0), NAME(0x40, "GROUP", 0), NAME(0x80, "INHERITED", 0),
    { 0, 0, 0, 0 },
};

static int is_name(const char *name, const u8 *at, size_t len)
{
    return name && !strncmp(name, (const char *)at, len) && !name[len];
}

static u32 bit_of(const Name *names, const u8 *at, size_t len)
{
    for (; names->bit; names++)
        if (is_name(names->name, at, len) || is_name(names->second, at, len))
            return names->bit;
    end(2, "refused");
    return 0;
}

static u32 set_of(const Name *names, const u8 *at, const u8 *last)
{
    u32 set = 0;
    if (last - at == 1 && *at == '-')
        return 0;
    for (;;) {
        const u8 *bar = memchr(at, '|', (size_t)(last - at));
        const u8 *until = bar ? bar : last;
        set |= bit_of(names, at, (size_t)(until - at));
        if (!bar)
            return set;
        at = bar + 1;
    }
}

/* Writes the names of a set at `at`, where there is room for all names, and returns where they end. */
static inline u8 *put_set_at(u8 *at, const Name *names, u32 set)
{
    if (!set)
        *at++ = '-';
    for (int more = 0; set; names++)
        if (set & names->bit) {
            if (more++)
                *at++ = '|';
            memcpy(at, names->name, names->len);
            at += names->len;
            set &= ~names->bit;
        }
    return at;
}

static void put_set(const Name *names, u32 set)
{
    want(400);
    out.len = (size_t)(put_set_at(out.bytes + out.len, names, set) - out.bytes);
}

static const char *option(int argc, char **argv, const char *name)
{
    for (int k = 2; k + 1 < argc; k++)
        if (!strncmp(argv[k], "--", 2) && !strcmp(argv[k] + 2, name))
            return argv[k + 1];
    return 0;
}
