/* check-nfs, mode, child, show-nfs, encode. */

typedef struct {
    const u8 *name;
    size_t len;
} Word;

static int by_bytes(const u8 *a, size_t a_len, const u8 *b, size_t b_len)
{
    int order = memcmp(a, b, a_len < b_len ? a_len : b_len);
    return order ? order : (a_len > b_len) - (a_len < b_len);
}

static int word_order(const void *a, const void *b)
{
    const Word *x = a, *y = b;
    return by_bytes(x->name, x->len, y->name, y->len);
}

/* Names in order, and a number for each: its first eight bytes. */
typedef struct {
    Word *words;
    u64 *heads;
    size_t count;
} Names;

static u64 start_of(const u8 *name, size_t len)
{
    u64 bytes = 0;
    memcpy(&bytes, name, len < 8 ? len : 8);
    return __builtin_bswap64(bytes);
}

/* Returns the same for a name in the input. */
static inline u64 start_in_input(const u8 *name, u32 len)
{
    u64 bytes;
    memcpy(&bytes, name, 8);
    bytes = __builtin_bswap64(bytes);
    return len < 8 ? bytes & ~(~0ull >> len * 8) : bytes;
}

/* Sorts words, unless they are in order. */
static Names names_of(Word *words, size_t count)
{
    Names names = { words, room(count, sizeof(u64)), count };
    for (size_t k = 1; k < count; k++)
        if (word_order(&words[k - 1], &words[k]) > 0) {
            qsort(words, count, sizeof(Word), word_order);
            break;
        }
    for (size_t k = 0; k < count; k++)
        names.heads[k] = start_of(words[k].name, words[k].len);
    return names;
}

/* Returns where the first number that is not below `head` is. */
static inline size_t first_not_below(const u64 *heads, size_t count, u64 head)
{
    const u64 *first = heads;
    while (count) {
        size_t half = count / 2;
        int is_below = heads[half] < head;
        heads += is_below ? half + 1 : 0;
        count = is_below ? count - half - 1 : half;
    }
    return (size_t)(heads - first);
}

/* Returns whether a name is among the names. `head` is the number for it. */
static int is_member(const Names *names, u64 head, const u8 *name, size_t len)
{
    size_t low = first_not_below(names->heads, names->count, head);
    if (low == names->count || names->heads[low] != head)
        return 0;
    size_t high = names->count;
    if (head != ~0ull)
        high = low + first_not_below(names->heads + low, names->count - low, head + 1);
    while (low < high) {
        size_t half = (low + high) / 2;
        int order = by_bytes(name, len, names->words[half].name, names->words[half].len);
        if (!order)
            return 1;
        if (order < 0)
            high = half;
        else
            low = half + 1;
    }
    return 0;
}

static void check_nfs(int argc, char **argv)
{
    const char *owner = option(argc, argv, "owner"), *group = option(argc, argv, "group");
    const char *user = option(argc, argv, "user"), *mask = option(argc, argv, "mask");
    if (!owner || !group || !user || !mask)
        end(3, "usage");
    Word *words = room((size_t)argc, sizeof(Word));
    size_t count = 0;
    for (int k = 2; k < argc; k++)
        if (!strncmp(argv[k], "--", 2))
            k += argv[k][2] != 0;
        else
            words[count++] = (Word){ (const u8 *)argv[k], strlen(argv[k]) };
    Names names = names_of(words, count);
    u32 left = strcmp(mask, "none") ? set_of(rights, (const u8 *)mask, (const u8 *)mask + strlen(mask)) : 0;
    List list = read_list();
    size_t user_len = strlen(user);
    const u8 *owning = (const u8 *)group;
    int is_owner = !strcmp(owner, user);
    int in_group = is_member(&names, start_of(owning, strlen(group)), owning, strlen(group));
    for (const Ace *ace = list.aces, *last = ace + list.count; left && ace < last; ace++) {
        if (!(ace->mask & left) || ace->flags & INHERIT_ONLY)
            continue;
        int matches = ace->rank == USER ? ace->len == user_len && !memcmp(ace->who, user, user_len)
            : ace->rank == OWNER        ? is_owner
            : ace->rank == GROUP        ? in_group
            : ace->rank == GROUP_NAMED  ? is_member(&names, start_in_input(ace->who, ace->len), ace->who, ace->len)
                                        : 1;
        if (matches && ace->kind == DENY)
            break;
        if (matches)
            left &= ~ace->mask;
    }
    put_text(left ? "denied\n" : "granted\n");
    finish(left ? 1 : 0);
}

static u32 digit_of(const List *list, int rank)
{
    u32 decided = 0, granted = 0;
    for (const Ace *ace = list->aces, *last = ace + list->count; ace < last; ace++)
        if (!(ace->flags & INHERIT_ONLY) && (ace->rank == rank || ace->rank == EVERYONE)) {
            if (ace->kind == ALLOW)
                granted |= ace->mask & ~decided;
            decided |= ace->mask;
        }
    return (granted & 1 ? 4u : 0) + ((granted & 6) == 6 ? 2u : 0) + (granted & 0x20 ? 1u : 0);
}

static void mode(void)
{
    List list = read_list();
    put_byte((u8)('0' + digit_of(&list, OWNER)));
    put_byte((u8)('0' + digit_of(&list, GROUP)));
    put_byte((u8)('0' + digit_of(&list, EVERYONE)));
    put_byte('\n');
    finish(0);
}

/* Returns the flags of an ACE in a new object, or -1 if the object does not have the ACE. */
static int child_flags(u32 flags, int is_dir)
{
    if (!is_dir)
        return flags & FILE_INHERIT ? (int)(flags & 0x70) : -1;
    if (flags & NO_PROPAGATE)
        return flags & DIRECTORY_INHERIT ? (int)(flags & 0x70) : -1;
    if (flags & DIRECTORY_INHERIT)
        return (int)(flags & 0x77);
    return flags & FILE_INHERIT ? (int)((flags & 0x77) | INHERIT_ONLY) : -1;
}

static List child_of(List parent, int is_dir)
{
    List list = { room(parent.count, sizeof(Ace)), 0 };
    for (u32 k = 0; k < parent.count; k++) {
        int flags = child_flags(parent.aces[k].flags, is_dir);
        if (flags >= 0) {
            list.aces[list.count] = parent.aces[k];
            list.aces[list.count++].flags = (u8)flags;
        }
    }
    return list;
}

static void child(int argc, char **argv)
{
    const char *kind = option(argc, argv, "kind");
    if (!kind)
        end(3, "usage");
    List parent = read_list();
    size_t head = begin_list();
    u32 count = 0;
    int is_dir = !strcmp(kind, "dir");
    for (const Ace *ace = parent.aces, *last = ace + parent.count; ace < last; ace++) {
        int flags = child_flags(ace->flags, is_dir);
        if (flags >= 0) {
            put_ace(ace->kind, (u32)flags, ace->mask, ace->who, ace->len);
            count++;
        }
    }
    put_word(out.bytes + head, count);
    finish(0);
}

static void show_nfs(void)
{
    List list = read_list();
    for (const Ace *ace = list.aces, *last = ace + list.count; ace < last; ace++) {
        want(LONGEST + 500);
        u8 *at = out.bytes + out.len;
        memcpy(at, ace->kind == ALLOW ? "ALLOW " : "DENY  ", 6);
        at = put_set_at(at + (ace->kind == ALLOW ? 6 : 5), flag_names, ace->flags);
        *at++ = ' ';
        at = put_set_at(at, rights, ace->mask);
        *at++ = ' ';
        memcpy(at, ace->who, ace->len);
        at[ace->len] = '\n';
        out.len = (size_t)(at + ace->len + 1 - out.bytes);
    }
    finish(0);
}

static int is_blank(const u8 *at, const u8 *last)
{
    while (at < last && (*at == ' ' || *at == '\t'))
        at++;
    return at == last;
}

static const u8 *space(const u8 *at, const u8 *last)
{
    const u8 *found = memchr(at, ' ', (size_t)(last - at));
    if (!found)
        end(2, "refused");
    return found;
}

static void encode(void)
{
    read_all();
    size_t head = begin_list();
    u32 count = 0, weight = 0;
    const u8 *last = in.bytes + in.len;
    for (const u8 *at = in.bytes; at < last;) {
        const u8 *feed = memchr(at, '\n', (size_t)(last - at)), *until = feed ? feed : last;
        if (*at != '#' && !is_blank(at, until)) {
            const u8 *flags_at = space(at, until) + 1, *mask_at = space(flags_at, until) + 1;
            const u8 *who = space(mask_at, until) + 1;
            size_t type = (size_t)(flags_at - 1 - at);
            u32 kind = is_name("ALLOW", at, type) ? ALLOW : is_name("DENY", at, type) ? DENY : 2;
            u32 flags = set_of(flag_names, flags_at, mask_at - 1), mask = set_of(rights, mask_at, who - 1);
            u32 len = (u32)(until - who);
            weight += (u32)__builtin_popcount(mask);
            if (++count > MOST || kind > 1 || weight > MOST || len - 1 >= LONGEST || !is_who(who, len)
                || rank_of(who, len, flags) < 0)
                end(2, "refused");
            put_ace(kind, flags, mask, who, len);
        }
        at = feed ? feed + 1 : last;
    }
    put_word(out.bytes + head, count);
    finish(0);
}
