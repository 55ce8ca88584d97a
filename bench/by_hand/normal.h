/* normalize and table. */

/* The order of principals: by a head of the rank and seven bytes, and then by the name. The seven bytes follow the
 * bytes with which all names begin. */

typedef struct {
    u64 head;
    const Ace *ace;
    u32 place;
} Headed;

static inline int is_named(const Ace *ace)
{
    return ace->rank == USER || ace->rank == GROUP_NAMED;
}

/* Returns with how many bytes of `first` all names of a list begin, at most `most`. */
static u32 common_start(const Ace *first, const List *list, u32 most)
{
    for (u32 k = 0; k < list->count && most; k++) {
        const Ace *ace = &list->aces[k];
        if (!is_named(ace))
            continue;
        if (ace->len < most)
            most = ace->len;
        if (memcmp(first->who, ace->who, most))
            for (u32 same = 0;; same++)
                if (first->who[same] != ace->who[same]) {
                    most = same;
                    break;
                }
    }
    return most;
}

static const Ace *first_named(const List *list)
{
    for (u32 k = 0; k < list->count; k++)
        if (is_named(&list->aces[k]))
            return &list->aces[k];
    return 0;
}

static inline u64 head_of(const Ace *ace, u32 common)
{
    u64 rank = (u64)ace->rank << 56;
    return is_named(ace) ? rank | start_in_input(ace->who + common, ace->len - common) >> 8 : rank;
}

static inline int is_same_principal(const Ace *a, const Ace *b)
{
    return a->rank == b->rank && (!is_named(a) || (a->len == b->len && !memcmp(a->who, b->who, a->len)));
}

static inline int is_same(const Headed *a, const Headed *b)
{
    return a->head == b->head && is_same_principal(a->ace, b->ace);
}

static inline int is_before(const Headed *a, const Headed *b)
{
    if (a->head != b->head)
        return a->head < b->head;
    if (is_named(a->ace)) {
        int order = by_bytes(a->ace->who, a->ace->len, b->ace->who, b->ace->len);
        if (order)
            return order < 0;
    }
    return a->place < b->place;
}

/* Merges ascending runs, shorter ones first, and writes the result over the items. */
static void merge(Headed *items, u32 count)
{
    u32 *runs = room((size_t)count + 2, sizeof(u32)), many = 0;
    for (u32 k = 0; k < count; k++)
        if (k == 0 || !is_before(&items[k - 1], &items[k]))
            runs[many++] = k;
    runs[many] = count;
    Headed *from = items, *to = many > 1 ? room(count, sizeof(Headed)) : items, *other = to;
    while (many > 1) {
        u32 done = 0;
        for (u32 r = 0; r < many; r += 2) {
            u32 a = runs[r], a_end = runs[r + 1], b = a_end, b_end = r + 2 <= many ? runs[r + 2] : a_end, at = a;
            while (a < a_end && b < b_end)
                to[at++] = is_before(&from[b], &from[a]) ? from[b++] : from[a++];
            memcpy(to + at, from + a, (a_end - a) * sizeof(Headed));
            at += a_end - a;
            memcpy(to + at, from + b, (b_end - b) * sizeof(Headed));
            runs[done++] = runs[r];
        }
        runs[many = done] = count;
        Headed *swapped = from;
        from = to;
        to = swapped;
    }
    if (from != items)
        memcpy(items, from, count * sizeof(Headed));
    if (other != items)
        free(other);
    free(runs);
}

static int is_in_order(const Headed *items, u32 count)
{
    for (u32 k = 1; k < count; k++)
        if (!is_before(&items[k - 1], &items[k]))
            return 0;
    return 1;
}

/* Removes from heads the bits that are the same in all, at both ends of each byte. The order of the heads stays.
 * Returns how many bits are left. */
static int pack(Headed *items, u32 count)
{
    u64 any = 0, all = ~0ull, masks[8];
    int shifts[8], parts = 0, bits = 0;
    for (u32 k = 0; k < count; k++) {
        any |= items[k].head;
        all &= items[k].head;
    }
    for (int byte = 0; byte < 64; byte += 8) {
        u64 apart = (any & ~all) >> byte & 0xff;
        if (!apart)
            continue;
        int low = __builtin_ctzll(apart), wide = 64 - __builtin_clzll(apart) - low;
        shifts[parts] = byte + low - bits;
        masks[parts++] = ((1ull << wide) - 1) << bits;
        bits += wide;
    }
    for (u32 k = 0; k < count; k++) {
        u64 packed = 0;
        for (int part = 0; part < parts; part++)
            packed |= items[k].head >> shifts[part] & masks[part];
        items[k].head = packed;
    }
    return bits;
}

enum { DIGIT = 11 };

/* Sorts items by their heads, and keeps the order of items with equal heads: one pass for each eleven bits in which
 * heads differ. */
static Headed *by_heads(Headed *items, u32 count)
{
    static u32 starts[(1 << DIGIT) + 1];
    const u64 most = (1 << DIGIT) - 1;
    int bits = pack(items, count);
    Headed *from = items, *to = room(count, sizeof(Headed));
    for (int shift = 0; shift < bits; shift += DIGIT) {
        memset(starts, 0, sizeof starts);
        for (u32 k = 0; k < count; k++)
            starts[(from[k].head >> shift & most) + 1]++;
        for (u32 digit = 1; digit <= most; digit++)
            starts[digit] += starts[digit - 1];
        for (u32 k = 0; k < count; k++)
            to[starts[from[k].head >> shift & most]++] = from[k];
        Headed *swapped = from;
        from = to;
        to = swapped;
    }
    return from;
}

/* Items that are in order need no sort. Items with equal heads are sorted by their names. */
static Headed *sorted(Headed *items, u32 count)
{
    if (is_in_order(items, count))
        return items;
    items = by_heads(items, count);
    for (u32 k = 0, next; k < count; k = next) {
        for (next = k + 1; next < count && items[next].head == items[k].head; next++)
            ;
        if (next - k > 1 && is_named(items[k].ace))
            merge(items + k, next - k);
    }
    return items;
}

/* Lists the ACEs that take part. The places of the list count from `first`. */
static Headed *headed(const List *list, u32 first, u32 common, Headed *to)
{
    for (u32 k = 0; k < list->count; k++)
        if (!(list->aces[k].flags & INHERIT_ONLY))
            *to++ = (Headed){ head_of(&list->aces[k], common), &list->aces[k], first + k };
    return to;
}

/* Finds the principals of a list in order, each with an ACE that names it, and the number of the principal of each
 * ACE. */
typedef struct {
    const Ace **first;
    u32 *number, count;
} Rows;

static Rows numbered(const Headed *items, u32 count, u32 places)
{
    Rows rows = { room(count, sizeof(Ace *)), room(places, sizeof(u32)), 0 };
    for (u32 k = 0; k < count; k++) {
        if (!k || !is_same(&items[k - 1], &items[k]))
            rows.first[rows.count++] = items[k].ace;
        rows.number[items[k].place] = rows.count - 1;
    }
    return rows;
}

enum { FEW = 256, SLOTS = 1024 };

/* Returns the number of the principal of an ACE among the items, which are the principals so far, or FEW if there are
 * too many. `slots` is a table of the principals by their heads. `tries` limits how often a search looks further. */
static u32 number_of(const Ace *ace, Headed *items, u32 *count, u32 *slots, u32 *tries)
{
    u64 head = head_of(ace, 0);
    u32 slot = (u32)(head * 0x9e3779b97f4a7c15 >> 54);
    for (; slots[slot]; slot = (slot + 1) % SLOTS) {
        if (is_same_principal(items[slots[slot] - 1].ace, ace))
            return slots[slot] - 1;
        if (!--*tries)
            return FEW;
    }
    if (*count < FEW) {
        items[*count] = (Headed){ head, ace, *count };
        slots[slot] = *count + 1;
    }
    return *count < FEW ? (*count)++ : FEW;
}

/* Finds the rows of a list of few principals, of which only the principals are sorted. Returns whether there are
 * few. */
static int rows_of_few(const List *list, Rows *rows)
{
    static Headed items[FEW];
    static u32 row_of[FEW];
    u32 slots[SLOTS] = { 0 }, tries = list->count + SLOTS, *number = room(list->count, sizeof(u32));
    *rows = (Rows){ room(FEW, sizeof(Ace *)), number, 0 };
    for (u32 k = 0; k < list->count; k++)
        if (!(list->aces[k].flags & INHERIT_ONLY)
            && (number[k] = number_of(&list->aces[k], items, &rows->count, slots, &tries)) == FEW)
            return 0;
    merge(items, rows->count);
    for (u32 row = 0; row < rows->count; row++) {
        rows->first[row] = items[row].ace;
        row_of[items[row].place] = row;
    }
    for (u32 k = 0; k < list->count; k++)
        if (!(list->aces[k].flags & INHERIT_ONLY))
            number[k] = row_of[number[k]];
    return 1;
}

static Rows rows_of(const List *list)
{
    Rows few;
    if (rows_of_few(list, &few))
        return few;
    const Ace *named = first_named(list);
    u32 common = named ? common_start(named, list, named->len) : 0;
    Headed *items = room(list->count, sizeof(Headed));
    u32 count = (u32)(headed(list, 0, common, items) - items);
    return numbered(sorted(items, count), count, list->count);
}

/* Makes the normal form, and passes it to `emit` key by key. */

typedef struct {
    u32 *places, *keys, left, free, count;
} Column;

static int bit_at(u32 mask)
{
    return __builtin_ctz(mask);
}

/* Removes from the masks the bits that change nothing: those that an earlier ACE has decided, and those that only
 * repeat what holds without them. */
static void reduce(const List *list, const u32 *number, u32 rows, u32 *masks)
{
    u32 *seen = cleared(rows, sizeof(u32)), whole = 0, allowed = 0, later_users = 0, later_others = 0;
    for (u32 k = 0; k < list->count; k++) {
        const Ace *ace = &list->aces[k];
        masks[k] = 0;
        if (ace->flags & INHERIT_ONLY)
            continue;
        masks[k] = ace->mask & ~seen[number[k]] & ~whole;
        seen[number[k]] |= masks[k];
        if (ace->rank == EVERYONE) {
            whole |= masks[k];
            if (ace->kind == ALLOW)
                allowed |= masks[k];
        }
    }
    for (u32 k = list->count; k--;) {
        const Ace *ace = &list->aces[k];
        u32 mask = masks[k], odd = ace->kind == ALLOW ? mask & ~allowed : mask & allowed, same = mask & ~odd;
        if (ace->rank == EVERYONE) {
            masks[k] = ace->kind == ALLOW ? mask : 0;
        } else if (ace->rank == USER) {
            masks[k] = odd | (same & later_others);
            later_users |= odd;
        } else {
            masks[k] = odd | (same & (later_users | later_others));
            later_others |= odd;
        }
    }
    free(seen);
}

typedef struct {
    Column columns[COUNT][2][2]; /* by right, by type, and for users or others */
    u32 *left, *free;            /* by key: the bits that are left, and those of them that are free */
    u64 *levels[4];              /* the keys with a free bit, as a tree of 64-bit words */
} Emission;

static void mark(Emission *it, u32 key)
{
    for (int level = 0; level < 4; level++, key >>= 6)
        it->levels[level][key >> 6] |= 1ull << (key & 63);
}

static void unmark(Emission *it, u32 key)
{
    for (int level = 0; level < 4; level++, key >>= 6)
        if (it->levels[level][key >> 6] &= ~(1ull << (key & 63)))
            return;
}

static u32 least(const Emission *it)
{
    u32 key = 0;
    for (int level = 4; level--;)
        key = key << 6 | (u32)__builtin_ctzll(it->levels[level][key]);
    return key;
}

static void fill_columns(Emission *it, const List *list, const u32 *number, const u32 *masks)
{
    u32 weight = 0;
    for (u32 k = 0; k < list->count; k++)
        for (u32 mask = masks[k]; mask; mask &= mask - 1, weight++)
            it->columns[bit_at(mask)][list->aces[k].kind][list->aces[k].rank != USER].count++;
    u32 *places = room((size_t)weight * 2, sizeof(u32));
    for (int bit = 0; bit < COUNT; bit++)
        for (int kind = 0; kind < 2; kind++)
            for (int others = 0; others < 2; others++) {
                Column *column = &it->columns[bit][kind][others];
                column->places = places;
                column->keys = places + weight;
                places += column->count;
                column->count = 0;
            }
    for (u32 k = 0; k < list->count; k++)
        for (u32 mask = masks[k]; mask; mask &= mask - 1) {
            Column *column = &it->columns[bit_at(mask)][list->aces[k].kind][list->aces[k].rank != USER];
            u32 key = number[k] * 2 + (list->aces[k].kind == ALLOW);
            column->places[column->count] = k;
            column->keys[column->count++] = key;
            it->left[key] |= mask & -mask;
        }
}

/* Returns the place of the first ACE of a column that is left. */
static u32 first_left(Emission *it, Column *column, int bit)
{
    while (column->left < column->count && !(it->left[column->keys[column->left]] >> bit & 1))
        column->left++;
    return column->left < column->count ? column->places[column->left] : ~0u;
}

static void set_free(Emission *it, Column *column, int bit, u32 limit)
{
    for (; column->free < column->count && column->places[column->free] < limit; column->free++) {
        u32 key = column->keys[column->free];
        if (it->left[key] >> bit & 1) {
            if (!it->free[key])
                mark(it, key);
            it->free[key] |= 1u << bit;
        }
    }
}

/* Marks the keys of the other type that are free for a right: those before the first overlapping ACE of this type. */
static void look(Emission *it, int bit, int kind)
{
    u32 others = first_left(it, &it->columns[bit][kind][1], bit);
    u32 users = first_left(it, &it->columns[bit][kind][0], bit);
    set_free(it, &it->columns[bit][!kind][0], bit, others);
    set_free(it, &it->columns[bit][!kind][1], bit, users < others ? users : others);
}

/* Returns whether the keys of the ACEs that have a bit left ascend: such a list is its own normal form. */
static int is_rising(const List *list, const u32 *number, const u32 *masks)
{
    u32 least = 0;
    for (u32 k = 0; k < list->count; k++)
        if (masks[k]) {
            u32 key = number[k] * 2 + (list->aces[k].kind == ALLOW);
            if (key < least)
                return 0;
            least = key + 1;
        }
    return 1;
}

static void normal_form(const List *list, const Rows *of, void (*emit)(const Ace *, u32 row, u32 kind, u32 mask))
{
    u32 rows = of->count, *number = of->number, *masks = room(list->count, sizeof(u32));
    reduce(list, number, rows, masks);
    if (is_rising(list, number, masks)) {
        for (u32 k = 0; k < list->count; k++)
            if (masks[k])
                emit(&list->aces[k], number[k], list->aces[k].kind, masks[k]);
        return;
    }
    Emission *it = cleared(1, sizeof(Emission));
    it->left = cleared(rows * 2, sizeof(u32));
    it->free = cleared(rows * 2, sizeof(u32));
    for (int level = 0; level < 4; level++)
        it->levels[level] = cleared((rows * 2 >> 6 * (level + 1)) + 1, sizeof(u64));
    fill_columns(it, list, number, masks);
    for (int bit = 0; bit < COUNT; bit++) {
        look(it, bit, ALLOW);
        look(it, bit, DENY);
    }
    while (it->levels[3][0]) {
        u32 key = least(it), mask = it->free[key], kind = key & 1 ? ALLOW : DENY;
        emit(of->first[key >> 1], key >> 1, kind, mask);
        it->left[key] &= ~mask;
        it->free[key] = 0;
        unmark(it, key);
        for (; mask; mask &= mask - 1)
            look(it, bit_at(mask), (int)kind);
    }
}

static u32 emitted;

static void put_normal(const Ace *ace, u32 row, u32 kind, u32 mask)
{
    (void)row;
    put_ace(kind, ace->rank == GROUP_NAMED ? OF_GROUP : 0, mask, ace->who, ace->len);
    emitted++;
}

static void put_normal_form(List list)
{
    size_t head = begin_list();
    Rows rows = rows_of(&list);
    emitted = 0;
    normal_form(&list, &rows, put_normal);
    put_word(out.bytes + head, emitted);
}

static void normalize(int argc, char **argv)
{
    List list = read_list();
    put_normal_form(list);
    if (argc > 2 && !strcmp(argv[2], "--inherit")) {
        List directory = child_of(list, 1);
        put_normal_form(child_of(list, 0));
        put_normal_form(directory);
        put_normal_form(child_of(directory, 0));
        put_normal_form(child_of(directory, 1));
    }
    finish(0);
}

static u32 asked, *sources;

static void put_row(const Ace *ace, u32 row, u32 kind, u32 mask)
{
    if (!(mask & asked))
        return;
    put_number(sources[row]);
    put_text(kind == ALLOW ? " ALLOW " : " DENY ");
    put_text(ace->rank == GROUP_NAMED ? "GROUP " : "- ");
    put(ace->who, ace->len);
    put_byte('\n');
}

/* Reduces a list to the ACEs that take part and have a right, with that right alone, and returns their places in it. */
static u32 *cut_to(List *list, u32 right)
{
    u32 *places = room(list->count, sizeof(u32)), left = 0;
    for (u32 k = 0; k < list->count; k++)
        if (!(list->aces[k].flags & INHERIT_ONLY) && list->aces[k].mask & right) {
            list->aces[left] = list->aces[k];
            list->aces[left].mask = right;
            places[left++] = k;
        }
    list->count = left;
    return places;
}

static void table(int argc, char **argv)
{
    const char *name = option(argc, argv, "bit");
    if (!name)
        end(3, "usage");
    asked = bit_of(rights, (const u8 *)name, strlen(name));
    List list = read_list();
    u32 *places = cut_to(&list, asked);
    Rows rows = rows_of(&list);
    sources = room(rows.count, sizeof(u32));
    for (u32 k = list.count; k--;)
        sources[rows.number[k]] = places[k];
    normal_form(&list, &rows, put_row);
    finish(0);
}
