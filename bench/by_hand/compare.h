/* compare: for each right, and each principal of an ACE that has it, the place and the type of the first such ACE of
 * each list. Places count the ACEs that have the right. All other principals are treated as everyone is. */

typedef struct {
    u32 here, there, turn;
    u8 here_allows, there_allows;
} Said;

/* The places of the ACEs that take part, by right. */
typedef struct {
    u32 *places, starts[COUNT + 1];
} Rights;

static Rights rights_of(const List *list)
{
    Rights of = { 0, { 0 } };
    u32 next[COUNT];
    for (u32 k = 0; k < list->count; k++)
        if (!(list->aces[k].flags & INHERIT_ONLY))
            for (u32 mask = list->aces[k].mask; mask; mask &= mask - 1)
                of.starts[bit_at(mask) + 1]++;
    for (int bit = 0; bit < COUNT; bit++) {
        of.starts[bit + 1] += of.starts[bit];
        next[bit] = of.starts[bit];
    }
    of.places = room(of.starts[COUNT], sizeof(u32));
    for (u32 k = 0; k < list->count; k++)
        if (!(list->aces[k].flags & INHERIT_ONLY))
            for (u32 mask = list->aces[k].mask; mask; mask &= mask - 1)
                of.places[next[bit_at(mask)]++] = k;
    return of;
}

/* What both lists say of a right: the rows of its principals, what is said of each row, and what everyone is granted.
 * What is said of a row in an earlier turn does not count. */
typedef struct {
    Said *said;
    u32 *rows, count, turn, here_end, there_end;
    u8 here_allows, there_allows;
} Right;

static void say(const List *list, const u32 *number, const Rights *of, int bit, Right *it, int is_there)
{
    u32 start = of->starts[bit], count = of->starts[bit + 1] - start, *end = is_there ? &it->there_end : &it->here_end;
    u8 *end_allows = is_there ? &it->there_allows : &it->here_allows;
    *end_allows = 0;
    for (*end = 0; *end < count; ++*end) {
        u32 at = of->places[start + *end], row = number[at];
        const Ace *ace = &list->aces[at];
        if (ace->rank == EVERYONE) {
            *end_allows = ace->kind == ALLOW;
            return;
        }
        Said *said = &it->said[row];
        if (said->turn != it->turn) {
            *said = (Said){ ~0u, ~0u, it->turn, 0, 0 };
            it->rows[it->count++] = row;
        }
        u32 *place = is_there ? &said->there : &said->here;
        if (*place == ~0u) {
            *place = *end;
            *(is_there ? &said->there_allows : &said->here_allows) = ace->kind == ALLOW;
        }
    }
}

/* Finds what both lists say of a right. */
static void hear(const List *lists, const u32 *number, const Rights *of, int bit, Right *it)
{
    it->count = 0;
    it->turn++;
    say(&lists[0], number, &of[0], bit, it, 0);
    say(&lists[1], number + lists[0].count, &of[1], bit, it, 1);
    for (u32 k = 0; k < it->count; k++) {
        Said *said = &it->said[it->rows[k]];
        if (said->here == ~0u)
            said->here = it->here_end, said->here_allows = it->here_allows;
        if (said->there == ~0u)
            said->there = it->there_end, said->there_allows = it->there_allows;
    }
}

static void rise(u32 *table, u32 size)
{
    for (u32 k = 1; k < size; k++)
        if (table[k] < table[k - 1])
            table[k] = table[k - 1];
}

/* Returns the first row below `limit` for which an overlapping row of the other type is before it in one of the lists
 * only. */
static u32 first_inverting(const Right *right, const Rows *rows, u32 limit)
{
    u32 *tables[2][2][2], size = (right->here_end > right->there_end ? right->here_end : right->there_end) + 2;
    for (int k = 0; k < 8; k++)
        tables[k >> 2][k >> 1 & 1][k & 1] = cleared(size, sizeof(u32));
    for (u32 k = 0; k < right->count; k++) {
        const Said *it = &right->said[right->rows[k]];
        u32 **of = tables[it->here_allows][rows->first[right->rows[k]]->rank != USER];
        if (of[0][it->here + 1] < it->there + 1)
            of[0][it->here + 1] = it->there + 1;
        if (of[1][it->there + 1] < it->here + 1)
            of[1][it->there + 1] = it->here + 1;
    }
    for (int k = 0; k < 8; k++)
        rise(tables[k >> 2][k >> 1 & 1][k & 1], size);
    for (u32 k = 0; k < right->count; k++) {
        u32 row = right->rows[k];
        const Said *it = &right->said[row];
        u32 **others = tables[!it->here_allows][1], **users = tables[!it->here_allows][0];
        if (row >= limit)
            continue;
        if (others[0][it->here] > it->there + 1 || others[1][it->there] > it->here + 1)
            limit = row;
        else if (rows->first[row]->rank != USER
                 && (users[0][it->here] > it->there + 1 || users[1][it->there] > it->here + 1))
            limit = row;
    }
    for (int k = 0; k < 8; k++)
        free(tables[k >> 2][k >> 1 & 1][k & 1]);
    return limit;
}

static int inverts(const Said *a, const Said *b, int are_users)
{
    return !are_users && a->here_allows != b->here_allows && (b->here < a->here) != (b->there < a->there);
}

/* Returns the first row after `row` that inverts it. */
static u32 first_inverted(const Right *right, const Rows *rows, u32 row)
{
    u32 least = ~0u;
    int is_user = rows->first[row]->rank == USER;
    for (u32 k = 0; k < right->count; k++) {
        u32 other = right->rows[k];
        if (other > row && other < least
            && inverts(&right->said[row], &right->said[other], is_user && rows->first[other]->rank == USER))
            least = other;
    }
    return least;
}

static void put_strange(const char *what, u8 letter, u32 len)
{
    put_text(what);
    want(len + 1);
    memset(out.bytes + out.len, letter, len);
    out.len += len;
    put_byte('\n');
}

static void put_name(const char *what, const Ace *ace)
{
    put_text(what);
    put(ace->who, ace->len);
    put_byte('\n');
}

static void put_difference(const Rows *rows, u32 mentioned, const u32 *set, int many, int bit, int first_grants)
{
    u32 strange = 1;
    const Ace *user = 0, *names[2];
    int is_owner = 0, has_group = 0, groups = 0;
    for (u32 row = 0; row < mentioned; row++)
        if ((rows->first[row]->rank == USER || rows->first[row]->rank == GROUP_NAMED)
            && strange <= rows->first[row]->len)
            strange = rows->first[row]->len + 1;
    for (int k = 0; k < many; k++) {
        const Ace *ace = rows->first[set[k]];
        if (ace->rank == USER)
            user = ace;
        is_owner |= ace->rank == OWNER;
        has_group |= ace->rank == GROUP;
        if (ace->rank == GROUP_NAMED)
            names[groups++] = ace;
    }
    put_text("differ\n");
    if (user && is_owner)
        put_name("owner ", user);
    else
        put_strange("owner ", is_owner ? 'u' : 'o', strange);
    if (has_group && groups)
        put_name("group ", names[0]);
    else
        put_strange("group ", 'g', strange);
    if (user)
        put_name("user ", user);
    else
        put_strange("user ", 'u', strange);
    for (int k = 0; k < groups; k++)
        put_name("member ", names[k]);
    if (has_group && !groups)
        put_strange("member ", 'g', strange);
    put_text("mask ");
    put_set(rights, 1u << bit);
    put_text(first_grants ? "\nfirst granted\nsecond denied\n" : "\nfirst denied\nsecond granted\n");
    finish(1);
}

/* Makes the rows of both lists with one sort. The places of the second list count from the end of the first list. */
static Rows rows_of_both(const List *first, const List *second)
{
    const Ace *named = first_named(first);
    if (!named)
        named = first_named(second);
    u32 common = named ? common_start(named, second, common_start(named, first, named->len)) : 0;
    u32 both = first->count + second->count;
    Headed *items = room(both, sizeof(Headed));
    u32 count = (u32)(headed(second, first->count, common, headed(first, 0, common, items)) - items);
    return numbered(sorted(items, count), count, both);
}

/* Returns the number of a principal among the rows, or the number of rows if it is in none. */
static u32 found(const Rows *rows, const Ace *ace)
{
    Headed wanted = { head_of(ace, 0), ace, 0 };
    u32 low = 0, high = rows->count;
    while (low < high) {
        u32 middle = low + (high - low) / 2;
        Headed there = { head_of(rows->first[middle], 0), rows->first[middle], 0 };
        if (is_same(&there, &wanted))
            return middle;
        if (is_before(&there, &wanted))
            low = middle + 1;
        else
            high = middle;
    }
    return rows->count;
}

/* Makes the rows of both lists if the second list names nobody whom the first does not name. Only the first list is
 * sorted. An ACE of the second list is looked up next to the place of the ACE before it, and otherwise by binary
 * search. */
static int rows_by_finger(const List *first, const List *second, Rows *to)
{
    Rows rows = rows_of(first);
    u32 *number = room((size_t)first->count + second->count, sizeof(u32)), finger = 0;
    memcpy(number, rows.number, first->count * sizeof(u32));
    for (u32 k = 0; k < second->count; k++) {
        const Ace *ace = &second->aces[k];
        if (ace->flags & INHERIT_ONLY)
            continue;
        for (u32 tries = 0; tries < 2 && finger < first->count && first->aces[finger].flags & INHERIT_ONLY; tries++)
            finger++;
        if (finger < first->count && !(first->aces[finger].flags & INHERIT_ONLY)
            && is_same_principal(&first->aces[finger], ace)) {
            number[first->count + k] = rows.number[finger];
        } else if ((number[first->count + k] = found(&rows, ace)) == rows.count) {
            free(number);
            return 0;
        }
        finger++;
    }
    *to = (Rows){ rows.first, number, rows.count };
    return 1;
}

/* Returns the first ACE from a place on that takes part and has a right. */
static u32 next_with(const List *list, u32 place, int bit)
{
    while (place < list->count && (!(list->aces[place].mask >> bit & 1) || list->aces[place].flags & INHERIT_ONLY))
        place++;
    return place;
}

/* Returns the rights for which the lists can differ. For the others, both have the same ACEs in the same order. */
static u32 rights_apart(const List *first, const List *second, const u32 *number, u32 mask)
{
    u32 apart = 0;
    u32 here[COUNT] = { 0 };
    for (u32 k = 0; k < second->count && apart != mask; k++) {
        if (second->aces[k].flags & INHERIT_ONLY)
            continue;
        for (u32 left = second->aces[k].mask & ~apart; left; left &= left - 1) {
            int bit = bit_at(left);
            u32 place = here[bit] = next_with(first, here[bit], bit);
            if (place == first->count || first->aces[place].kind != second->aces[k].kind
                || number[place] != number[first->count + k])
                apart |= 1u << bit;
            here[bit]++;
        }
    }
    for (u32 left = mask & ~apart; left; left &= left - 1)
        if (next_with(first, here[bit_at(left)], bit_at(left)) < first->count)
            apart |= left & -left;
    return apart;
}

static u32 all_rights(const List *list)
{
    u32 mask = 0;
    for (u32 k = 0; k < list->count; k++)
        if (!(list->aces[k].flags & INHERIT_ONLY))
            mask |= list->aces[k].mask;
    return mask;
}

static void compare(void)
{
    List first, second;
    read_all();
    const u8 *last = in.bytes + in.len, *between = parse(in.bytes, last, &first);
    if (parse(between, last, &second) != last)
        end(2, "refused");
    size_t half = (size_t)(between - in.bytes);
    if (half * 2 == in.len && !memcmp(in.bytes, between, half)) {
        put_text("same\n");
        finish(0);
    }
    Rows rows;
    if (!rows_by_finger(&first, &second, &rows))
        rows = rows_of_both(&first, &second);
    u32 mentioned = rows.count, set[2] = { ~0u, ~0u };
    if (mentioned && rows.first[mentioned - 1]->rank == EVERYONE)
        mentioned--;
    u32 mask = rights_apart(&first, &second, rows.number, all_rights(&first) | all_rights(&second));
    const List lists[2] = { first, second };
    const Rights of[2] = { rights_of(&first), rights_of(&second) };
    Right right = { cleared(rows.count, sizeof(Said)), room(rows.count, sizeof(u32)), 0, 0, 0, 0, 0, 0 };
    /* nobody or one principal matches; if nobody does, `single` is 0, and otherwise one more than the row */
    u32 single = mentioned + 1;
    int bit = -1, grants = 0;
    for (u32 left = mask; left && single; left &= left - 1) {
        int b = bit_at(left);
        hear(lists, rows.number, of, b, &right);
        if (right.here_allows != right.there_allows)
            single = 0, bit = b, grants = right.here_allows;
        for (u32 k = 0; k < right.count; k++) {
            const Said *said = &right.said[right.rows[k]];
            if (right.rows[k] + 1 < single && said->here_allows != said->there_allows)
                single = right.rows[k] + 1, bit = b, grants = said->here_allows;
        }
    }
    if (bit >= 0) {
        set[0] = single - 1;
        put_difference(&rows, mentioned, set, single > 0, bit, grants);
    }
    /* what is said of a single right is still known */
    for (u32 left = mask; left; left &= left - 1) {
        int b = bit_at(left);
        if (mask & (mask - 1))
            hear(lists, rows.number, of, b, &right);
        u32 most = set[0] == ~0u ? mentioned : set[0] + 1, row = first_inverting(&right, &rows, most);
        if (row == most)
            continue;
        u32 other = first_inverted(&right, &rows, row);
        if (row < set[0] || other < set[1]) {
            set[0] = row, set[1] = other, bit = b;
            grants = right.said[row].here < right.said[other].here ? right.said[row].here_allows
                                                                   : right.said[other].here_allows;
        }
    }
    if (bit >= 0)
        put_difference(&rows, mentioned, set, 2, bit, grants);
    put_text("same\n");
    finish(0);
}
