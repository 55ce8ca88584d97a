"""Judges lists that are restricted, merged and tidied, for tests/formal. What these lists are is said here by other
definitions, which look at each situation of the names. Nothing of it comes from the library or from formal/.

A list has ACEs (kind, flags, mask, who), with kind 0 for ALLOW and 1 for DENY. Principals and situations are those of
to_posix.py. A set of situations is a number with one bit per situation. A path is a word with one letter per creation,
`d` for a directory and `f` for a file. A key is a kind and a principal.
"""
import collections
import functools

from encoders import nfs
from to_posix import IDENTIFIER_GROUP, INHERIT_ONLY, SPECIAL, read_list, situations

FILE_INHERIT, DIRECTORY_INHERIT, NO_PROPAGATE_INHERIT, INHERITED = 0x01, 0x02, 0x04, 0x80
INHERITANCE = FILE_INHERIT | DIRECTORY_INHERIT | NO_PROPAGATE_INHERIT | INHERIT_ONLY
RIGHTS = [1 << bit for bit in (*range(11), *range(16, 21))]
ALLOW, DENY = 0, 1
HERE, FIVE_PATHS = ("",), ("", "f", "d", "df", "dd")


class Ace(collections.namedtuple("Ace", "kind flags mask who")):
    def with_mask(self, mask):
        return self._replace(mask=mask)

    def named(self, path=""):
        """Returns whom the ACE names at a path, or None if it is not there or does not take part."""
        flags = flags_at(path, self.flags)
        return None if flags is None or flags & INHERIT_ONLY else principal(flags, self.who)


@functools.lru_cache(None)
def principal(flags, who):
    name = who.decode()
    return name if name in SPECIAL else ("group" if flags & IDENTIFIER_GROUP else "user", name)


@functools.lru_cache(None)
def flags_at(path, flags):
    for letter in path:
        flags = None if flags is None else child_flags(letter, flags)
    return flags


def child_flags(letter, flags):
    """Returns the flags of the ACE that a new object gets from an ACE, or None if it gets none."""
    rest = flags & ~INHERITED
    if letter == "f":
        return rest & ~INHERITANCE if flags & FILE_INHERIT else None
    if flags & NO_PROPAGATE_INHERIT:
        return rest & ~INHERITANCE if flags & DIRECTORY_INHERIT else None
    if flags & DIRECTORY_INHERIT:
        return rest & ~INHERIT_ONLY
    return rest | INHERIT_ONLY if flags & FILE_INHERIT else None


def may_overlap(one, other):
    """Returns whether one requester can be both principals. No user is another user."""
    return one == other or not one[0] == other[0] == "user"


def column(aces, right, path=""):
    """Returns the keys of the ACEs that have a right and take part."""
    return [(ace.kind, ace.named(path)) for ace in aces if ace.mask & right and ace.named(path)]


class Situations:
    """Sets of the situations of the names of some lists."""
    def __init__(self, *lists):
        named = {principal(ace.flags, ace.who) for aces in lists for ace in aces}
        members = situations([(ALLOW, 0, one) for one in named])
        self.places = {some: place for place, some in enumerate(members)}
        self.matching = {one: int("".join("01"[one in some] for some in reversed(members)), 2)
                         for one in {*SPECIAL, *named}}

    def granted(self, keys):
        """Returns the situations in which a column allows: the first key that matches decides."""
        allowed = decided = 0
        for kind, one in keys:
            if kind == ALLOW:
                allowed |= self.matching[one] & ~decided
            decided |= self.matching[one]
        return allowed

    def has(self, some, *principals):
        """Returns whether a set has the situation in which these principals match, and no others except EVERYONE@."""
        return bool(some >> self.places[frozenset(("EVERYONE@", *principals))] & 1)


# ---- restricted


def restricted(there, aces, bound):
    """Returns a list without those rights of its ALLOWs that the bound denies in a situation in which the ALLOW
    matches, and no DENY before it."""
    kept, denied = [], dict.fromkeys(RIGHTS, 0)
    granted = {right: there.granted(column(bound, right)) for right in RIGHTS}
    for ace in aces:
        matching = there.matching[ace.named()] if ace.named() else 0
        for right in RIGHTS:
            if ace.kind == ALLOW and matching & ~denied[right] & ~granted[right]:
                ace = ace.with_mask(ace.mask & ~right)
            elif ace.kind == DENY and ace.mask & right:
                denied[right] |= matching
        kept.append(ace)
    return kept


# ---- merged


def names_of(keys):
    """Returns the principals of keys except EVERYONE@, each at its last place."""
    last = list(dict.fromkeys(one for _, one in reversed(keys) if one != "EVERYONE@"))
    return last[::-1]


def merged(there, both, names):
    """Merges two columns, which both allow in some situations. Returns the merged column, and whether it is orderly:
    each DENY came when none of the ALLOWs that were left had to come before it."""
    allows = [one for one in names if there.has(both, one)]
    denies = [one for one in names if one not in allows]
    keys, orderly = [], True

    def wins(one, other):
        return there.has(both, one, other)

    def first_allow():
        return next((one for one in allows
                     if all(wins(one, other) for other in denies if may_overlap(one, other))), None)

    def first_deny():
        return next((other for other in denies
                     if not any(wins(one, other) for one in allows if may_overlap(one, other))), None)

    while allows or denies:
        if one := first_allow():
            allows.remove(one)
            keys.append((ALLOW, one))
            continue
        one = first_deny()
        orderly = orderly and one is not None
        one = one or denies[0]
        denies.remove(one)
        keys.append((DENY, one))
    return keys + [(ALLOW, "EVERYONE@")] * there.has(both), orderly


def some_list_grants(there, wanted, names):
    """Returns whether some column allows in exactly these situations. Keys are taken that decide nothing wrongly, each
    with the situations that it decides, until the rest may be denied."""
    left = there.matching["EVERYONE@"]
    while left & wanted:
        decided = [there.matching[one] & left for one in (*names, "EVERYONE@")]
        taken = next((some for some in decided if some and some & wanted in (0, some)), None)
        if taken is None:
            return False
        left &= ~taken
    return True


# ---- tidied


def needed(there, paths, aces):
    """Returns a list without the rights that change what it grants at none of the paths, from the last ACE on."""
    kept = list(aces)
    for place in reversed(range(len(kept))):
        rest = kept[:place] + kept[place + 1:]
        for right in RIGHTS:
            if kept[place].mask & right and all(there.granted(column(kept, right, path)) ==
                                                there.granted(column(rest, right, path)) for path in paths):
                kept[place] = kept[place].with_mask(kept[place].mask & ~right)
    return [ace for ace in kept if ace.mask]


class Joins:
    """Which ACEs can be joined so that a list grants the same at some paths. If strict, their flags are equal."""
    def __init__(self, strict, paths):
        self.strict, self.paths = strict, paths

    def named(self, ace):
        return [ace.named(path) for path in self.paths]

    def are_alike(self, one, other):
        return (one.kind == other.kind and self.named(one) == self.named(other) and not one.mask & other.mask
                and not (self.strict and one.flags != other.flags))

    def conflict(self, one, other):
        pairs = zip(self.named(one), self.named(other))
        return one.kind != other.kind and any(all(pair) and may_overlap(*pair) for pair in pairs)

    def passing(self, ace, others):
        """Returns the rights with which an ACE can pass others: those of no ACE that conflicts with it."""
        return functools.reduce(lambda mask, other: mask & ~other.mask,
                                (other for other in others if self.conflict(ace, other)), ace.mask)

    def without(self, aces, place):
        """Returns a list without an ACE, whose rights go up or down to the nearest that is alike, or None."""
        ace, above, below = aces[place], aces[:place], aces[place + 1:]
        up = next((at for at in reversed(range(place)) if self.are_alike(ace, above[at])), None)
        if up is not None:
            moved = self.passing(ace, above[up + 1:])
            above[up] = above[up].with_mask(above[up].mask | moved)
            ace = ace.with_mask(ace.mask & ~moved)
        if not ace.mask:
            return above + below
        down = next((at for at, other in enumerate(below) if self.are_alike(aces[place], other)), None)
        if down is None or ace.mask & ~self.passing(aces[place], below[:down]):
            return None
        below[down] = below[down].with_mask(below[down].mask | ace.mask)
        return above + below


def tidied(there, aces, strict, paths):
    """Returns the needed rights of a list, joined as long as an ACE can go."""
    joins, aces = Joins(strict, paths), needed(there, paths, aces)
    while True:
        shorter = (joins.without(aces, place) for place in range(len(aces)))
        found = next((one for one in shorter if one is not None), None)
        if found is None:
            return aces
        aces = found


# ---- the answers of the extracted program


def wrong_meet(there, aces, bound, said, status):
    """Yields what is wrong with a merged list, and with the status that says whether it is orderly."""
    met, all_orderly = read_list(said), True
    for right in RIGHTS:
        keys = column(aces, right), column(bound, right)
        both, names = there.granted(keys[0]) & there.granted(keys[1]), names_of(keys[0] + keys[1])
        wanted, orderly = merged(there, both, names)
        granted = there.granted((kind, one) for kind, mask, one in met if mask & right)
        all_orderly = all_orderly and orderly
        if granted != there.granted(wanted):
            yield "meet grants something else"
        if (granted == both) != some_list_grants(there, both, names):
            yield "meet is not exact, and some list is"
    if status != int(not all_orderly):
        yield "the status of meet"


def wrong_answers(library, aces, bound, said):
    """Yields what is wrong with what the extracted program says of a list and a bound: for each command, a status and
    the bytes of a list. The library makes lists of bytes, and compares them."""
    ended = [command for command, (status, _) in said.items() if status > 1]
    if ended:
        yield "%s ended without an answer" % " and ".join(ended)
        return
    aces, bound = [Ace(*ace) for ace in aces], [Ace(*ace) for ace in bound]
    there = Situations(aces, bound)
    wanted = {"restricted": restricted(there, aces, bound), "tidy": tidied(there, aces, False, HERE),
              "tidy --inherit": tidied(there, aces, True, FIVE_PATHS)}
    yield from (command for command, some in wanted.items() if said[command] != (0, nfs(*some)))
    yield from wrong_meet(there, aces, bound, said["meet"][1], said["meet"][0])
    given, limit = library(nfs(*aces)), library(nfs(*bound))
    found = {command: library(data) for command, (_, data) in said.items()}
    if given.restricted(limit) != found["restricted"]:
        yield "restricted of the library"
    for command in "restricted", "meet":
        if found[command].exceeds(given) or found[command].exceeds(limit):
            yield "%s grants too much" % command
    if said["meet"][0] == 0 and found["restricted"].exceeds(found["meet"]):
        yield "restricted grants what meet does not grant"
    for one, other in (given, limit), (limit, given):
        if not one.exceeds(other) and not found["meet"].means_the_same(one):
            yield "meet is not the list that grants at most the other"
    if not found["tidy"].means_the_same(given):
        yield "tidy grants something else"
    if list(map(bytes, found["tidy --inherit"].inherited())) != list(map(bytes, given.inherited())):
        yield "tidy --inherit grants something else"
    for command in "tidy", "tidy --inherit":
        if len(found[command]) > len(given):
            yield "%s is longer" % command
