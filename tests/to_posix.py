"""Judges POSIX ACLs that are made of NFSv4 lists, for tests/to_posix: what a list and an ACL grant in each situation,
and what the NFS server of Linux makes of a list. Nothing here comes from the library or from formal/.

A list has ACEs (kind, flags, mask, who), with kind 0 for ALLOW and 1 for DENY. A situation is the set of the principals
that match the requester: a special who, or ("user", name), or ("group", name). An ACL gives the letters of each
principal with an entry; OTHER is `EVERYONE@`, and MASK is `mask`.
"""
import itertools
import struct

IMAGE = {"r": (0x1,), "w": (0x2, 0x4), "x": (0x20,)}  # READ_DATA; WRITE_DATA and APPEND_DATA; EXECUTE
SPECIAL = "OWNER@", "GROUP@", "EVERYONE@"
INHERIT_ONLY, IDENTIFIER_GROUP = 0x08, 0x40


def read_list(data):
    """Returns the ACEs of a spelled list, each as (kind, mask, principal), without those of INHERIT_ONLY."""
    (count,), place, aces = struct.unpack_from(">I", data), 4, []
    for _ in range(count):
        kind, flags, mask, length = struct.unpack_from(">4I", data, place)
        who = data[place + 16:place + 16 + length].decode()
        place += 16 + length + -length % 4
        named = ("group" if flags & IDENTIFIER_GROUP else "user", who)
        if not flags & INHERIT_ONLY:
            aces.append((kind, mask, who if who in SPECIAL else named))
    return aces


def read_acl(text):
    """Returns the entries of a text of `tag:qualifier:letters` lines."""
    entries = {}
    for line in text.splitlines():
        tag, name, letters = line.split(":")
        plain = {"user": "OWNER@", "group": "GROUP@", "other": "EVERYONE@", "mask": "mask"}[tag]
        entries[(tag, name) if name else plain] = set(letters) - {"-"}
    return entries


def situations(aces):
    """Returns each situation of the names of a list. One more user has no name in it."""
    named = {principal for _, _, principal in aces if principal not in SPECIAL}
    groups = ["GROUP@", *(one for one in named if one[0] == "group")]
    users = [(), *((one,) for one in named if one[0] == "user")]
    members = [chosen for count in range(len(groups) + 1) for chosen in itertools.combinations(groups, count)]
    return [frozenset(("EVERYONE@", *owner, *user, *chosen))
            for owner in ((), ("OWNER@",)) for user in users for chosen in members]


def granted(aces, situation):
    """Returns the letters that a list grants: for each right, the first ACE that matches and has it decides."""
    def allows(right):
        return next((kind == 0 for kind, mask, one in aces if mask & right and one in situation), False)
    return {letter for letter, rights in IMAGE.items() if all(map(allows, rights))}


def checked(entries, situation):
    """Returns the letters of which an ACL grants each by itself (acl(5), "ACCESS CHECK ALGORITHM")."""
    mask = entries.get("mask", set(IMAGE))
    if "OWNER@" in situation:
        return entries["OWNER@"]
    users = [entries[one] & mask for one in situation if one in entries and one[0] == "user"]
    groups = [entries[one] & mask for one in situation if one in entries and (one == "GROUP@" or one[0] == "group")]
    return users[0] if users else set().union(*groups) if groups else entries["EVERYONE@"]


def is_at_most(answers, others):
    """Returns whether in each situation the second answers have all letters of the first ones."""
    return all(one <= other for one, other in zip(answers, others))


# ---- the NFS server of Linux


class State:
    """The rights of one principal that are allowed and denied so far. For each right, what comes first counts."""
    def __init__(self, allowed=0, denied=0):
        self.allowed, self.denied = allowed, denied

    def add(self, kind, rights):
        if kind == 0:
            self.allowed |= rights & ~self.denied
        else:
            self.denied |= rights & ~self.allowed


def by_nfsd(aces):
    """Returns the entries that nfsd makes of a list (fs/nfsd/nfs4acl.c of Linux 6.1), by this description. One pass
    keeps a state for the owner, the group, others, everybody, and each name. A name begins with the state of everybody.
    What a user is denied, the owner is denied too. What a group is denied, the owner, everybody, all users and all
    other groups are denied too."""
    states = {principal: State() for principal in ("OWNER@", "GROUP@", "other", "EVERYONE@")}
    for kind, mask, principal in aces:
        everybody = states["EVERYONE@"]
        state = states.setdefault(principal, State(everybody.allowed, everybody.denied))
        if principal == "EVERYONE@":
            others = list(states.values())
        elif kind == 0 or principal == "OWNER@":
            others = []
        elif principal[0] == "user":
            others = [states["OWNER@"]]
        else:
            others = [one for name, one in states.items() if name != "other"]
        state.add(kind, mask)
        for one in others:
            one.add(kind, mask if principal == "EVERYONE@" else state.denied)
    states["EVERYONE@"] = states.pop("other")
    entries = {principal: {letter for letter, rights in IMAGE.items() if sum(rights) & ~state.allowed == 0}
               for principal, state in states.items()}
    limited = [letters for one, letters in entries.items() if one not in ("OWNER@", "EVERYONE@")]
    return {**entries, "mask": set().union(*limited)} if len(entries) > 3 else entries
