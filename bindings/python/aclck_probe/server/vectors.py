"""The lists that a server is given, by kind."""

from __future__ import annotations

from typing import List, NamedTuple, Sequence, Tuple

from aclck import (ALL, ALLOW, APPEND_DATA, DELETE, DELETE_CHILD, DENY, EXECUTE, READ_ACL, READ_DATA, RIGHTS, WRITE_ACL,
                   WRITE_DATA, Ace, AceFlag, AceKind, NfsAcl)

from .people import People

FILE, DIRECTORY, NO_PROPAGATE, INHERIT_ONLY, GROUP = (
    AceFlag.FILE_INHERIT, AceFlag.DIRECTORY_INHERIT, AceFlag.NO_PROPAGATE_INHERIT, AceFlag.INHERIT_ONLY,
    AceFlag.IDENTIFIER_GROUP)
NO_FLAGS = AceFlag(0)

_WRITE = WRITE_DATA | APPEND_DATA
_READ_ALL = READ_DATA | EXECUTE

_Row = Tuple[AceKind, AceFlag, int, str]

OPEN_TO_ALL = NfsAcl.from_aces([Ace(ALLOW, NO_FLAGS, ALL, "EVERYONE@")])
OPEN_TO_OWNER = NfsAcl.from_aces([Ace(ALLOW, NO_FLAGS, ALL, "OWNER@")])
PASSED_BY_ALL = NfsAcl.from_aces([Ace(ALLOW, NO_FLAGS, ALL, "OWNER@"), Ace(ALLOW, NO_FLAGS, EXECUTE, "EVERYONE@")])
NO_ACES = NfsAcl.from_aces([])


class Single(NamedTuple):
    """A list about one right: it is all that the list grants, or all that it does not grant."""

    right: str
    is_alone: bool
    acl: NfsAcl


def _list(*rows: _Row) -> NfsAcl:
    return NfsAcl.from_aces([Ace(*row) for row in rows])


def whole_lists(people: People) -> List[NfsAcl]:
    """Returns lists of several ACEs, whose order matters. The last one is empty."""
    (first, second), (team, other) = [tuple(map(str, ids)) for ids in (people.users, people.groups)]
    return [
        _list((ALLOW, NO_FLAGS, _READ_ALL, "OWNER@"), (ALLOW, NO_FLAGS, _WRITE, "GROUP@"),
              (ALLOW, NO_FLAGS, EXECUTE, "EVERYONE@")),
        _list((DENY, NO_FLAGS, _WRITE, "OWNER@"), (DENY, NO_FLAGS, _READ_ALL, "GROUP@"),
              (ALLOW, NO_FLAGS, _READ_ALL | _WRITE | DELETE_CHILD, "EVERYONE@")),
        _list((DENY, NO_FLAGS, READ_DATA, first), (ALLOW, GROUP, READ_DATA, team), (DENY, NO_FLAGS, _WRITE, second),
              (ALLOW, NO_FLAGS, _WRITE | DELETE_CHILD, "EVERYONE@")),
        _list((ALLOW, GROUP, READ_DATA, team), (DENY, GROUP, READ_DATA, other), (ALLOW, GROUP, EXECUTE, other),
              (DENY, GROUP, EXECUTE, team), (ALLOW, NO_FLAGS, _READ_ALL, "EVERYONE@")),
        _list((ALLOW, NO_FLAGS, READ_DATA, first), (DENY, NO_FLAGS, READ_DATA, "OWNER@"),
              (ALLOW, NO_FLAGS, READ_DATA, second), (DENY, NO_FLAGS, EXECUTE, first),
              (ALLOW, NO_FLAGS, _READ_ALL, "GROUP@")),
        _list((DENY, NO_FLAGS, READ_DATA, "EVERYONE@"), (ALLOW, NO_FLAGS, _READ_ALL | _WRITE, "EVERYONE@")),
        NO_ACES]


def masks() -> List[Single]:
    """Returns two lists for each right: one that grants it alone, and one that grants all others."""
    found = []
    for word, right in RIGHTS.items():
        found += [Single(word, True, _list((ALLOW, NO_FLAGS, right, "EVERYONE@"))),
                  Single(word, False, _list((DENY, NO_FLAGS, right, "EVERYONE@"),
                                            (ALLOW, NO_FLAGS, ALL, "EVERYONE@")))]
    return found


def owners() -> List[NfsAcl]:
    """Returns lists that grant the owner less than others."""
    return [_list((DENY, NO_FLAGS, ALL, "OWNER@"), (ALLOW, NO_FLAGS, ALL, "EVERYONE@"))]


def inherited(people: People) -> List[NfsAcl]:
    """Returns lists of directories that differ in what new objects inherit."""
    user, team = str(people.users[0]), str(people.groups[0])
    rights = _READ_ALL | _WRITE | READ_ACL | WRITE_ACL | DELETE
    access = (ALLOW, NO_FLAGS, ALL, "EVERYONE@")
    flags: Sequence[AceFlag] = (
        FILE, DIRECTORY, FILE | DIRECTORY, FILE | INHERIT_ONLY, DIRECTORY | INHERIT_ONLY,
        FILE | DIRECTORY | INHERIT_ONLY, FILE | NO_PROPAGATE, DIRECTORY | NO_PROPAGATE, FILE | DIRECTORY | NO_PROPAGATE,
        FILE | DIRECTORY | NO_PROPAGATE | INHERIT_ONLY)
    single = [_list((ALLOW, one, rights, "EVERYONE@"), access) for one in flags]
    return [*single, _list((DENY, FILE, READ_DATA, user), (ALLOW, FILE | DIRECTORY | GROUP, _READ_ALL, team),
                           (ALLOW, FILE | DIRECTORY, rights, "OWNER@"), access), _list(access)]


def modes() -> List[Tuple[NfsAcl, int]]:
    """Returns lists, each with a mode that is then set."""
    def plain(owner: int, group: int, others: int) -> NfsAcl:
        return _list((ALLOW, NO_FLAGS, owner, "OWNER@"), (ALLOW, NO_FLAGS, group, "GROUP@"),
                     (ALLOW, NO_FLAGS, others, "EVERYONE@"))
    return [(plain(READ_DATA | _WRITE, READ_DATA, READ_DATA), 0o700), (plain(_READ_ALL, EXECUTE, 0), 0o640),
            (plain(ALL, ALL, ALL), 0o604),
            (_list((DENY, NO_FLAGS, _WRITE, "OWNER@"), (ALLOW, NO_FLAGS, ALL, "EVERYONE@")), 0o400)]


MODES = (0o640, 0o604, 0o751, 0o067, 0o000, 0o777)
"""Modes without a list."""
