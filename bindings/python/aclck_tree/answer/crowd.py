"""People who are asked about many lists, at a bounded cost in time and memory."""

from __future__ import annotations

import enum
import struct
from dataclasses import dataclass, field
from typing import Dict, FrozenSet, Iterable, Iterator, List, NamedTuple, Optional, Sequence, Tuple, Union

from aclck import ALL, Ace, AceFlag, NfsAcl, Requesters

from aclck_tree.answer.identities import Identity
from aclck_tree.answer.lists import AskableList, encoded, pieces

AT_ONCE = 1024
"""How many requesters are asked at once, and from how many ACEs on a list is cut to the ACEs about them."""

MOST_KEPT = 50_000
"""How many prepared requesters a crowd keeps."""

_SPECIAL = (b"OWNER@", b"GROUP@", b"EVERYONE@")

_RIGHTS = [1 << bit for bit in range(21) if ALL >> bit & 1]


class Granted(NamedTuple):
    """The rights that somebody is granted whomever the server takes for the special identifiers of a list, and those
    that are granted in some case."""

    sure: int
    maybe: int

    @property
    def unknown(self) -> int:
        """The rights that depend on the special identifiers."""
        return self.maybe & ~self.sure


NOTHING = Granted(0, 0)


class Missing(enum.Enum):
    """Why a side has no identity of a person: there is no such person, or no id is known for one of the names. It is
    OTHER_ID on the old side of a person of whom the ids that are known are others on the new side."""

    PERSON = enum.auto()
    ID = enum.auto()
    OTHER_ID = enum.auto()


_ABSENT: Dict[Missing, Optional[Granted]] = {Missing.PERSON: NOTHING, Missing.ID: None, Missing.OTHER_ID: None}
"""What somebody without an identity is granted, or None if that is not known."""

IdentityOrMissing = Union[Identity, Missing]


class View(NamedTuple):
    """A list to ask, and the names of the object's owner and group."""

    asked: AskableList
    owner: str
    group: str


class _Narrowed:
    """A long list, cut to the ACEs that can match some requesters. It grants them the same as the whole list."""

    def __init__(self, acl: NfsAcl) -> None:
        self._data = bytes(acl.normal())
        self._places: Dict[Tuple[bool, bytes], List[Tuple[int, int]]] = {}
        for piece in pieces(self._data):
            key = (False, b"") if piece.who in _SPECIAL else (piece.is_group, piece.who)
            self._places.setdefault(key, []).append((piece.start, piece.end))

    def of(self, rows: Iterable[Tuple[str, Sequence[str]]]) -> NfsAcl:
        """Returns the list for some requesters."""
        wanted = {(False, b"")}
        for user, groups in rows:
            wanted.add((False, encoded(user)))
            wanted.update((True, encoded(group)) for group in groups)
        found = sorted(part for key in wanted for part in self._places.get(key, ()))
        return NfsAcl(struct.pack(">I", len(found)) + b"".join(self._data[start:end] for start, end in found))


class Crowd:
    """People in the names of one kind of list, who are asked about many lists."""

    def __init__(self, people: Sequence[IdentityOrMissing]) -> None:
        self._people = people
        # Who has no identity asks as `?`, without use.
        self._rows = [person if isinstance(person, Identity) else Identity("?") for person in people]
        self._kept: Dict[int, Requesters] = {}
        self._count = 0

    def __len__(self) -> int:
        return len(self._people)

    def granted(self, view: View) -> Iterator[List[Optional[Granted]]]:
        """Yields what people are granted, or None if an id is not known. Somebody who is not there is granted nothing.
        The people come in parts of the same size for each view."""
        narrowed = _Narrowed(view.asked.acl) if len(view.asked.acl) > AT_ONCE and not view.asked.specials else None
        for start in range(0, len(self._people), AT_ONCE):
            part = self._people[start:start + AT_ONCE]
            if view.asked.specials:
                yield [_possible(view, person) if isinstance(person, Identity) else _ABSENT[person] for person in part]
                continue
            acl = narrowed.of(self._rows[start:start + AT_ONCE]) if narrowed else view.asked.acl
            found = acl.granted_many(self._prepared(start), owner=view.owner, group=view.group, mask=ALL)
            yield [Granted(mask, mask) if isinstance(person, Identity) else _ABSENT[person]
                   for person, mask in zip(part, found)]

    def _prepared(self, start: int) -> Requesters:
        if start not in self._kept:
            if self._count > MOST_KEPT:
                self._kept.clear()
                self._count = 0
            self._kept[start] = Requesters(self._rows[start:start + AT_ONCE])
            self._count += self._kept[start].count
        return self._kept[start]


def _possible(view: View, person: Identity) -> Granted:
    found = NfsAcl.decide_unknown(view.asked.whomever, user=person.user, groups=person.groups, owner=view.owner,
                                  group=view.group)
    return Granted(found.allowed, found.allowed | found.unknown)


_Keys = FrozenSet[Tuple[Optional[bool], str]]
"""Whom some ACEs name, as the keys of `AskableList.by_who`."""


@dataclass
class ListPair:
    """Two lists with special identifiers. What is said about somebody depends only on the ACEs that match, which are
    the same ones for most people, so answers are kept."""

    old: View
    new: View
    known: Dict[Tuple[_Keys, _Keys, int], int] = field(default_factory=dict)

    def rights(self, one: Identity, other: Identity, rights: int) -> int:
        """Returns those of some rights that both lists grant somebody in the same cases of who is a member of their
        special identifiers. Each side has its own names for the same person."""
        key = _matching(self.old, one), _matching(self.new, other), rights

        def are_alike(mask: int) -> bool:
            return _left(self.old, key[0], mask).means_the_same(_left(self.new, key[1], mask))
        if key not in self.known:
            self.known[key] = rights if are_alike(rights) else sum(
                right for right in _RIGHTS if rights & right and are_alike(right))
        return self.known[key]


def _matching(view: View, person: Identity) -> _Keys:
    """Returns whom the ACEs name that match somebody who is a member of no special identifier."""
    keys = {(None, "EVERYONE@"), (False, person.user), *((True, group) for group in person.groups)}
    keys.update((None, who) for who, is_meant in (("OWNER@", person.user == view.owner),
                                                  ("GROUP@", view.group in person.groups)) if is_meant)
    return frozenset(keys & view.asked.by_who.keys())


def _left(view: View, matching: _Keys, rights: int) -> NfsAcl:
    """Returns what is left of a list if only some rights and one person count: the ACEs of special identifiers, as
    groups, and those that match the person, for everyone (RFC 8881, section 6.2.1)."""
    names = {group: f"{name}?" for name, group in view.asked.specials}
    keys = matching | {(True, group) for group in names}
    found = sorted(one for key in keys for one in view.asked.by_who.get(key, ()))
    return NfsAcl.from_aces(
        Ace(ace.kind, AceFlag.IDENTIFIER_GROUP if ace.who in names else AceFlag(0), ace.mask & rights,
            names.get(ace.who, "EVERYONE@"))
        for _, ace in found)
