"""Who is asked about, and what a list answers."""

from __future__ import annotations

import enum
from typing import Iterable, List, NamedTuple, Sequence, Tuple

from . import _library as c
from ._library import Name
from .aces import AceKind


class Decided(NamedTuple):
    """Of the rights that are asked: those that an ALLOW decides, those that a DENY decides, and those that no ACE
    decides, which are not granted either."""

    allowed: int
    denied: int
    undecided: int


class Decision(NamedTuple):
    """The ACE that decides a right: its place in the list, from 0, and its kind."""

    place: int
    kind: AceKind


class Difference(NamedTuple):
    """A requester whom two lists treat differently, and the one right, as a mask, for which they do."""

    owner: str
    group: str
    user: str
    groups: Tuple[str, ...]
    right: int
    first_grants: bool


class Question(NamedTuple):
    """An object and a requester: the owner and the owning group of the object, and the user and the groups of the
    requester."""

    owner: str
    group: str
    user: str
    groups: Tuple[str, ...]


class Request(enum.Enum):
    """Whether a request for several rights is granted, whomever a list's unknown identifiers mean."""

    NEVER = 0
    DEPENDS = 1
    ALWAYS = 2


class Possible(NamedTuple):
    """What a list with unknown identifiers answers, whomever these names mean. Of the rights that are asked: those that
    are always allowed; those that are never allowed, and that a DENY decides or may decide; those that no ACE ever
    decides; and those that are allowed in one case and not in another. `request` says it of all rights together.
    `left_out` is the number of AUDIT and ALARM ACEs, which decide nothing."""

    allowed: int
    denied: int
    undecided: int
    unknown: int
    request: Request
    left_out: int


class TableRow(NamedTuple):
    """An ACE of the normal form: the place of its source in the given list, its kind, whether `who` is a group."""

    source: int
    kind: AceKind
    is_group: bool
    who: str


def decided(found: c.Decided, mask: int) -> Decided:
    """Returns an answer of C about the rights of a mask."""
    return Decided(found.allowed, found.denied, mask & ~(found.allowed | found.denied))


def asked_in(data: bytes) -> List[Question]:
    """Returns the questions that the library wrote as XDR (docs/reference/formats.md)."""
    block = _Block(data)
    return [block.question() for _ in range(block.word())]


class _Block:
    """XDR that the library wrote (RFC 4506), which is read from the front."""

    def __init__(self, data: bytes) -> None:
        self._data, self._at = data, 0

    def question(self) -> Question:
        owner, group, user = self.name(), self.name(), self.name()
        return Question(owner, group, user, tuple(self.name() for _ in range(self.word())))

    def word(self) -> int:
        return int.from_bytes(self._taken(4), "big")

    def name(self) -> str:
        length = self.word()
        return c.decoded(self._taken(length + -length % 4)[:length])

    def _taken(self, size: int) -> bytes:
        self._at += size
        return self._data[self._at - size:self._at]


def requester(user: Name, groups: Iterable[Name]) -> c.Requester:
    """Returns a user and the user's groups for C, as GROUPS_IN_ORDER says: in rising order, and none twice. Raises
    TypeError as `several` and `encoded` do."""
    names = [c.in_c(name) for name in sorted(set(map(c.encoded, c.several(groups))))]
    return c.Requester(c.in_c(c.encoded(user)), (c.Bytes * len(names))(*names), len(names))


class Requesters:
    """Users with their groups, in the form for `NfsAcl.granted_many` and `Prepared.decide_many`, which can then be
    called for many lists."""

    def __init__(self, people: Iterable[Tuple[Name, Sequence[Name]]]) -> None:
        """Takes pairs of a user and the names of the groups of that user. Raises TypeError if the groups are one
        name."""
        rows = [requester(user, groups) for user, groups in people]
        self.count = len(rows)
        self.array = (c.Requester * len(rows))(*rows)
