"""The ACEs of NFSv4 lists as values, and lists as the bytes that are made of them."""

from __future__ import annotations

import ctypes
import enum
from typing import Iterable, Iterator, NamedTuple

from . import _library as c
from .faults import Refused


class AceKind(str, enum.Enum):
    """The kind of an ACE (section 6.2.1.1). It is equal to its word."""

    ALLOW = "ALLOW"
    DENY = "DENY"

    def __str__(self) -> str:
        return self.value


ALLOW, DENY = AceKind.ALLOW, AceKind.DENY
_KINDS = (ALLOW, DENY)


class NumberFlag(enum.IntFlag):
    """Flags. A set of flags is equal to its number, and is written as its number."""

    def __str__(self) -> str:
        return str(self.value)

    def __format__(self, spec: str) -> str:
        return format(self.value, spec)


class AceFlag(NumberFlag):
    """The flags of an ACE (section 6.2.1.4)."""

    FILE_INHERIT = 0x01
    DIRECTORY_INHERIT = 0x02
    NO_PROPAGATE_INHERIT = 0x04
    INHERIT_ONLY = 0x08
    SUCCESSFUL_ACCESS = 0x10
    FAILED_ACCESS = 0x20
    IDENTIFIER_GROUP = 0x40
    INHERITED = 0x80


_FLAGS = tuple(map(AceFlag, range(0x100)))
"""All sets of flags, made once because lists are long. The library refuses lists with other flags."""


class Ace(NamedTuple):
    """One ACE: its kind, its flags, its mask as a number (section 6.2.1.3), and its who."""

    kind: AceKind
    flags: AceFlag
    mask: int
    who: str

    @property
    def is_group(self) -> bool:
        """Whether the who is the name of a group."""
        return bool(self.flags & AceFlag.IDENTIFIER_GROUP)


def built(aces: Iterable[Ace], options: int) -> bytes:
    """Returns the bytes of a list of ACEs, in their order. Raises Refused with the place of an ACE."""
    rows = [c.Ace(_KINDS.index(AceKind(ace.kind)), c.word(ace.flags), c.word(ace.mask), c.in_c(c.encoded(ace.who)))
            for ace in (Ace(*given) for given in aces)]
    given = c.Aces((c.Ace * len(rows))(*rows), len(rows))
    try:
        return c.bytes_of("build", (given, options), 4 + sum(20 + row.who.len for row in rows))
    except Refused as refused:
        raise Refused(refused.reason, ace=refused.offset) from None


def each(acl: c.Bytes, options: int) -> Iterator[Ace]:
    """Yields the ACEs of a list in their order. Raises Refused at once if the bytes are not a list."""
    at, found, fault = ctypes.c_size_t(), c.Ace(), c.Fault()
    while True:
        c.judge(c.calls["next"](acl, options, ctypes.byref(at), ctypes.byref(found), ctypes.byref(fault)), fault)
        if found.kind == c.UNDECIDED:
            return
        yield Ace(_KINDS[found.kind], _FLAGS[found.flags], found.mask, c.decoded(c.found_in(found.who)))


def kind_of(number: int) -> AceKind:
    """Returns the kind that a number means."""
    return _KINDS[number]
