"""Makes the lists of a snapshot ready for questions.

The AUDIT and ALARM ACEs of an NFSv4 list are left out, because they decide nothing (RFC 8881, section 6.2.1.1). A
special identifier that the library refuses, such as `INTERACTIVE@`, becomes a group whose members are not known. For a
POSIX ACL its bridge is asked: an NFSv4 list that grants each single permission alike, with ids as names.
"""

from __future__ import annotations

import contextlib
import functools
import itertools
import struct
from dataclasses import dataclass
from enum import Enum, IntEnum
from typing import Dict, FrozenSet, List, NamedTuple, Optional, Sequence, Tuple, Union

from aclck import APPEND_DATA, EXECUTE, READ_DATA, WRITE_DATA, Ace, AceFlag, NfsAcl, PosixAcl, Refused

from aclck_tree.snapshot.snapshot import StoredForm, StoredList

MOST_BYTES = 1000
"""How many bytes the special identifiers may have that are asked about: a group that replaces one has a longer name."""

POSIX_MASKS = {4: READ_DATA, 2: WRITE_DATA | APPEND_DATA, 1: EXECUTE}
"""The rights of the bridge by permissions."""

_EVERYONE = b"EVERYONE@"
_KNOWN = (b"OWNER@", b"GROUP@", _EVERYONE)


class Kind(str, Enum):
    """What a list is. A kind equals its word, which is what the output has."""

    POSIX = "posix"
    NFS4 = "nfs4"

    __hash__ = str.__hash__

    def __str__(self) -> str:
        return str(self.value)


class AceType(IntEnum):
    """The types of an ACE (RFC 8881, section 6.2.1.1)."""

    ALLOW = 0
    DENY = 1
    AUDIT = 2
    ALARM = 3


_DECIDES_NOTHING = (AceType.AUDIT, AceType.ALARM)

_ACE = struct.Struct(">IIII")
"""The numbers of an ACE: its type, its flags, its mask, and the length of its who (RFC 8881, section 6.2.1)."""


_GROUP = int(AceFlag.IDENTIFIER_GROUP)  # `&` of two numbers is quicker


@dataclass(frozen=True)
class AskableList:
    """A list that can be asked.

    `acl` is the list without AUDIT and ALARM ACEs, or the bridge of `posix`. `specials` are the special identifiers in
    it, each with the name of the group that replaces it. `places` are the places of its ACEs in the list as it was
    found.
    """

    acl: NfsAcl
    posix: Optional[PosixAcl] = None
    specials: Tuple[Tuple[str, str], ...] = ()
    places: Sequence[int] = ()
    left_out: int = 0

    @property
    def kind(self) -> Kind:
        """`POSIX` for a POSIX ACL or a mode, and otherwise `NFS4`."""
        return Kind.POSIX if self.posix else Kind.NFS4

    def ids(self) -> List[Tuple[bool, int]]:
        """Returns the ids in a POSIX ACL, each once, and whether they are those of groups."""
        return list(dict.fromkeys((entry.tag == "group", entry.id) for entry in self.posix or ()
                                  if entry.id is not None))

    def others(self, groups: Sequence[str]) -> Tuple[str, ...]:
        """Returns those of some groups that replace no special identifier. The list has no ACE about the rest of
        them."""
        stand_ins = {group for _, group in self.specials}
        return tuple(group for group in groups if group not in stand_ins)

    def fewest_and_most(self, groups: Sequence[str]) -> Tuple[Tuple[str, ...], Tuple[str, ...]]:
        """Returns the groups of a member of no special identifier, and those of a member of all special identifiers."""
        others = self.others(groups)
        return others, (*others, *(group for _, group in self.specials))

    @functools.cached_property
    def whomever(self) -> bytes:
        """The bytes of the list with its special identifiers, for `NfsAcl.decide_unknown`."""
        names = {encoded(group): encoded(name) for name, group in self.specials}
        return joined([piece._replace(who=names.get(piece.who, piece.who)) for piece in pieces(bytes(self.acl))])

    def turned(self, mask: int) -> bytes:
        """Returns the bytes of a list that allows all of some rights where this one grants none of them: DENY and ALLOW
        are exchanged, and what no ACE decides is allowed."""
        found = [piece._replace(kind=piece.kind ^ 1) for piece in pieces(self.whomever) if piece.mask & mask]
        return joined([*found, Piece(0, 0, AceType.ALLOW, 0, mask, _EVERYONE)])

    @functools.cached_property
    def named(self) -> FrozenSet[Tuple[bool, str]]:
        """The names in the list, and whether each is that of a group. A special identifier counts as both."""
        return frozenset((piece.is_group, decoded(piece.who)) for piece in pieces(bytes(self.acl))).union(
            (is_group, name) for name, _ in self.specials for is_group in (False, True))

    @functools.cached_property
    def by_who(self) -> Dict[Tuple[Optional[bool], str], List[Tuple[int, Ace]]]:
        """The ACEs that take part, with their places, by their who and by whether it is a group, or None for the names
        `OWNER@`, `GROUP@` and `EVERYONE@`."""
        found: Dict[Tuple[Optional[bool], str], List[Tuple[int, Ace]]] = {}
        for place, ace in enumerate(self.acl):
            if not ace.flags & AceFlag.INHERIT_ONLY:
                is_group = None if encoded(ace.who) in _KNOWN else ace.is_group
                found.setdefault((is_group, ace.who), []).append((place, ace))
        return found

    def lines(self) -> List[str]:
        """Returns the text of each ACE, with the special identifiers as they were found."""
        lines, names = str(self.acl).split("\n")[:-1], {group: name for name, group in self.specials}
        return [line[:-len(ace.who)] + names.get(ace.who, ace.who) for line, ace in zip(lines, self.acl)]


@dataclass(frozen=True)
class RefusedList:
    """A list that cannot be asked, with the line that says why. A place in it is a place in the list as it was
    found."""

    reason: str


Ready = Union[AskableList, RefusedList]


class Piece(NamedTuple):
    start: int
    end: int
    kind: int
    flags: int
    mask: int
    who: bytes

    @property
    def is_group(self) -> bool:
        """Whether the who is a group."""
        return bool(self.flags & _GROUP)


def encoded(name: str) -> bytes:
    """Returns the bytes of a name, of which Python keeps those that are no UTF-8 as lone surrogates."""
    return name.encode("utf-8", "surrogateescape")


def pieces(data: bytes) -> List[Piece]:
    """Returns the ACEs of some bytes, up to the first one that is cut short (RFC 4506, sections 4.11 and 4.13)."""
    found: List[Piece] = []
    at = 4
    for _ in range(int.from_bytes(data[:4], "big")):
        if at + 16 > len(data):
            break
        kind, flags, mask, length = _ACE.unpack_from(data, at)
        end = at + 16 + length + -length % 4
        if end > len(data):
            break
        found.append(Piece(at, end, kind, flags, mask, data[at + 16:at + 16 + length]))
        at = end
    return found


def joined(found: Sequence[Piece]) -> bytes:
    """Returns the bytes of a list of some ACEs (RFC 8881, section 6.2.1; RFC 4506, sections 4.11 and 4.13)."""
    return struct.pack(">I", len(found)) + b"".join(
        _ACE.pack(piece.kind, piece.flags, piece.mask, len(piece.who)) + piece.who + bytes(-len(piece.who) % 4)
        for piece in found)


def decoded(who: bytes) -> str:
    """Returns the name for the bytes that a list has."""
    return who.decode("utf-8", "surrogateescape")


def asked_nfs(data: bytes) -> AskableList:
    """Makes an NFSv4 list ready for questions. Raises Refused, with the offset, if it cannot be asked."""
    with contextlib.suppress(Refused):  # most lists are asked as they are
        acl = NfsAcl(data)
        return AskableList(acl, places=range(len(acl)))
    left_out = NfsAcl.decide_unknown(data, user="?", owner="?", group="?", mask=0).left_out
    found = pieces(data)
    special = [piece for piece in found if piece.who.endswith(b"@") and piece.who not in _KNOWN]
    too_long = next((piece for piece in special if len(piece.who) > MOST_BYTES), None)
    if too_long:
        raise Refused("SpecialWho", offset=too_long.start + 16)
    places = tuple(place for place, piece in enumerate(found) if piece.kind not in _DECIDES_NOTHING)
    names = dict.fromkeys(piece.who for piece in special if piece.kind not in _DECIDES_NOTHING)
    ends = {piece.who.rpartition(b"?")[2] for piece in found if b"?" in piece.who}
    suffix = b"?"  # with it, a special identifier is no name of the list
    if b"" in ends:
        suffix = next(b"?%d" % number for number in itertools.count(2) if b"%d" % number not in ends)
    acl = NfsAcl.with_groups(data, suffix)
    return AskableList(acl, None, tuple((decoded(name), decoded(name + suffix)) for name in names), places, left_out)


def has_empty_mask(attribute: bytes) -> bool:
    """Whether an attribute (linux/posix_acl_xattr.h) has a mask without permissions."""
    end = 4 + (len(attribute) - 4) // 8 * 8
    return any(tag == 16 and not perms for tag, perms, _ in struct.iter_unpack("<HHI", attribute[4:end]))


def as_linux(acl: PosixAcl) -> PosixAcl:
    """Returns the list that Linux uses: without named entries if the mask is empty (docs/reference/others.md)."""
    perms = {entry.tag: entry.perm for entry in acl if not entry.default and entry.id is None}
    if perms.get("mask", 7) != 0:
        return acl
    return PosixAcl.from_mode(perms["user"] << 6 | perms["other"])


def nfs_bytes(stored: StoredList, domain: str) -> bytes:
    """Returns the bytes of an NFSv4 list. The names of accounts get the domain, as the names of people do."""
    data = stored.access or b""
    if stored.kind != StoredForm.ACCOUNTS or not domain:
        return data
    suffix = b"@" + encoded(domain)
    return joined([piece if b"@" in piece.who else piece._replace(who=piece.who + suffix) for piece in pieces(data)])


def ready(stored: StoredList, linux: bool = False, domain: str = "") -> Ready:
    """Makes a list ready for questions. With `linux`, a POSIX ACL with an empty mask grants as it does on Linux. The
    names of accounts in an NFSv4 list get the domain."""
    if stored.kind == StoredForm.REFUSED:
        return RefusedList(decoded(stored.default or b""))
    try:
        if not stored.is_posix:
            return asked_nfs(nfs_bytes(stored, domain))
        acl = PosixAcl.from_attributes(stored.access, stored.default, stored.mode)
        if linux:
            acl = as_linux(acl)
        return AskableList(acl.bridge(), acl)
    except Refused as refused:
        return RefusedList(str(refused))
