"""POSIX ACLs (acl(5); POSIX.1e draft 17, section 23). Ids are numbers; permissions are 4 (r), 2 (w) and 1 (x)."""

from __future__ import annotations

import ctypes
import errno
import os
import re
from collections import Counter
from typing import Iterable, Iterator, Mapping, Match, NamedTuple, Optional, Tuple, TypeVar, Union

from . import _library as c
from ._library import File, Name
from .entries import Entry, held, part_in_c, parted, read_line, value_of
from .faults import Refused, of_part
from .files import ACCESS, DEFAULT, at_one_time, remove_attribute
from .nfs import NfsAcl
from .tables import NamedIds, table_in_c
from .tar_texts import DEFAULT_OF_TEXT, DEFAULT_TEXT, TEXT, TarStyle, entries_in, spelled_in_c, text_of

_ID = re.compile(r"\b(u|user|g|group):(\d+):")
_NAME = re.compile(r"(?!\d+$)[^\s:,#\\]+")
_SHORTEST_ACE = 20
"""The number of bytes of the shortest ACE that names somebody."""
_CANONICAL = 0
_FORMS = {"canonical": _CANONICAL, "shown": c.SHOWN, "short": c.FORM_SHORT}

T = TypeVar("T", c.Word, c.PosixDecision, c.PosixDifference)


class PosixDecision(NamedTuple):
    """How a request is decided: whether it is granted, and the entry that decides. The entry is None if entries of
    groups match, and none of them has all that is asked. `masked` says that the entry has all of it, and the mask has
    not."""

    granted: bool
    entry: Optional[Entry]
    masked: bool


class PosixDifference(NamedTuple):
    """A request that one list grants and another denies: the owner and the group of the object, the user, the groups of
    the user, at most three, and the permissions, a sum of 4 (r), 2 (w) and 1 (x)."""

    owner: int
    group: int
    user: int
    groups: Tuple[int, ...]
    want: int


class PosixAcl:
    """An access ACL, with the default ACL if it is the list of a directory that has one. Both are valid (acl(5), "VALID
    ACLs").

    The object keeps the entries in canonical order, with ids for names. Two objects are equal if and only if they have
    the same entries.
    """

    __slots__ = ("_access", "_default")

    def __init__(self, text: Name, names: NamedIds = ()) -> None:
        """Takes a text as getfacl(1) prints it; `names` are the names that it may use: name, id, whether it is a group.

        Raises Refused, with the line and the column or with the part that is not valid. Raises ValueError if a name is
        empty, has only digits, or is given twice.
        """
        shown = _shown(c.encoded(text), _CANONICAL, table_in_c(names))
        self._access, self._default = map(part_in_c, parted(map(read_line, shown.splitlines())))

    @classmethod
    def _of(cls, access: c.Entries, default: c.Entries) -> PosixAcl:
        """Makes a list of entries that the library wrote."""
        made = cls.__new__(cls)
        made._access, made._default = access, default
        return made

    @classmethod
    def from_text(cls, text: Name, users: Optional[Mapping[str, int]] = None,
                  groups: Optional[Mapping[str, int]] = None) -> PosixAcl:
        """Makes a list from a text as getfacl(1) prints it, with the ids of the names that it may use."""
        names = [(name, number, False) for name, number in (users or {}).items()]
        return cls(text, names + [(name, number, True) for name, number in (groups or {}).items()])

    @classmethod
    def from_mode(cls, mode: int) -> PosixAcl:
        """Makes the list of the three entries that a mode means (acl(5), "CORRESPONDENCE .."). Bits above the nine do
        not count."""
        bits = c.word(mode)
        return cls._of(part_in_c([Entry(False, tag, None, bits >> shift & 7) for tag, shift in
                                  (("user", 6), ("group", 3), ("other", 0))]), held([]))

    @classmethod
    def from_attributes(cls, access: Optional[bytes], default: Optional[bytes] = None, mode: int = 0) -> PosixAcl:
        """Makes a list from the bytes of `system.posix_acl_access` and `_default`, each None if the attribute is
        absent. Without the first, the entries are those of the mode. A default attribute without entries counts as
        absent.

        Raises Refused with the part: if the bytes are not such an attribute or not a valid ACL, with the place of the
        entry in that part, from 0, unless the size, the version or a missing entry is the reason.
        """
        parts = [held([]) if data is None else _made("entries_from_attribute", c.in_c(data), default=bool(place))
                 for place, data in enumerate((access, default))]
        first = cls.from_mode(mode)._access if access is None else _made("entries_sorted", parts[0], 0)
        return cls._of(first, parts[1])

    @classmethod
    def from_archive(cls, access: Optional[Name], default: Optional[Name] = None,
                     names: NamedIds = (), mode: int = 0, style: TarStyle = TarStyle.STAR) -> PosixAcl:
        """Makes a list from the texts of the headers `SCHILY.acl.access` and `SCHILY.acl.default` of an archive, each
        None if the header is absent. Without the first, the entries are those of the mode. In a text, a user or a group
        is an id, a name with an id at the end of its entry, or one of `names`: name, id, whether it is a group. The
        style matters for names with a backslash or a separator alone.

        Raises Refused with the place of a byte in the text, which is the second one for a default header. Raises
        ValueError if both texts have a default ACL, and as the constructor does for names.
        """
        table = spelled_in_c(names, style)
        first, second = (None if text is None else c.PosixText(c.in_c(c.encoded(text)), table)
                         for text in (access, default))
        parts = [cls.from_mode(mode)._access if first is None else held(entries_in(first, TEXT)),
                 held([] if first is None else entries_in(first, DEFAULT_OF_TEXT))]
        if second is not None:
            if parts[1].len:
                raise ValueError("both texts have a default ACL")
            parts[1] = held(entries_in(second, DEFAULT_TEXT))
        return cls._of(*parts)

    @classmethod
    def from_entries(cls, entries: Iterable[Entry], *, mask: bool = False) -> PosixAcl:
        """Makes a list of entries, which may be in any order. With `mask`, a part that has an entry for an id and no
        mask gets the mask that limits nothing, as setfacl(1) adds it (acl_calc_mask(3)).

        Raises Refused with the part and with the place of the entry in that part, from 0: for the reasons Tag, Id and
        Permission if the entry is none, and if the entries are not a valid ACL. Raises ValueError if a number is
        outside 32 bits.
        """
        access, default = map(part_in_c, parted(Entry(*entry) for entry in entries))
        options = c.ADD_MASK if mask else 0
        return cls._of(_made("entries_sorted", access, options),
                       _made("entries_sorted", default, options, default=True) if default.len else default)

    @classmethod
    def from_file(cls, file: File) -> PosixAcl:
        """Reads the lists of a file, or its mode if it has no list, as the file has them at one time. A file that
        changed just before is waited for, some milliseconds mostly, and up to eight seconds. A path needs `/proc`.
        Raises OSError, also if the file is never at rest, and Refused."""
        return cls.from_attributes(*at_one_time(file))

    def to_attributes(self) -> Tuple[bytes, Optional[bytes]]:
        """Returns the bytes of `system.posix_acl_access` and of `system.posix_acl_default`, which is None if the list
        has no default entries. `from_attributes` reads them back."""
        access, default = (c.bytes_of("entries_to_attribute", (part,), 4 + 8 * part.len) if part.len else None
                           for part in (self._access, self._default))
        return access or b"", default

    def to_archive(self, style: TarStyle = TarStyle.STAR,
                   names: NamedIds = ()) -> Tuple[str, Optional[str]]:
        """Returns the texts of `SCHILY.acl.access` and of `SCHILY.acl.default`, which is None if the list has no
        default entries. An id is written as its first name in `names` (name, id, whether it is a group), or as a
        number. `from_archive` reads the texts back, those of GNU tar with the same names and the same style.

        Raises Refused with the part and the place of the entry in it, from 0: for Separator and TooLong if its name
        would not be read back, and in the style of star for Id if its id is above 2147483647, which bsdtar loses.
        Raises ValueError for names as the constructor does.
        """
        table, default = spelled_in_c(names, style), self._default
        access = c.decoded(text_of(self._access, table, style, False))
        return access, c.decoded(text_of(default, table, style, True)) if default.len else None

    def to_file(self, file: File) -> None:
        """Gives a file both lists, and removes the default list of a directory if there are no default entries. If the
        file system has no lists, it sets the mode, which only works without an entry for an id and without default
        entries. It follows links: give an open descriptor where somebody else may exchange the file.

        Raises OSError. The default list is written first, so that a file that is no directory stays as it was.
        """
        access, default = self.to_attributes()
        try:
            if default is None:
                remove_attribute(file, DEFAULT)
            else:
                os.setxattr(file, DEFAULT, default)
            os.setxattr(file, ACCESS, access)
        except OSError as error:
            if error.errno != errno.ENOTSUP or len(self) > 3:
                raise
            os.chmod(file, os.stat(file).st_mode & 0o7000 | self.mode)

    def __str__(self) -> str:
        """Returns the canonical text, one line per entry."""
        return "".join(f"{entry}\n" for entry in self)

    def __repr__(self) -> str:
        return f"PosixAcl({str(self)!r})"

    def __eq__(self, other: object) -> bool:
        if not isinstance(other, PosixAcl):
            return NotImplemented
        return list(self) == list(other)

    def __hash__(self) -> int:
        return hash(tuple(self))

    def __len__(self) -> int:
        """Returns the number of entries of both parts."""
        return int(self._access.len + self._default.len)

    @property
    def is_extended(self) -> bool:
        """Whether the access ACL has more than the three entries that a mode means."""
        return bool(self._access.len > 3)

    def __iter__(self) -> Iterator[Entry]:
        """Yields the entries in canonical order, the access part first."""
        for default, part in enumerate((self._access, self._default)):
            for found in part.at[:part.len]:
                yield value_of(found, bool(default))

    def text(self, form: str = "canonical", *, users: Optional[Mapping[int, str]] = None,
             groups: Optional[Mapping[int, str]] = None) -> str:
        """Returns the text in the form `canonical`, `shown` (with `#effective`) or `short` (acl(5)). An id that `users`
        or `groups` has is written as its name, unless the name has only digits, would not be read back, or is that of
        another id in the list, too."""
        names = {"u": users or {}, "g": groups or {}}
        ids = {(entry.tag[0], entry.id) for entry in self if entry.id is not None}
        times = Counter((kind, names[kind].get(number, "")) for kind, number in ids)

        def named(found: Match[str]) -> str:
            kind = found[1][0]
            name = names[kind].get(int(found[2]), "")
            return f"{found[1]}:{name if _NAME.fullmatch(name) and times[kind, name] == 1 else found[2]}:"
        return _ID.sub(named, _shown(str(self).encode(), _FORMS[form], c.Names()).decode())

    @property
    def mode(self) -> int:
        """The nine bits of the mode: the entries of the owner, of the mask (or of the group if there is no mask), and
        of others."""
        return self._ask("entries_mode", c.Word()).value

    def check(self, *, user: int, groups: Iterable[int] = (), owner: int, group: int, want: int) -> bool:
        """Returns whether the user, who is in these groups and no others, is granted all of `want` (4 r, 2 w, 1 x) on
        an object of this owner and group (acl(5), "ACCESS CHECK ALGORITHM").

        Raises ValueError if an id is above 4294967294 or `want` above 7, and TypeError if `groups` is a text.
        """
        return self._ask("entries_check", c.Word(), _question(user, groups, owner, group, want)).value == 1

    def deciding(self, *, user: int, groups: Iterable[int] = (), owner: int, group: int, want: int) -> PosixDecision:
        """Returns which entry decides about all of `want` at once. Raises ValueError and TypeError as `check` does."""
        found = self._ask("entries_deciding", c.PosixDecision(), _question(user, groups, owner, group, want))
        entry = value_of(self._access.at[found.place], False) if found.tag else None
        return PosixDecision(found.granted == 1, entry, found.masked == 1)

    def _ask(self, call: str, answer: T, *args: object) -> T:
        """Makes a call on the access ACL, and returns the answer, which the call writes."""
        fault = c.Fault()
        c.judge(c.calls[call](self._access, *args, ctypes.byref(answer), ctypes.byref(fault)), fault)
        return answer

    def exceeds(self, other: PosixAcl) -> Optional[PosixDifference]:
        """Returns None if the other access ACL grants everybody whatever this one grants, for every request and every
        owner and group of the object, and otherwise a request that this one grants and the other denies: some
        requester, and the lowest number for which there is one. The default entries do not count."""
        found = self._ask("entries_excess", c.PosixDifference(), other._access)
        if found.same:
            return None
        groups = (found.first_group, found.second_group)[:found.ngroups]
        return PosixDifference(found.owner, found.group, found.user, groups, found.want)

    def at_most(self, other: PosixAcl) -> bool:
        """Returns whether the other access ACL grants everybody whatever this one grants."""
        return self.exceeds(other) is None

    def means_the_same(self, other: PosixAcl) -> bool:
        """Returns whether both access ACLs grant everybody the same, for every request and every owner and group of the
        object: neither exceeds the other. The default entries do not count."""
        return self.exceeds(other) is None and other.exceeds(self) is None

    def chmod(self, mode: int) -> PosixAcl:
        """Returns the list after chmod(2) with these nine bits. Raises ValueError if the mode is above 0o777."""
        return PosixAcl._of(_made("entries_chmod", self._access, c.word(mode)), self._default)

    def calc_mask(self) -> PosixAcl:
        """Returns the list with a calculated mask: the union of the permissions that it limits (acl_calc_mask(3))."""
        return PosixAcl._of(_made("entries_calc_mask", self._access), self._default)

    def create(self, *, mode: int, umask: int, directory: bool = False) -> PosixAcl:
        """Returns the list of a new file or directory in a directory with this list (acl(5), "OBJECT CREATION ..").

        Raises ValueError if `mode` or `umask` is above 0o777.
        """
        creation = c.Creation(_nine_bits(mode), _nine_bits(umask), c.DIRECTORY if directory else 0)
        if not self._default.len:
            return PosixAcl.from_mode(creation.mode & ~creation.umask)
        access = _made("entries_create", self._default, creation)
        return PosixAcl._of(access, self._default if directory else held([]))

    def bridge(self) -> NfsAcl:
        """Returns an NFSv4 list that grants each single permission as the access ACL does, with ids as names.

        Raises Refused with the reason `Limits` if that list would be too long.
        """
        return NfsAcl(c.bytes_of("entries_bridge", (self._access,), 64 * (self._access.len + 1)))


class ToPosix(NamedTuple):
    """What `NfsAcl.to_posix` makes of a list: an access ACL, and who loses by it. `lost` is None if the ACL grants each
    of r, w and x wherever the list does. Otherwise it is a request for one of them that the list grants and the ACL
    denies."""

    acl: PosixAcl
    lost: Optional[PosixDifference]

    @property
    def exact(self) -> bool:
        """Whether the ACL grants each of r, w and x to the same requesters as the list, for every object."""
        return self.lost is None


def posix_of(acl: c.Bytes, names: NamedIds, most: int) -> ToPosix:
    """Makes a POSIX ACL of an NFSv4 list. Raises Refused and ValueError as `NfsAcl.to_posix` does."""
    loss, bound = c.PosixLoss(), c.word(most)
    given = acl, table_in_c(names), bound
    room = min(bound, acl.len // _SHORTEST_ACE) + 4  # USER_OBJ, GROUP_OBJ, MASK and OTHER have no name
    entries = c.entries_of("to_posix", given, room, ctypes.byref(loss))
    groups = (loss.first_group, loss.second_group, loss.third_group)[:loss.ngroups]
    lost = PosixDifference(loss.owner, loss.group, loss.user, tuple(sorted(set(groups))), loss.want)
    return ToPosix(PosixAcl._of(held(entries), held([])), None if loss.exact else lost)


def _shown(text: bytes, form: int, names: c.Names) -> bytes:
    """Returns the canonical text of the POSIX ACL that a text spells, or another form of it, by its number in aclck.h.
    Raises Refused, with the line and the column."""
    return c.bytes_of("posix_show", (c.PosixText(c.in_c(text), names), form), 2 * len(text) + 64)


def _made(call: str, part: Union[c.Entries, c.Bytes], *args: object, default: bool = False) -> c.Entries:
    """Makes a call on a part that writes entries, and returns them. Raises Refused with the part."""
    try:
        return held(c.entries_of(call, (part, *args), part.len + 3))
    except Refused as refused:
        raise of_part(refused, default) from None


def _question(user: int, groups: Iterable[int], owner: int, group: int, want: int) -> c.PosixQuestion:
    members = [c.word(number) for number in c.several(groups)]
    return c.PosixQuestion(c.word(owner), c.word(group), c.word(user), c.word(want), (c.Word * len(members))(*members),
                           len(members))


def _nine_bits(mode: int) -> int:
    bits = c.word(mode)
    if bits > 0o777:
        raise ValueError(f"above 0o777: {bits:#o}")
    return bits
