"""Reads the lists that pax headers of an archive have: texts of POSIX ACLs (of star, GNU tar and bsdtar), the text of
an NFSv4 list (of bsdtar), and attributes."""

from __future__ import annotations

import re
from typing import AbstractSet, Iterator, List, Mapping, Optional, Protocol, Sequence, Tuple

from aclck import ListForm, NfsAcl, PosixAcl, Refused

from aclck_tree.answer.lists import AceType, Piece, decoded, joined, pieces
from aclck_tree.people.accounts import System
from aclck_tree.people.people import HIGHEST_ID
from aclck_tree.scan.reader import ATTRIBUTES, POSIX
from aclck_tree.scan.reader import another_attribute
from aclck_tree.scan.records import XATTR
from aclck_tree.scan.values import read_value, refused_value, with_names
from aclck_tree.snapshot import snapshot
from aclck_tree.snapshot.snapshot import StoredList

_ACCESS, _DEFAULT, _ACE = "SCHILY.acl.access", "SCHILY.acl.default", "SCHILY.acl.ace"
_BLANKS = b" \t"
_NAMED = {b"user": False, b"u": False, b"group": True, b"g": True}
_PREFIXES = (b"default", b"d")
_DIGITS = re.compile(rb"[0-9]+")
_TWO_NUMBERS = re.compile(rb"0[0-9]+|[-+][0-9]+|[-+]?0[xX][0-9A-Fa-f]+")  # for GNU tar, which reads them as C does
_TWO_NAMES = re.compile(rb"\\(\\|[0-7]{3})")  # one byte for GNU tar, and not for bsdtar
_MOST_ENTRIES = 1 << 17
_ENTRY = re.compile(rb"[^,\n#]*")
_TYPES = {b"allow": AceType.ALLOW, b"audit": AceType.AUDIT, b"alarm": AceType.ALARM}
"""The types of ACEs that the library leaves out."""


def read_headers(headers: Mapping[str, bytes], is_directory: bool, mode: int, accounts: System) -> StoredList:
    """Returns the list of a member. An NFSv4 list counts first, as for a file."""
    if _ACE in headers:
        if _ACCESS in headers or _DEFAULT in headers:  # programs restore one or the other
            return refused_value(_ACE, headers[_ACE], "the member also has the text of a POSIX ACL")
        return _read_ace(headers[_ACE], accounts)
    for attribute in ATTRIBUTES:
        if XATTR + attribute in headers:
            return read_value(attribute, headers[XATTR + attribute], accounts)
    return _read_posix(headers, is_directory, mode, accounts)


def another(names: AbstractSet[str]) -> Optional[str]:
    """Returns an attribute with another list than the one that `read_headers` returns for headers of these names, or
    None. Archives have a POSIX ACL as a text, as an attribute, or as both."""
    held = {name[len(XATTR):] for name in names if name.startswith(XATTR)}
    if _ACE in names:
        return another_attribute(held, _ACE)
    held.update(one for name, one in zip((_ACCESS, _DEFAULT), POSIX) if name in names)
    return another_attribute(held, next((one for one in ATTRIBUTES if one in held), None))


def _read_posix(headers: Mapping[str, bytes], is_directory: bool, mode: int, accounts: System) -> StoredList:
    texts = [headers.get(_ACCESS), headers.get(_DEFAULT) if is_directory else None]
    for name, text in zip((_ACCESS, _DEFAULT), texts):
        if text is not None and any(_TWO_NUMBERS.fullmatch(data[1]) for data in _named_in(text)):
            return refused_value(name, text, "programs read an id in different ways")
        if text is not None and any(_TWO_NAMES.search(data[1]) for data in _named_in(text)):
            return refused_value(name, text, "programs read a name in different ways")
    name, access, default = _ACCESS, None, None
    is_extended = False
    try:
        if texts[0] is not None:
            acl = PosixAcl.from_archive(texts[0], None, accounts_in(texts[0], accounts))
            access, in_access = acl.to_attributes()
            if in_access is not None:
                return refused_value(name, texts[0], "it has default entries")
            is_extended, mode = acl.is_extended, acl.mode
        if texts[1] is not None:
            name = _DEFAULT
            default = PosixAcl.from_archive(None, texts[1], accounts_in(texts[1], accounts)).to_attributes()[1]
    except Refused as refused:
        return refused_value(name, b"\0".join(text or b"" for text in texts), str(refused))
    other = _other_attribute(headers, [access, default] if is_directory else [access])
    if other:
        return refused_value(other, headers[XATTR + other], "GNU tar restores it with --xattrs, and bsdtar never")
    access = access if is_extended else None  # three entries are kept as a mode
    if access is None and default is None:
        return StoredList(snapshot.StoredForm.MODE, mode, None, None)
    return StoredList(snapshot.StoredForm.POSIX, mode if access is None else 0, access, default)


def _other_attribute(headers: Mapping[str, bytes], values: Sequence[Optional[bytes]]) -> Optional[str]:
    """Returns the first attribute of a POSIX ACL whose value is not the one that a text says."""
    return next((name for name, value in zip(POSIX, values) if headers.get(XATTR + name, value) != value), None)


def _read_ace(text: bytes, accounts: System) -> StoredList:
    """Returns the list of a text, with names in place of ids, and with the ACEs that the library leaves out."""
    try:
        acl, _, left_out = NfsAcl.from_form_part(text, ListForm.NFS_TEXT)
    except Refused as refused:
        return refused_value(_ACE, text, str(refused))
    kept, others = pieces(bytes(acl)), {ace.ace: _left_out(text, ace.offset) for ace in left_out}
    in_order = iter(kept)
    data = joined([others[place] if place in others else next(in_order) for place in range(len(kept) + len(others))])
    return StoredList(snapshot.StoredForm.ACCOUNTS, 0, with_names(data, accounts), None)


def _left_out(text: bytes, offset: int) -> Piece:
    """Returns an ACE that the library left out, whose entry begins here. The library judged the entry, and reads it now
    as an ALLOW of a name that it takes."""
    data = _fields(next(_ENTRY.finditer(text, offset)).group())
    place, who = 3, None
    if not data[0].endswith(b"@"):
        place, who, data[1] = 4, data[1], b"name"
    kind, data[place] = _TYPES[data[place]], b"allow"
    piece, = pieces(bytes(NfsAcl.from_form(b":".join(data), ListForm.NFS_TEXT)[0]))
    return piece._replace(kind=kind, who=piece.who if who is None else who)


class IdLookup(Protocol):
    """What knows the ids of names."""

    def number_of(self, is_group: bool, name: bytes) -> Optional[int]:
        """Returns the id of a name, or None."""


def accounts_in(text: bytes, accounts: IdLookup) -> Iterator[Tuple[str, int, bool]]:
    """Yields the accounts whose names a text of a POSIX ACL has: the name, the id, and whether it is a group."""
    for is_group, name in sorted({key for key, _ in _names_in(text)}):
        number = accounts.number_of(is_group, name)
        if number is not None:
            yield decoded(name), number, is_group


def names_with_ids(text: bytes) -> Iterator[Tuple[bool, int, bytes]]:
    """Yields the names for which a text of a POSIX ACL has an id: whether it is a group, the id, and the name."""
    for (is_group, name), last in _names_in(text):
        if _DIGITS.fullmatch(last) and len(last.lstrip(b"0")) <= 10 and int(last) <= HIGHEST_ID:
            yield is_group, int(last), name


def _names_in(text: bytes) -> Iterator[Tuple[Tuple[bool, bytes], bytes]]:
    """Yields the names of a text of a POSIX ACL, each with whether it is a group and with the field behind its
    permissions, or with no bytes. Whether the text is right is for the library to say."""
    for data in _named_in(text):
        if not _DIGITS.fullmatch(data[1]):
            yield (_NAMED[data[0]], data[1]), data[3] if len(data) == 4 else b""


def _named_in(text: bytes) -> Iterator[List[bytes]]:
    """Yields the fields of each entry for a user or a group of a text of a POSIX ACL."""
    for data in _entries(text):
        if data[0] in _PREFIXES:
            del data[0]
        if 3 <= len(data) <= 4 and data[0] in _NAMED and data[1]:
            yield data


def _entries(text: bytes) -> Iterator[List[bytes]]:
    """Yields the fields of each entry that has any, but of no more entries than any file system keeps."""
    left = _MOST_ENTRIES
    for line in text.split(b"\n"):
        for piece in line.partition(b"#")[0].split(b",") if line else ():
            if piece and left:
                left -= 1
                yield _fields(piece)


def _fields(entry: bytes) -> List[bytes]:
    """Returns the fields of an entry, without the blanks around them."""
    return [field.strip(_BLANKS) for field in entry.split(b":")]
