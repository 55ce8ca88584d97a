"""The entries of POSIX ACLs as values (acl(5), "ACL TYPES")."""

from __future__ import annotations

from typing import Iterable, List, NamedTuple, Optional, Sequence, Tuple

from . import _library as c

_TAGS = ("", "user", "user", "group", "group", "mask", "other")
"""The word of each tag of C. A user and a group have a tag without an id and another one with an id."""
_NAMED = (2, 4)
_NUMBERS = {(tag, number in _NAMED): number for number, tag in enumerate(_TAGS) if number}
_ANYBODY = 0xFFFFFFFF

PERMISSIONS = {"r": 4, "w": 2, "x": 1}
"""The permissions by their letters."""


class Entry(NamedTuple):
    """One entry: whether it is of the default part, its tag as in the canonical text, its id or None, permissions."""

    default: bool
    tag: str
    id: Optional[int]
    perm: int

    def __str__(self) -> str:
        """Returns the line of the entry in the canonical text."""
        number = "" if self.id is None else self.id
        return f"{'default:' if self.default else ''}{self.tag}:{number}:{letters_of(self.perm)}"


def held(entries: Sequence[c.Entry]) -> c.Entries:
    """Returns some entries of C as the part of a list."""
    return c.Entries((c.Entry * len(entries))(*entries), len(entries))


def part_in_c(part: Iterable[Entry]) -> c.Entries:
    """Returns the entries of a part for C. The tag 0 is that of no entry."""
    return held([c.Entry(_NUMBERS.get((entry.tag, entry.id is not None), 0),
                         c.word(_ANYBODY if entry.id is None else entry.id), c.word(entry.perm)) for entry in part])


def value_of(found: c.Entry, default: bool) -> Entry:
    """Returns the entry of C as a value: in the access part, or in the default part with `default`. Its id is None if
    its tag takes none."""
    return Entry(default, _TAGS[found.tag], found.id if found.tag in _NAMED else None, found.perm)


def parted(entries: Iterable[Entry]) -> Tuple[List[Entry], List[Entry]]:
    """Returns the entries of the access part, and those of the default part."""
    parts: Tuple[List[Entry], List[Entry]] = ([], [])
    for entry in entries:
        parts[bool(entry.default)].append(entry)
    return parts


def read_line(line: bytes) -> Entry:
    """Returns the entry of a line of the canonical text."""
    fields = line.decode().split(":")
    tag, number, perm = fields[-3:]
    return Entry(len(fields) == 4, tag, int(number) if number else None, perm_of(perm))


def perm_of(letters: str) -> int:
    """Returns the permissions of which a text has the letters."""
    return sum(bit for letter, bit in PERMISSIONS.items() if letter in letters)


def letters_of(perm: int, absent: str = "-") -> str:
    """Returns the letters of permissions, with `absent` in place of each one that is not among them: such as `r-x`."""
    return "".join(letter if perm & bit else absent for letter, bit in PERMISSIONS.items())
