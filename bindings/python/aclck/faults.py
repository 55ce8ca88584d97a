"""The exception for what the library refuses."""

from __future__ import annotations

from typing import Optional

_TAGS = ("", "USER_OBJ", "USER", "GROUP_OBJ", "GROUP", "MASK", "OTHER")
_PARTS = ("access", "default")


class Refused(ValueError):
    """The library refuses a list or a text. Its `str` is the line that aclck(1) prints, without `aclck: `.

    Attributes:
        reason: the name of the reason, such as `Truncated` (docs/reference/formats.md has all).
        offset: for bytes and for a text of an archive, the place of the refused field in bytes, from 0. For a POSIX
            ACL that is not valid, the place of the entry in its part, from 0. Otherwise None.
        ace: for a list that is made of ACEs, and for one whose names are exchanged, the place of the ACE, from 0.
            Otherwise None.
        line, column: for a text, the place, both from 1; the column is in bytes. Otherwise None.
        part: for a POSIX ACL that is not valid, `access` or `default`. Otherwise None.
        tag: if an entry is missing, its tag, such as `MASK`. Otherwise None.
        second: whether the second of two lists or texts is refused.
    """

    def __init__(self, reason: str, *, offset: Optional[int] = None, line: Optional[int] = None,
                 column: Optional[int] = None, part: Optional[str] = None, tag: Optional[str] = None,
                 second: bool = False, ace: Optional[int] = None) -> None:
        self.reason = reason
        self.offset = offset
        self.line = line
        self.column = column
        self.part = part
        self.tag = tag
        self.second = second
        self.ace = ace
        super().__init__(self._line())

    def _line(self) -> str:
        if self.part is not None:
            where = self.tag or ("" if self.offset is None else f"at entry {self.offset}")
            return f"Invalid {self.part}: {self.reason} {where}".rstrip()
        if self.line is not None:
            return f"{self.reason} at line {self.line} column {self.column}"
        if self.ace is not None:
            return f"{self.reason} at ACE {self.ace}"
        if self.offset is not None:
            return f"{self.reason} {self.tag or ''}".rstrip() + f" at byte {self.offset}"
        return self.reason


def refused(name: str, offset: int, line: int, column: int, second: int, part: int, tag: int) -> Refused:
    """Makes the exception for the name of a reason and the numbers with which the library describes a fault."""
    if line:
        return Refused(name, line=line, column=column)
    if name == "Miss":
        return Refused(name, part=_PARTS[part], tag=_TAGS[tag])
    if name in ("Multi", "Duplicate"):
        return Refused(name, part=_PARTS[part], offset=offset)
    if name in ("Limits", "TooMany"):
        return Refused(name)
    if name in ("UnknownName", "Merged"):
        return Refused(name, ace=offset)
    return Refused(name, offset=offset, second=bool(second))


def in_text(refused: Refused, length: int, second: bool) -> Refused:
    """Makes the exception for a text of this length, whose places are those of bytes. An entry that is missing is so at
    the end."""
    offset = refused.offset if refused.ace is None else refused.ace
    return Refused(refused.reason, offset=length if refused.tag else offset, tag=refused.tag, second=second)


def of_part(refused: Refused, default: bool) -> Refused:
    """Makes the exception for entries or an attribute of one part, whose place is that of an entry. An attribute of a
    wrong size or version has no place."""
    has_place = refused.tag is None and refused.reason not in ("Size", "Version")
    return Refused(refused.reason, part=_PARTS[default], offset=refused.offset if has_place else None, tag=refused.tag)
