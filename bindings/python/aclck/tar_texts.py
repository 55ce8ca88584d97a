"""The texts of POSIX ACLs in archives: the headers `SCHILY.acl.access` and `SCHILY.acl.default` (star(1), tar(1))."""

from __future__ import annotations

import enum
import re
from typing import List

from . import _library as c
from .faults import Refused, in_text, of_part
from .tables import NamedIds, table_in_c

TEXT, DEFAULT_OF_TEXT, DEFAULT_TEXT = 2, 3, 4
"""The forms of these texts (enum aclck_posix_form)."""

_QUOTED = re.compile(r"[\\:, \t\r\n]")
_QUOTE = re.compile(r"\\(\\|[0-7]{3})")


class TarStyle(enum.Enum):
    """The program as which `PosixAcl.to_archive` writes. Its number is what aclck.h adds to that of a text."""

    STAR = 0
    """star and bsdtar: commas are between the entries, the entries of the mode come first, and an entry with a name
    has its id at the end."""

    GNU = 16
    """GNU tar: a line feed is after each entry, and a name has no id. In a name, two backslashes are one, and a
    backslash with three octal digits is a colon, a comma, a blank, a tab or the end of a line (acl_to_any_text(3))."""


def entries_in(text: c.PosixText, form: int) -> List[c.Entry]:
    """Returns the entries of an ACL in a text. Raises Refused with the place of a byte."""
    try:
        return c.entries_of("entries_from_form", (text, form), text.text.len // 5 + 3)
    except Refused as refused:
        raise in_text(refused, text.text.len, form == DEFAULT_TEXT) from None


def spelled(name: str, style: TarStyle) -> str:
    """Returns how an entry spells a name: GNU tar puts a backslash and three octal digits in place of a character that
    separates entries or fields, and star leaves the name as it is."""
    if style is TarStyle.STAR:
        return name
    return _QUOTED.sub(lambda one: "\\\\" if one[0] == "\\" else f"\\{ord(one[0]):03o}", name)


def unspelled(name: str, style: TarStyle) -> str:
    """Returns the name that a text in the style has in this way."""
    if style is TarStyle.STAR:
        return name
    return _QUOTE.sub(lambda one: "\\" if one[1] == "\\" else chr(int(one[1], 8)), name)


def spelled_in_c(names: NamedIds, style: TarStyle) -> c.Names:
    """Returns a table for C of names as a text in the style has them."""
    return table_in_c((spelled(c.decoded(c.encoded(name)), style), number, is_group)
                      for name, number, is_group in names)


def text_of(part: c.Entries, names: c.Names, style: TarStyle, default: bool) -> bytes:
    """Returns the text of a part. Raises Refused with the part."""
    form = (DEFAULT_TEXT if default else TEXT) + style.value
    try:
        return c.bytes_of("entries_to_form", (part, names, form), 48 * part.len)
    except Refused as refused:
        raise of_part(refused, default) from None
