"""The forms in which other systems keep or print NFSv4 lists."""

from __future__ import annotations

import ctypes
import enum
import operator
from typing import List, NamedTuple, Tuple

from . import _library as c
from .aces import NumberFlag
from .faults import Refused

_MOST_ACES = 65536
"""The greatest number of ACEs of a list."""


class ListForm(enum.Enum):
    """A form of a list. Its number is that of aclck.h."""

    NFS_TOOLS_FILE = 1
    """The text of `nfs4_getfacl` for a file. It has no flags of the list."""

    NFS_TOOLS_DIRECTORY = 2
    """The text of `nfs4_getfacl` for a directory. It has no flags of the list."""

    NFS_ACL41 = 3
    """The attribute dacl, `system.nfs4_dacl` on Linux: flags of the list, and a list (section 6.2.2)."""

    NFS_ACL41_IDS = 4
    """Samba's attribute `security.nfs4acl_xdr`: flags of the list, and a list whose users and groups are ids."""

    NFS_TEXT = 5
    """The text of `getfacl` of FreeBSD, of ZFS and of archives, by its names. It has no flags of the list."""

    NFS_TEXT_IDS = 6
    """The same text. An entry with a name and an id is about the id."""


class TextStyle(enum.IntFlag):
    """How `ListForm.NFS_TEXT` and `ListForm.NFS_TEXT_IDS` are written. Both flags have no effect when they are read."""

    COMMAS = 16
    """Commas are between the entries, as in `SCHILY.acl.ace`. Without this, a line feed is after each entry."""

    FULL = 32
    """Each letter has a place, with `-` for one that is absent. Without this, only the letters are written."""


class ListFlag(NumberFlag):
    """The flags of a whole list (section 6.2.2). OpenZFS sets the last two in the same word. No flag changes what the
    list grants."""

    AUTO_INHERIT = 0x1
    PROTECTED = 0x2
    DEFAULTED = 0x4
    IS_TRIVIAL = 0x10000
    IS_DIR = 0x20000


class LeftOut(NamedTuple):
    """An ACE that is left out of a list. Its `str` is a line that says so."""

    ace: int
    """The number of the ACE among all ACEs of the value, from 0."""

    offset: int
    """The place of the ACE's first byte, or of the first byte of its entry in a text, from 0."""

    reason: str
    """`AuditOrAlarm`, or `SpecialWho` for a special identifier other than `OWNER@`, `GROUP@` and `EVERYONE@`."""

    def __str__(self) -> str:
        return f"{self.reason} at ACE {self.ace}, byte {self.offset}"


def read(value: bytes, form: ListForm) -> Tuple[bytes, ListFlag]:
    """Returns the bytes of the list that a value spells, and the flags of the list. Raises Refused with the offset."""
    flags = c.Word()
    data = c.bytes_of("read_form", (c.in_c(value), _number(form)), 4 * len(value) + 64, ctypes.byref(flags))
    return data, ListFlag(flags.value)


def read_part(value: bytes, form: ListForm) -> Tuple[bytes, ListFlag, List[LeftOut]]:
    """Returns the bytes of the list without the ACEs that access does not read, the flags of the list, and the ACEs
    that are left out. Raises Refused with the offset."""
    most = min(len(value) // 5 + 1, _MOST_ACES)  # no ACE that is left out has fewer than 5 bytes
    part, left, room, status = c.Part(), (c.LeftOut * most)(), 4 * len(value) + 64, c.SHORT
    while status == c.SHORT:
        out, fault = ctypes.create_string_buffer(room), c.Fault()
        buffers = c.Buffer(ctypes.addressof(out), room), c.LeftOuts(left, most)
        status = c.calls["read_part"](c.in_c(value), _number(form), ctypes.byref(part), *buffers, ctypes.byref(fault))
        room = part.needed
    c.judge(status, fault)
    found = [LeftOut(one.place, one.offset, c.short_text("reason_text", one.reason)) for one in left[:part.left_out]]
    return out.raw[:part.needed], ListFlag(part.flags), found


def written(acl: c.Bytes, form: ListForm, flags: int, style: int) -> bytes:
    """Returns the value of flags and of a list. Raises Refused with the place of an ACE if the form cannot hold it, and
    ValueError for a style that is none, which would be the number of another form."""
    chosen = int.__index__(operator.index(style))
    if chosen & ~int(TextStyle.COMMAS | TextStyle.FULL):
        raise ValueError(f"no style: {style}")
    try:
        return c.bytes_of("write_form", (acl, _number(form) | chosen, c.word(flags)), 2 * acl.len + 64)
    except Refused as refused:
        raise Refused(refused.reason, ace=refused.offset) from None


def _number(form: ListForm) -> int:
    """Returns the number of a form in aclck.h. Raises TypeError for anything else, also for a number."""
    if not isinstance(form, ListForm):
        raise TypeError(f"a form is a ListForm, and not {type(form).__name__}")
    return form.value
