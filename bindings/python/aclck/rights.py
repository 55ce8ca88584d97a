"""The rights of a mask, by their names in RFC 8881, section 6.2.1.3.1, without `ACE4_`. A mask is an `int`."""

from __future__ import annotations

import ctypes
from typing import Dict

from ._library import Name, Word, calls, decoded, encoded, in_c, short_text, word

# tools/tables writes the lists of names and numbers.
__all__ = [
    "ADD_FILE", "ADD_SUBDIRECTORY", "ALL", "APPEND_DATA", "DELETE", "DELETE_CHILD", "EXECUTE", "LIST_DIRECTORY",
    "READ_ACL", "READ_ATTRIBUTES", "READ_DATA", "READ_NAMED_ATTRS", "RIGHTS", "SYNCHRONIZE", "WRITE_ACL",
    "WRITE_ATTRIBUTES", "WRITE_DATA", "WRITE_NAMED_ATTRS", "WRITE_OWNER", "WRITE_RETENTION", "WRITE_RETENTION_HOLD",
    "mask_text", "read_mask",
]

RIGHTS: Dict[str, int] = {
    "READ_DATA": 0x1, "WRITE_DATA": 0x2, "APPEND_DATA": 0x4, "READ_NAMED_ATTRS": 0x8, "WRITE_NAMED_ATTRS": 0x10,
    "EXECUTE": 0x20, "DELETE_CHILD": 0x40, "READ_ATTRIBUTES": 0x80, "WRITE_ATTRIBUTES": 0x100,
    "WRITE_RETENTION": 0x200, "WRITE_RETENTION_HOLD": 0x400, "DELETE": 0x10000, "READ_ACL": 0x20000,
    "WRITE_ACL": 0x40000, "WRITE_OWNER": 0x80000, "SYNCHRONIZE": 0x100000,
}
"""All sixteen rights by their first names, in the order of their bits."""

READ_DATA = LIST_DIRECTORY = 0x1
WRITE_DATA = ADD_FILE = 0x2
APPEND_DATA = ADD_SUBDIRECTORY = 0x4
READ_NAMED_ATTRS = 0x8
WRITE_NAMED_ATTRS = 0x10
EXECUTE = 0x20
DELETE_CHILD = 0x40
READ_ATTRIBUTES = 0x80
WRITE_ATTRIBUTES = 0x100
WRITE_RETENTION = 0x200
WRITE_RETENTION_HOLD = 0x400
DELETE = 0x10000
READ_ACL = 0x20000
WRITE_ACL = 0x40000
WRITE_OWNER = 0x80000
SYNCHRONIZE = 0x100000
ALL = 0x1F07FF


def read_mask(text: Name) -> int:
    """Returns the mask that a text names: names with `|` between them, or `-` for none.

    Raises ValueError if the text does not name a mask.
    """
    bits, given = Word(), encoded(text)
    if calls["read_mask"](in_c(given), ctypes.byref(bits)):
        raise ValueError(f"no names of rights with | between them: {decoded(given)!r}")
    return bits.value


def mask_text(mask: int) -> str:
    """Returns the names of the rights of a mask, with `|` between them, or `-` for none.

    Raises ValueError if a bit is not a right.
    """
    text = short_text("mask_text", word(mask))
    if not text:
        raise ValueError(f"a bit is no right: {mask:#x}")
    return text
