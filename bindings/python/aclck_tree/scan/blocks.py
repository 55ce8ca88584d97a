"""The blocks of the headers that a tar archive may have (POSIX.1-2017, pax, "ustar Interchange Format"; GNU tar,
"Basic Tar Format").

Only what GNU tar and bsdtar read in one way is a header here: each field is what its format says, to its last byte.
Everything else is refused by name.
"""

from __future__ import annotations

import re
import string
from typing import NamedTuple, Tuple

from aclck_tree.output.errors import Damaged
from aclck_tree.output.text import quoted_path

SIZE = 512
"""How many bytes a block has."""

FILE, OLD_FILE, HARD_LINK, SYMLINK, CHARACTER, BLOCK, DIRECTORY, FIFO, CONTIGUOUS = (
    b"0", b"\0", b"1", b"2", b"3", b"4", b"5", b"6", b"7")
EXTENDED, GLOBAL = b"x", b"g"
LONG_NAME, LONG_LINK, SPARSE, WITH_NAMES, LABEL = b"L", b"K", b"S", b"D", b"V"
"""The kinds of headers. Those of the last line are of GNU tar: a directory with the names in it, and the name of a
volume, among others."""

_REFUSED = {b"A": "a list in the form of Solaris", b"E": "an attribute in the form of Solaris",
            b"I": "an inode", b"M": "a file that another volume begins", b"N": "an old long name",
            b"X": "a header in the form of Solaris"}
_OF_GNU = (SPARSE, LABEL)

_USTAR, _GNU, _NONE = b"ustar\00000", b"ustar  \0", bytes(8)
_OCTAL = re.compile(rb" *[0-7]+[ \0]*")
_CHECKSUM = re.compile(rb"[ \0]*([0-7]+)")
_BASE_64 = (string.ascii_uppercase + string.ascii_lowercase + string.digits + "+/").encode()
_TEXT = re.compile(rb"[^\0]*\0*")
_LARGEST = (1 << 63) - 1

_NUMBERS = {"mode": slice(100, 108), "owner": slice(108, 116), "group": slice(116, 124), "size": slice(124, 136),
            "time": slice(136, 148), "checksum": slice(148, 156)}
_DEVICE = {"number of a device": slice(329, 337), "second number of a device": slice(337, 345)}
_TEXTS = {"name": slice(0, 100), "target": slice(157, 257), "owner": slice(265, 297), "group": slice(297, 329)}
_PREFIX, _BEHIND_PREFIX = slice(345, 500), slice(500, 512)
_TIMES = (slice(345, 357), slice(357, 369))
_BEHIND_TIMES, _BEFORE_PARTS, _PARTS = slice(369, 512), slice(369, 386), slice(386, 482)
_MORE, _REAL_SIZE, _BEHIND_SIZE = 482, slice(483, 495), slice(495, 512)
_PARTS_BEHIND, _MORE_BEHIND, _END_BEHIND = slice(0, 504), 504, slice(505, 512)

Parts = Tuple[Tuple[int, int], ...]
"""The parts of a sparse file that are stored: where each begins, and its length, in bytes."""


class Header(NamedTuple):
    """A header: its kind, its fields, and of a sparse file of GNU tar also its length, its parts, and whether a block
    with parts follows. Sizes and lengths are in bytes."""

    kind: bytes
    name: bytes
    target: bytes
    mode: int
    uid: int
    gid: int
    size: int
    user: bytes
    group: bytes
    length: int = 0
    parts: Parts = ()
    has_more: bool = False


def is_header(block: bytes) -> bool:
    """Whether some program may take a block for a header: its checksum is right, in any way in which programs count
    (with or without signs) and write numbers."""
    if len(block) < SIZE:
        return False
    field = block[_NUMBERS["checksum"]]
    octal = _CHECKSUM.match(field)
    found = int(octal[1], 8) if octal else _base_64(field[1:]) if field[:1] in (b"+", b"-") else int.from_bytes(
        field[1:], "big")
    signs = 256 * sum(byte >= 0x80 for byte in block[:148] + block[156:])
    return found in (_sum_of(block), _sum_of(block) - signs)


def _base_64(digits: bytes) -> int:
    """Returns a number of old archives of GNU tar."""
    found = 0
    for digit in digits:
        if digit not in _BASE_64:
            break
        found = found * 64 + _BASE_64.index(digit)
    return found


def _sum_of(block: bytes) -> int:
    """Returns the checksum of a block, in which the field of the checksum counts as blanks."""
    return sum(block) - sum(block[_NUMBERS["checksum"]]) + 8 * ord(" ")


def read_header(block: bytes) -> Header:
    """Returns what a block says. Raises Damaged if it is no header, or one that is not read."""
    if _sum_of(block) != _number(block, "checksum"):
        raise Damaged("a header is damaged, or the end of the archive is absent")
    kind, magic = block[156:157], block[257:265]
    if kind in _REFUSED:
        raise Damaged(f"it has {_REFUSED[kind]}, which is not read")
    if kind == LABEL:
        _judge_label(block)
        return Header(kind, b"", b"", 0, 0, 0, 0, b"", b"")
    if magic == _NONE:
        raise Damaged("a header is in the format of Unix V7, which is not read")
    if magic not in (_USTAR, _GNU):
        raise Damaged("a header is of a format that is not known")
    if magic != _GNU and kind in _OF_GNU or magic != _USTAR and kind in (EXTENDED, GLOBAL):
        raise Damaged(f"a header of the kind {quoted_path(kind)} is in another format than such headers have")
    numbers = {name: _number(block, name) for name in _NUMBERS}
    texts = {name: _text(block, place, name) for name, place in _TEXTS.items()}
    for name, place in _DEVICE.items():
        if any(block[place]) or kind in (CHARACTER, BLOCK):
            _number_of(block[place], name)
    found = Header(kind, texts["name"], texts["target"], numbers["mode"], numbers["owner"], numbers["group"],
                   numbers["size"], texts["owner"], texts["group"])
    return _with_prefix(block, found) if magic == _USTAR else _of_gnu(block, found)


def _judge_label(block: bytes) -> None:
    """Judges the name of a volume, for which GNU tar writes nothing but a name, a time and a checksum."""
    _text(block, _TEXTS["name"], "name")
    _number(block, "time")
    if block[257:265] not in (_NONE, _GNU) or any(block[100:136] + block[157:257] + block[265:]):
        raise Damaged("the label of a volume has content, an owner, or another field that it has not")
    if block[:2] == b"MZ" and block[257:265] == _NONE:
        raise Damaged("the label of a volume begins with MZ, behind which bsdtar looks for an archive of Windows")


def _with_prefix(block: bytes, found: Header) -> Header:
    prefix = _text(block, _PREFIX, "prefix")
    if any(block[_BEHIND_PREFIX]):
        raise Damaged("a header has something behind its fields")
    return found._replace(name=prefix + b"/" + found.name) if prefix else found


def _of_gnu(block: bytes, found: Header) -> Header:
    for place in _TIMES:
        if any(block[place]):
            _number_of(block[place], "time")
    if found.kind != SPARSE:
        if any(block[_BEHIND_TIMES]):
            raise Damaged("a header has the parts of a sparse file, and is not that of one")
        return found
    if any(block[_BEFORE_PARTS] + block[_BEHIND_SIZE]):
        raise Damaged("the header of a sparse file has something behind its fields")
    has_more = _has_more(block[_MORE])
    return found._replace(length=_number_of(block[_REAL_SIZE], "length"), has_more=has_more,
                          parts=_parts(block[_PARTS], has_more))


def read_parts(block: bytes) -> Tuple[Parts, bool]:
    """Returns the parts that a block behind the header of a sparse file has, and whether one more block follows."""
    if len(block) < SIZE or any(block[_END_BEHIND]):
        raise Damaged("a block with the parts of a sparse file is damaged")
    has_more = _has_more(block[_MORE_BEHIND])
    return _parts(block[_PARTS_BEHIND], has_more), has_more


def _has_more(byte: int) -> bool:
    if byte > 1:
        raise Damaged("the header of a sparse file is damaged")
    return bool(byte)


def _parts(data: bytes, is_full: bool) -> Parts:
    """Returns the parts in a block, which has no room left if one more block follows: programs look for it in
    different ways otherwise."""
    used = len(data.rstrip(b"\0"))
    count = -(-used // 24)
    if is_full and count * 24 < len(data):
        raise Damaged("a sparse file has less parts than it says")
    return tuple((_number_of(data[at:at + 12], "part"), _number_of(data[at + 12:at + 24], "part"))
                 for at in range(0, count * 24, 24))


def _number(block: bytes, name: str) -> int:
    return _number_of(block[_NUMBERS[name]], name)


def _number_of(data: bytes, name: str) -> int:
    """Returns a number in octal digits, or in the bytes that stand for a large one. A time may be negative."""
    if _OCTAL.fullmatch(data):
        return int(data.strip(b" \0"), 8)
    if data[0] == 0x80 and name != "checksum" and int.from_bytes(data[1:], "big") <= _LARGEST:
        return int.from_bytes(data[1:], "big")
    if data[0] == 0xFF and name == "time":
        return int.from_bytes(data, "big", signed=True)
    raise Damaged(f"the {name} of a member is not a number")


def _text(block: bytes, place: slice, name: str) -> bytes:
    if not _TEXT.fullmatch(block[place]):
        raise Damaged(f"the {name} of a member has something behind its end")
    return block[place].rstrip(b"\0")
