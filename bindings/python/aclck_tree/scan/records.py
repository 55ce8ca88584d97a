"""Judges the records of pax headers (POSIX.1-2017, pax, "pax Extended Header"; GNU tar, "Storing Sparse Files")."""

from __future__ import annotations

import re
from typing import Dict, Iterator, List, NamedTuple, Optional
from urllib.parse import unquote_to_bytes

from aclck_tree.output.errors import Damaged
from aclck_tree.output.text import quoted_path
from aclck_tree.scan.blocks import Parts
from aclck_tree.scan.mounts import LISTS

XATTR = "SCHILY.xattr."
"""What is in front of the name of an attribute in a keyword."""

CODED = "LIBARCHIVE.xattr."
"""The same, if the value is in base64."""

SHOWN = 200
"""How many bytes of a name are shown."""

NUMBER = re.compile(rb"[0-9]{1,20}")
_LENGTH = re.compile(rb"([1-9][0-9]{0,5}) ")  # bsdtar leaves out a record of more than 999,999 bytes
_KEYWORD = re.compile(rb"[^ \t\0][^\0]*")
_OF_ALL = re.compile(rb"hdrcharset")
_CHARSETS = (b"BINARY", b"ISO-IR 10646 2000 UTF-8")
_IGNORED = re.compile(rb"[acm]time|comment|GNU\.dumpdir|RHT\.security\.selinux|LIBARCHIVE\.(creationtime|symlinktype)|"
                      rb"SCHILY\.(dev|ino|nlink|fflags|devmajor|devminor)|(SCHILY|LIBARCHIVE)\.xattr\..*", re.DOTALL)
_IGNORED_OF_ALL = re.compile(rb"[acm]time|comment|GNU\.volume\.label")
_OF_ONE = re.compile(rb"path|linkpath|size|uid|gid|uname|gname|GNU\.sparse\.name|SCHILY\.acl\.(ace|access|default)|"
                     rb"(SCHILY|LIBARCHIVE)\.xattr\.(system\.nfs4_acl|system\.nfs4_dacl|security\.nfs4acl_xdr|"
                     rb"system\.nfs4_acl_xdr|system\.posix_acl_access|system\.posix_acl_default|"
                     + b"|".join(re.escape(name.encode()) for name in sorted(LISTS)) + b")")
_NOT_EMPTY = re.compile(rb"path|linkpath|size|uid|gid|uname|gname|GNU\.sparse\.name")
_LONG_NUMBER = re.compile(rb"[0-9]{256}")
_SPARSE = b"GNU.sparse."
_LARGEST = (1 << 63) - 1


class Record(NamedTuple):
    """A record: its keyword and its value."""

    word: bytes
    value: bytes


def records(data: bytes) -> Iterator[Record]:
    """Yields the records of a pax header. Raises Damaged if something in it is none."""
    at = 0
    while at < len(data):
        length = _LENGTH.match(data, at)
        end = at + int(length[1]) if length else 0
        if not length or not length.end() < end <= len(data) or data[end - 1] != 0x0A:
            raise Damaged("a pax header has something else than records of at most 999,999 bytes")
        word, equals, value = data[length.end():end - 1].partition(b"=")
        if not equals or not _KEYWORD.fullmatch(word) or _is_disguised(word):
            raise Damaged("a pax header has a keyword that is none")
        yield Record(word, value)
        at = end


def kept(data: bytes, is_global: bool) -> Dict[bytes, bytes]:
    """Returns the values of a pax header that are used, by their keywords. Raises Damaged if there is a keyword that is
    not known, or a value that another program would take for another one."""
    found: Dict[bytes, bytes] = {}
    for word, value in records(data):
        is_used = _OF_ONE.fullmatch(word) or _OF_ALL.fullmatch(word)
        if is_used and (word in found or is_global and not _OF_ALL.fullmatch(word)):
            raise Damaged(f"a pax header has {word.decode()} twice, or for all members")
        if not is_used and not (_IGNORED_OF_ALL if is_global else _IGNORED).fullmatch(word) and not word.startswith(
                _SPARSE):
            raise Damaged(f"a pax header has the keyword {quoted_path(word[:SHOWN])}, which is not read")
        if word in (b"uid", b"gid", b"size") and not _is_number(value) or is_used and _LONG_NUMBER.search(value):
            raise Damaged("a pax header has a number that is none")
        if not value and _NOT_EMPTY.fullmatch(word):
            raise Damaged(f"a pax header has an empty {word.decode()}")
        if _OF_ALL.fullmatch(word) and value not in _CHARSETS:
            raise Damaged("a pax header has a set of characters that is not known")
        if is_used:
            found[word] = value
    if b"GNU.sparse.name" in found:  # whatever the order is
        found[b"path"] = found.pop(b"GNU.sparse.name")
    return {word: value for word, value in found.items() if value or word.startswith(XATTR.encode())}


def _is_number(value: bytes) -> bool:
    return bool(NUMBER.fullmatch(value)) and int(value) <= _LARGEST


def _is_disguised(word: bytes) -> bool:
    """Whether a keyword is that of an attribute with letters in the form of URLs, which bsdtar decodes."""
    return word.startswith(CODED.encode()) and b"%" in word and bool(_OF_ONE.fullmatch(unquote_to_bytes(word)))


class Sparse(NamedTuple):
    """What a pax header says of a sparse file: its length in bytes, and its parts, or None if the content begins with
    the list of them."""

    length: int
    parts: Optional[Parts]


def sparse_of(data: bytes, is_global: bool) -> Optional[Sparse]:
    """Returns what a pax header says of a sparse file, or None if it says nothing. Raises Damaged if it is in none of
    the three forms that GNU tar writes, or has numbers that are none."""
    found = [(word[len(_SPARSE):], value) for word, value in records(data) if word.startswith(_SPARSE)]
    if not found:
        return None
    of, values = dict(found), [value for word, value in found if word != b"name"]
    words = [word for word, _ in found if word != b"name"]
    if is_global:
        raise Damaged("a pax header has the parts of a sparse file for all members")
    if words == [b"major", b"minor", b"realsize"] and values[:2] == [b"1", b"0"]:
        return Sparse(_numbers(values[2:])[0], None)
    parts = values[2:] if words[2:] != [b"map"] else of[b"map"].split(b",") if of[b"map"] else []
    if words[:2] != [b"size", b"numblocks"] or words[2:] not in (
            [b"map"], [b"offset", b"numbytes"] * (len(parts) // 2)) or len(parts) % 2:
        raise Damaged("a sparse file is of a form that is not known")
    length, count, *numbers = _numbers([*values[:2], *parts])
    if count * 2 != len(numbers) or not count:  # GNU tar writes at least one part
        raise Damaged("a sparse file has other parts than it says")
    return Sparse(length, tuple(zip(numbers[::2], numbers[1::2])))


def _numbers(values: List[bytes]) -> List[int]:
    """Returns some numbers. Raises Damaged if one is none."""
    if not all(_is_number(value) for value in values):
        raise Damaged("a pax header has a number that is none")
    return [int(value) for value in values]
