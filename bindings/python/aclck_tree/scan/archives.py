"""Reads the headers of the members of a tar archive, in the formats of pax, ustar and GNU tar. No content is read, and
nothing is unpacked.

An archive can come from anybody. Its headers follow one after the other in a grammar, and whatever is not in it is
refused by name, because GNU tar and bsdtar may read it in two ways: the tree that is restored would be another one.

    archive = { member } , zeros
    member  = { global header } , [ pax header | long names ] , header , content
"""

from __future__ import annotations

import base64
import binascii
import errno
import lzma
import re
import unicodedata
import zlib
from typing import BinaryIO, Dict, Iterator, List, NamedTuple, Optional

from aclck_tree.output.errors import Damaged, DeviceError
from aclck_tree.output.text import quoted_path
from aclck_tree.scan import blocks
from aclck_tree.scan.blocks import Header, Parts, read_header, read_parts
from aclck_tree.scan.compressed import read_to_end
from aclck_tree.scan.formats import other_format
from aclck_tree.scan.records import CODED, NUMBER, SHOWN, XATTR, Sparse, kept, sparse_of

LONGEST_HEADERS = 1 << 22
"""How many bytes the headers of one member may have."""

LONGEST_HEADER = 1 << 20
"""How many bytes one of them may have, as in bsdtar."""

TEXTS = ("SCHILY.acl.ace", "SCHILY.acl.access", "SCHILY.acl.default")
"""The pax headers that have the text of a list."""

_FILES = (blocks.FILE, blocks.OLD_FILE, blocks.CONTIGUOUS, blocks.SPARSE)
_LINKS = (blocks.SYMLINK, blocks.HARD_LINK)
_KINDS = {**dict.fromkeys(_FILES, "f"), blocks.DIRECTORY: "d", blocks.WITH_NAMES: "d", blocks.FIFO: "p",
          blocks.CHARACTER: "c", blocks.BLOCK: "b", blocks.SYMLINK: "l", blocks.HARD_LINK: "h"}
_WITHOUT_CONTENT = (blocks.DIRECTORY, blocks.FIFO, blocks.CHARACTER, blocks.BLOCK, *_LINKS)
_LONG_NAMES = (blocks.LONG_NAME, blocks.LONG_LINK)
_IN_FRONT = (blocks.GLOBAL, blocks.EXTENDED, *_LONG_NAMES)
_COMPOSED = (b"path", b"linkpath", b"uname", b"gname", *(name.encode() for name in TEXTS))
"""The values of a pax header whose letters bsdtar composes (Unicode, NFC), and GNU tar does not."""

_PAIR = re.compile(rb"\xed[\xa0-\xaf][\x80-\xbf]\xed[\xb0-\xbf][\x80-\xbf]")
"""A character in two parts, as CESU-8 has it (Unicode Technical Report 26). bsdtar makes it one character."""

_WINDOWS = re.compile(rb"(?:[/\\]{2}(?:\?[/\\][Uu][Nn][Cc]|[.?])[/\\])?(?:[A-Za-z]:|[/\\](?:\.\.?(?=[/\\]))?)*")
"""What bsdtar takes away in front of a path, because a path of Windows can begin so. GNU tar takes only slashes
away."""

_LARGE = 1 << 33
"""From how many bytes on the header of a member has no room for its size."""


class Member(NamedTuple):
    """A member: its path as the archive has it; its kind, which is `l` for a symbolic link, `h` for a hard link, and
    empty if it is not known; the path that a hard link has; and the pax headers that have lists."""

    path: bytes
    kind: str
    mode: int
    uid: int
    gid: int
    user: bytes
    group: bytes
    target: bytes
    headers: Dict[str, bytes]


class _BlockReader:
    """Reads the blocks of an archive, from its front to its end."""

    def __init__(self, file: BinaryIO) -> None:
        self._file = file
        self._at = 0
        self.next_member()

    def next_member(self) -> None:
        """Allows the headers of one more member."""
        self._left = LONGEST_HEADERS

    def header(self) -> Optional[Header]:
        """Returns the header that is next, or None at the zeros that end the archive."""
        is_first = not self._at
        block = self._file.read(blocks.SIZE)
        self._at += len(block)
        self._take(blocks.SIZE)
        if block == bytes(blocks.SIZE):
            if is_first:
                self._judge_zeros()
            return None
        if not block:
            raise Damaged("the end of the archive is absent")
        if len(block) < blocks.SIZE:
            raise Damaged("it ends in a header")
        other = other_format(block) if is_first else None
        if other:
            raise Damaged(f"it begins as a file of {other}")
        return read_header(block)

    def _judge_zeros(self) -> None:
        """Judges an archive that begins with zeros. bsdtar looks for one of another format behind them."""
        rest = self._file.read(LONGEST_HEADERS)
        if len(rest) == LONGEST_HEADERS or any(rest):
            raise Damaged("it begins with zeros, and is not an empty archive")

    def content(self, size: int) -> bytes:
        """Returns the content of a header, up to the end of its last block."""
        if size > LONGEST_HEADER:
            raise Damaged(f"a header has more than {LONGEST_HEADER:,} bytes")
        size = -(-size // blocks.SIZE) * blocks.SIZE
        self._take(size)
        data = self._file.read(size)
        self._at += len(data)
        if len(data) < size:
            raise Damaged("it ends in a header")
        return data

    def skip(self, size: int) -> None:
        """Goes over content, up to the end of its last block."""
        try:
            self._file.seek(self._at + -(-size // blocks.SIZE) * blocks.SIZE)
        except (OSError, OverflowError, ValueError) as error:
            if isinstance(error, OSError) and error.errno != errno.EINVAL:
                raise
            raise Damaged("a member is longer than any file") from None
        self._at = self._file.tell()

    def end(self) -> None:
        """Reads a compressed file to its end, where its checksum is."""
        read_to_end(self._file)

    def _take(self, size: int) -> None:
        self._left -= size
        if self._left < 0:
            raise Damaged(f"the headers of a member have more than {LONGEST_HEADERS:,} bytes")


class _Front:
    """What is in front of the header of a member."""

    def __init__(self) -> None:
        self.kinds = b""  # of the headers
        self.values: Dict[bytes, bytes] = {}
        self.sparse: Optional[Sparse] = None
        self.is_composed = True

    def add(self, header: Header, data: bytes) -> None:
        """Adds a header with its content, which may end in any bytes behind the size that the header says."""
        kind, counts = header.kind, data[:header.size]
        if kind in self.kinds or kind == blocks.GLOBAL and self or blocks.EXTENDED in self.kinds + kind and self:
            raise Damaged("a member has two headers for one thing")
        if kind in _LONG_NAMES:
            name, _, rest = counts.partition(b"\0")
            if not name or any(rest) or len(name) == len(counts) and any(data[header.size:]):
                raise Damaged("a long name has another length than its header says")
            self.values[b"path" if kind == blocks.LONG_NAME else b"linkpath"] = name
        elif kind == blocks.GLOBAL:
            kept(counts, True)
            sparse_of(counts, True)
            return
        else:
            self.values, self.sparse = kept(counts, False), sparse_of(counts, False)
            self.is_composed = self.values.get(b"hdrcharset") == b"BINARY" or all(
                _composed(self.values.get(word, b"")) == self.values.get(word, b"") for word in _COMPOSED)
        self.kinds += kind

    def __bool__(self) -> bool:
        return bool(self.kinds)


def _composed(text: bytes) -> bytes:
    """Returns a text as bsdtar restores it: with its letters composed. What is not UTF-8 stays as it is."""
    text = _PAIR.sub(lambda pair: _joined(pair[0]), text)
    return unicodedata.normalize("NFC", text.decode("utf-8", "surrogateescape")).encode("utf-8", "surrogateescape")


def _has_drive(path: bytes) -> bool:
    return _without_drive(path) != path


def _without_drive(path: bytes) -> bytes:
    """Returns a path as bsdtar restores it: without a drive of Windows and the like in front of it. Slashes are
    left."""
    front = _WINDOWS.match(path)
    return path[front.end():] if front and front[0].strip(b"/.") else path


def _joined(pair: bytes) -> bytes:
    """Returns the character that two surrogates stand for."""
    return pair.decode("utf-8", "surrogatepass").encode("utf-16", "surrogatepass").decode("utf-16").encode()


def _content_of(header: Header, front: _Front, reader: _BlockReader) -> int:
    """Returns how many bytes of content follow, and reads the list of the parts of a sparse file. Raises Damaged if
    programs would not agree about it."""
    size = int(front.values.get(b"size", header.size))
    if size != header.size and (size < _LARGE or header.kind not in _FILES):
        raise Damaged("a member has two sizes")
    if size and header.kind in _WITHOUT_CONTENT:
        raise Damaged(f"{quoted_path(header.name[:SHOWN])} is of a kind that has no content, and has a size")
    if header.kind == blocks.SPARSE:
        if blocks.EXTENDED in front.kinds:
            raise Damaged("a sparse file has parts of two forms")
        _judge_parts(_parts_behind(header, reader), header.length, size)
    elif front.sparse:
        if header.kind != blocks.FILE:
            raise Damaged("a pax header has the parts of a sparse file for something else")
        parts, used = front.sparse.parts, 0
        if parts is None:
            parts, used = _listed(reader)
        _judge_parts(parts, front.sparse.length, size - used)
        return size - used
    return size


def _parts_behind(header: Header, reader: _BlockReader) -> Parts:
    """Returns the parts of a sparse file, which are in its header and in the blocks behind it."""
    parts, has_more = list(header.parts), header.has_more
    while has_more:
        more, has_more = read_parts(reader.content(blocks.SIZE))
        parts += more
    return tuple(parts)


def _judge_parts(parts: Parts, length: int, size: int) -> None:
    """Judges the parts of a sparse file of a length in bytes. They follow one another, and are its content."""
    ends = [0, *(start + count for start, count in parts)]
    if any(start < end for (start, _), end in zip(parts, ends)) or ends[-1] > length or sum(
            count for _, count in parts) != size:
        raise Damaged("a sparse file has other parts than its content")
    stored = [count for _, count in parts if count]
    if any(count % blocks.SIZE for count in stored[:-1]):  # GNU tar takes a whole block for each of them
        raise Damaged("a sparse file has a part that ends in the middle of a block")


def _listed(reader: _BlockReader) -> "tuple[Parts, int]":
    """Returns the parts in the list at the beginning of the content, and how many bytes the list has."""
    numbers: List[int] = []
    rest, used = b"", 0
    while not numbers or len(numbers) <= 2 * numbers[0]:
        block = reader.content(blocks.SIZE)
        used += len(block)
        *lines, rest = (rest + block).split(b"\n")
        if not lines or not all(NUMBER.fullmatch(line) for line in lines):
            raise Damaged("the list of the parts of a sparse file has a number that is none")
        numbers += map(int, lines)
    if len(numbers) != 2 * numbers[0] + 1:
        raise Damaged("the list of the parts of a sparse file is too long")
    return tuple(zip(numbers[1::2], numbers[2::2])), used


def _lists(values: Dict[bytes, bytes]) -> Dict[str, bytes]:
    """Returns the values of a pax header that have lists, by their names. Raises Damaged if one of them is none, or if
    there are two of one name."""
    found = {name.decode(): value for name, value in values.items() if name.decode() in TEXTS or name.startswith(
        XATTR.encode())}
    for name, value in values.items():
        if name.startswith(CODED.encode()):
            attribute = name[len(CODED):].decode()
            try:
                decoded = base64.b64decode(value + b"=" * (-len(value) % 4), validate=True)
            except binascii.Error:
                raise Damaged(f"the value of {attribute} is not in base64") from None
            if found.setdefault(XATTR + attribute, decoded) != decoded:
                raise Damaged(f"there are two values of {attribute}")
    return found


def _is_coded_alone(name: bytes, values: Dict[bytes, bytes]) -> bool:
    """Whether a value is that of a list in base64, which GNU tar does not know, and the same value is not there in the
    form that it knows. bsdtar writes both."""
    return name.startswith(CODED.encode()) and XATTR.encode() + name[len(CODED):] not in values


def _member(header: Header, front: _Front, size: int) -> Member:
    """Returns a member, whose kind is not known if programs do not agree about it. Raises Damaged if they would not
    agree either about where the next header is."""
    values, kind = front.values, _KINDS.get(header.kind, "")
    path, target = values.get(b"path", header.name), values.get(b"linkpath", header.target)
    if not path:
        raise Damaged("a member has no name")
    if kind != "d" and (path.endswith((b"/", b"/.")) or path == b"."):  # a directory for GNU tar and bsdtar
        if size or front.sparse or header.kind == blocks.SPARSE:
            raise Damaged(f"{quoted_path(path[:SHOWN])} is a directory by its name, and has content")
        kind = ""
    if bool(target) != bool(header.target):  # bsdtar takes a link without a target of its own for a file
        raise Damaged(f"the header of {quoted_path(path[:SHOWN])} has a long target, and none of its own")
    if (header.kind in _LINKS) != bool(target) or not front.is_composed:
        kind = ""
    if _has_drive(path) or kind == "h" and _has_drive(target):
        kind = ""
    if any(_is_coded_alone(name, values) for name in values):
        kind = ""
    return Member(path.rstrip(b"/") or path if kind == "d" else path, kind, header.mode & 0o7777,
                  int(values.get(b"uid", header.uid)), int(values.get(b"gid", header.gid)),
                  values.get(b"uname", header.user), values.get(b"gname", header.group), target, _lists(values))


def _members(reader: _BlockReader) -> Iterator[Member]:
    while True:
        reader.next_member()
        front, header = _Front(), reader.header()
        while header and header.kind in _IN_FRONT:
            front.add(header, reader.content(header.size))
            header = reader.header()
        if front and (not header or header.kind == blocks.LABEL):
            raise Damaged("the headers of a member have no member behind them")
        if not header:
            reader.end()
            return
        if header.kind != blocks.LABEL:
            size = _content_of(header, front, reader)
            member = _member(header, front, size)
            yield member
            other = _without_drive(member.path if front.is_composed else _composed(member.path))
            if other != member.path:
                yield member._replace(path=other)
            reader.skip(size)


def members(file: BinaryIO) -> Iterator[Member]:
    """Yields the members of an archive. Raises Damaged if it cannot be read to its end, and DeviceError."""
    try:
        yield from _members(_BlockReader(file))
    except OSError as error:
        if error.errno:
            raise DeviceError(f"the archive cannot be read: {error.strerror}") from None
        raise Damaged(str(error) or type(error).__name__) from None  # of a decompressor
    except (EOFError, zlib.error, lzma.LZMAError) as error:
        raise Damaged(str(error) or type(error).__name__) from None
