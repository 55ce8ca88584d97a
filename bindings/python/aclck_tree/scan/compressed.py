"""Opens an archive, which may be compressed by gzip, bzip2 or xz."""

from __future__ import annotations

import bz2
import contextlib
import io
import lzma
import os
import stat
import zlib
from typing import BinaryIO, Callable, Dict, Iterator, cast

from aclck_tree.output.errors import Damaged, TreeError
from aclck_tree.output.text import quoted
from aclck_tree.scan import blocks
from aclck_tree.scan.formats import other_format

XZ_MEMORY = 1 << 28
"""How many bytes the decompression of a file of xz may take. `xz -9` needs 65 MiB."""

_AT_ONCE = 1 << 14  # bytes


class _Compressed:
    """A compressed file, decompressed: streams, one behind the other."""

    def __init__(self, file: BinaryIO) -> None:
        self._file = file
        self._at = 0

    def fileno(self) -> int:
        """Returns the descriptor of the file."""
        return self._file.fileno()

    def tell(self) -> int:
        """Returns the place in what is decompressed."""
        return self._at

    def seek(self, place: int) -> int:
        """Goes on to a place, or to the end."""
        while self._at < place and self.read(min(place - self._at, 1 << 16)):
            pass
        return self._at

    def read(self, size: int) -> bytes:
        """Returns as many bytes, or those up to the end."""
        data = bytearray()
        while len(data) < size and self._is_more():
            data += self._decompressed(size - len(data))
        self._at += len(data)
        return bytes(data)

    def _packed(self) -> bytes:
        """Returns bytes of a stream that has not ended."""
        packed = self._file.read(_AT_ONCE)
        if not packed:
            raise Damaged("the compressed file ends early")
        return packed

    def _is_more(self) -> bool:
        """Whether there is a stream that has not ended. Begins the next one."""
        raise NotImplementedError

    def _decompressed(self, size: int) -> bytes:
        """Returns what is next in the stream, which is at most so many bytes."""
        raise NotImplementedError


class _Gzip(_Compressed):
    """A file of gzip. gzip.GzipFile reads on behind zeros, where bsdtar ends."""

    def __init__(self, file: BinaryIO) -> None:
        super().__init__(file)
        self._stream = zlib.decompressobj(31)  # the largest window, and the header of gzip
        self._left = b""

    def _is_more(self) -> bool:
        if not self._stream.eof:
            return True
        self._left = self._left or self._file.read(_AT_ONCE)
        if self._left and self._left[0]:
            self._stream = zlib.decompressobj(31)
            return True
        while self._left:  # zeros can be at the end
            if self._left.strip(b"\0"):
                raise Damaged("the compressed file has something behind zeros")
            self._left = self._file.read(_AT_ONCE)
        return False

    def _decompressed(self, size: int) -> bytes:
        data = self._stream.decompress(self._left or self._packed(), size)
        self._left = self._stream.unused_data if self._stream.eof else self._stream.unconsumed_tail
        return data


class _Xz(_Compressed):
    """A file of xz. lzma.LZMAFile takes as much memory as the file says."""

    FORMAT: int = lzma.FORMAT_XZ

    def __init__(self, file: BinaryIO) -> None:
        super().__init__(file)
        self._begin(b"")

    def _begin(self, packed: bytes) -> None:
        self._stream = lzma.LZMADecompressor(self.FORMAT, memlimit=XZ_MEMORY)
        self._left = packed

    def _is_more(self) -> bool:
        if self._stream.eof:  # zeros can be between two streams
            packed = self._stream.unused_data.lstrip(b"\0")
            while not packed:
                behind = self._file.read(_AT_ONCE)
                if not behind:
                    return False
                packed = behind.lstrip(b"\0")
            self._begin(packed)
        return True

    def _decompressed(self, size: int) -> bytes:
        packed, self._left = self._left, b""
        if not packed and self._stream.needs_input:
            packed = self._packed()
        try:
            return self._stream.decompress(packed, size)
        except lzma.LZMAError as error:
            if str(error).startswith("Memory usage limit"):
                raise Damaged(f"its decompression takes more than {XZ_MEMORY:,} bytes of memory: decompress it "
                              "first") from None
            raise


class _Lzma(_Xz):
    """A file of lzma, which has one stream."""

    FORMAT = lzma.FORMAT_ALONE

    def _is_more(self) -> bool:
        if self._stream.eof and (self._stream.unused_data or self._file.read(1)):
            raise Damaged("the compressed file has something behind its end")
        return not self._stream.eof


_DECOMPRESSORS: Dict[bytes, Callable[[BinaryIO], object]] = {
    b"\x1f\x8b": _Gzip, b"BZh": bz2.BZ2File, b"\xfd7zXZ": _Xz, b"\x5d\0\0": _Lzma}


@contextlib.contextmanager
def opened_archive(place: bytes) -> Iterator[BinaryIO]:
    """Opens an archive, which may be compressed by gzip, bzip2 or xz. Raises TreeError if it is not a file."""
    name = quoted(os.fsdecode(place))
    try:
        handle = os.open(place, os.O_RDONLY | os.O_NONBLOCK | os.O_NOCTTY)
    except (OSError, ValueError) as error:
        raise TreeError(f"{name}: {getattr(error, 'strerror', None) or error}") from None
    if not stat.S_ISREG(os.fstat(handle).st_mode):
        os.close(handle)
        raise TreeError(f"{name}: an archive is a file")
    with open(handle, "rb") as file:
        first = file.peek(blocks.SIZE)[:blocks.SIZE]
        if other_format(first) == "zstd" and not blocks.is_header(first):
            raise TreeError(f"{name}: it is compressed by zstd, which is not read: decompress it first")
        make = next((make for magic, make in _DECOMPRESSORS.items() if first.startswith(magic)), None)
        if make and blocks.is_header(first):  # GNU tar decompresses nothing
            raise TreeError(f"{name}: it begins as an archive, and as a compressed file")
        yield cast(BinaryIO, make(file)) if make else file


def read_to_end(file: BinaryIO) -> None:
    """Reads the rest of a compressed file, at whose end its checksum is."""
    if not isinstance(file, io.BufferedReader):
        while file.read(_AT_ONCE):
            pass
