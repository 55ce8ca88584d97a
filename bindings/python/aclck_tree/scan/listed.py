"""The scan of the paths of a list. A list can come from anybody: each path is judged, and an object is read as in a
walk, by handles and single names, so that no path leads out of the tree. A path that cannot be read is a failure."""

from __future__ import annotations

import contextlib
import errno
import hashlib
import os
import secrets
import sqlite3
import sys
import threading
from typing import Iterator, List, NamedTuple, Optional

from aclck_tree.output.errors import DeviceError, TreeError
from aclck_tree.output.files import opened_file
from aclck_tree.output.text import quoted_path
from aclck_tree.scan.handles import Directory
from aclck_tree.scan.progress import Progress
from aclck_tree.scan.reader import Batch, ScanOptions, Task
from aclck_tree.scan.scan import Scan
from aclck_tree.snapshot.writer import Writer

LONGEST_PATH = 1 << 20
"""How many bytes a path of a list may have."""

SHOWN = 200
"""How many bytes of a path that is none are shown."""

AT_ONCE = 256
"""How many objects of one directory are one task."""

_NO_END = "nothing ends it: a zero byte stands behind each path, or with --lines a line feed"
_ROOT, _NO_PATH = bytes(16), b"\1" * 16
"""What stands for the root, and for the directory of all that is no path."""

_READ = 1 << 16
_CACHE = 1 << 16  # kilobytes


class ListedPath(NamedTuple):
    """A path of a list, or the beginning of one with the reason why it is none."""

    path: bytes
    fault: str = ""


def entries(handle: int, end: bytes) -> Iterator[ListedPath]:
    """Yields the entries of a list, each of which is ended by the byte `end`. A path that nothing ends may have been
    cut, so it is a fault. Raises DeviceError if the list cannot be read."""
    rest, is_long = b"", False
    for data in _pieces(handle):
        *whole, last = data.split(end)
        for part in whole:
            path = rest + part
            yield _too_long(path) if is_long or len(path) > LONGEST_PATH else ListedPath(path)
            rest, is_long = b"", False
        if len(rest) <= LONGEST_PATH:
            rest += last
        is_long |= len(rest) > LONGEST_PATH
    if rest:
        yield ListedPath(rest[:SHOWN + 1], _NO_END)


def _pieces(handle: int) -> Iterator[bytes]:
    try:
        yield from iter(lambda: os.read(handle, _READ), b"")
    except OSError as error:
        raise DeviceError(f"the list cannot be read: {error.strerror or error}") from None


def _too_long(path: bytes) -> ListedPath:
    return ListedPath(path[:SHOWN + 1], f"it has more than {LONGEST_PATH:,} bytes")


def names_of_path(path: bytes) -> List[bytes]:
    """Returns the names of a path below the root of a tree: none for the root itself. A part `.` and a slash too many
    mean nothing. Raises ValueError, with the reason, if the path could lead out of the tree."""
    if path.startswith(b"/"):
        raise ValueError("it begins with a slash, and is no path below the root of the tree")
    if b"\0" in path:
        raise ValueError("it has a zero byte")
    names = [name for name in path.split(b"/") if name not in (b"", b".")]
    if b".." in names:
        raise ValueError("it has a part `..`")
    return names


@contextlib.contextmanager
def opened_list(place: str) -> Iterator[int]:
    """Opens a list, or standard input for `-`. Raises TreeError as `opened_file` does."""
    if place == "-":
        if sys.stdin is None:  # the number may be that of another file
            raise TreeError("standard input is closed")
        yield sys.stdin.fileno()
        return
    with opened_file(place) as file:
        yield file.fileno()


class _Known:
    """Which paths were read, and which directory each name was. It is in a file that nobody else sees, and not in
    memory, because a list can have any number of paths. Any number of threads can use it at once."""

    def __init__(self, device: Optional[int]) -> None:
        """With a device, only its directories are entered."""
        self.device = device
        self._key = secrets.token_bytes(16)
        self._lock = threading.Lock()
        self._db = sqlite3.connect("", isolation_level=None, check_same_thread=False)
        for line in ("PRAGMA journal_mode = OFF", "PRAGMA synchronous = OFF", f"PRAGMA cache_size = -{_CACHE}", "BEGIN",
                     "CREATE TABLE paths (digest BLOB PRIMARY KEY) WITHOUT ROWID",
                     "CREATE TABLE directories (digest BLOB PRIMARY KEY, identity TEXT) WITHOUT ROWID"):
            self._db.execute(line)

    def digest(self, above: bytes, name: bytes) -> bytes:
        """Returns the 16 bytes that stand for a name in a directory, which is given by its own 16 bytes."""
        return hashlib.blake2b(above + name, digest_size=16, key=self._key).digest()

    def is_new(self, digest: bytes) -> bool:
        """Whether a path was not met before."""
        with self._lock:
            return self._db.execute("INSERT OR IGNORE INTO paths VALUES (?)", (digest,)).rowcount == 1

    def judge(self, digest: bytes, status: os.stat_result) -> None:
        """Raises OSError if a directory is not the one that was entered first by its path, or is on another device."""
        if self.device is not None and status.st_dev != self.device:
            raise OSError(errno.EXDEV, "it is on another file system")
        found = f"{status.st_dev}:{status.st_ino}"
        with self._lock:
            self._db.execute("INSERT OR IGNORE INTO directories VALUES (?, ?)", (digest, found))
            rows = self._db.execute("SELECT identity FROM directories WHERE digest = ?", (digest,)).fetchall()
        if rows != [(found,)]:
            raise OSError(errno.ESTALE, "another directory has this name now")

    def close(self) -> None:
        """Removes what is known."""
        self._db.close()


class _Listed(Directory):
    """A directory above a path of a list. Two of them are equal if they have the same path."""

    __slots__ = ("_known", "_digest")

    def __init__(self, above: Directory, name: bytes, known: _Known) -> None:
        self.above = above
        self.name = name
        self._known = known
        self._digest = self.digest_in(above, name, known)

    @staticmethod
    def digest_in(above: Directory, name: bytes, known: _Known) -> bytes:
        """Returns the digest of the path of a name in a directory."""
        return known.digest(above._digest if isinstance(above, _Listed) else _ROOT, name)

    def __eq__(self, other: object) -> bool:
        return isinstance(other, _Listed) and self._digest == other._digest

    def __hash__(self) -> int:
        return hash(self._digest)

    def judge(self, status: os.stat_result) -> None:
        self._known.judge(self._digest, status)


class ListedScan(Scan):
    """The scan of the paths of a list."""

    def __init__(self, root: bytes, options: ScanOptions, writer: Writer, progress: Progress, *,
                 found: Iterator[ListedPath]) -> None:
        """Raises TreeError if the root is not a file or directory that can be read."""
        super().__init__(root, options, writer, progress)
        self._known = _Known(self._reader.root.identity[0] if options.one_file_system else None)
        self._pieces = self._pieces_of(found)
        self._has_root = False

    def _is_portion(self) -> bool:
        return True

    def run(self) -> None:
        try:
            super().run()
        finally:
            self._known.close()

    def _begin(self) -> None:
        """The root is read only if the list has it."""

    def _next(self) -> Optional[Task]:
        return next(self._pieces, None)

    def _pieces_of(self, found: Iterator[ListedPath]) -> Iterator[Batch]:
        """Yields the names of the list, with those of one directory together if they follow each other."""
        above: List[bytes] = []
        directory = self._reader.root
        names: List[bytes] = []
        for path in filter(None, map(self._judged, found)):
            if path[:-1] != above or len(names) == AT_ONCE:
                if names:
                    yield Batch(directory, names, is_listed=True)
                above, names = path[:-1], []
                directory = self._directory(above)
            if self._known.is_new(_Listed.digest_in(directory, path[-1], self._known)):
                names.append(path[-1])
        if names:
            yield Batch(directory, names, is_listed=True)

    def _judged(self, entry: ListedPath) -> Optional[List[bytes]]:
        """Returns the names of a path, or None if it is none or if it is the root, which is read here."""
        fault = entry.fault
        try:
            names = [] if fault else names_of_path(entry.path)
        except ValueError as error:
            fault = str(error)
        if not fault and names:
            return names
        if not fault and not self._has_root:
            self._has_root = True
            super()._begin()
        elif fault and self._known.is_new(self._known.digest(_NO_PATH, entry.path)):
            more = ".." if len(entry.path) > SHOWN else ""
            self._fail(b"", "read", f"{quoted_path(entry.path[:SHOWN])}{more} of the list: {fault}")
        return None

    def _directory(self, names: List[bytes]) -> Directory:
        directory = self._reader.root
        for name in names:
            directory = _Listed(directory, name, self._known)
        return directory
