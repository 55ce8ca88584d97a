"""Directories of a tree by handles. A tree is walked by handles and single names, which are never followed if they are
links. So nobody can lead a scan out of the tree by exchanging a name while the scan runs."""

from __future__ import annotations

import contextlib
import ctypes
import errno
import os
import struct
import threading
from collections import OrderedDict
from typing import FrozenSet, Iterator, List, NamedTuple, Optional

KEPT = 128
"""How many handles stay open that no thread uses."""

PIECE = 8192
"""How many bytes of names are read at once: at most 341 names."""

OBJECT = os.O_PATH | os.O_NOFOLLOW
"""The flags for a handle of any object. A link has a handle of its own."""

_ENTRY = struct.Struct("=QqHB")  # getdents64(2): inode, where the next entry is, length, type; the name follows
_MAY_BE_DIRECTORY = (0, 4)  # DT_UNKNOWN and DT_DIR
_LIBC = ctypes.CDLL(None, use_errno=True)
_LIBC.getdents64.argtypes = (ctypes.c_int, ctypes.c_void_p, ctypes.c_size_t)
_LIBC.getdents64.restype = ctypes.c_ssize_t


class Directory:
    """A directory of a tree: its name in the directory above it, its device and inode when it was read, and when it was
    changed last before its names were read, or None if it was changed all the time."""

    __slots__ = ("above", "name", "identity", "changed")

    def __init__(self, above: Optional[Directory], name: bytes, status: os.stat_result) -> None:
        self.above = above
        self.name = name
        self.identity = status.st_dev, status.st_ino
        self.changed: Optional[int] = None

    def judge(self, status: os.stat_result) -> None:
        """Raises OSError if the directory that has the name now is not the one that was read."""
        if (status.st_dev, status.st_ino) != self.identity:
            raise OSError(errno.ESTALE, "another directory has this name now")

    def path(self) -> bytes:
        """Returns the path below the root, which is empty for the root itself."""
        names: List[bytes] = []
        at = self
        while at.above is not None:
            names.append(at.name)
            at = at.above
        return b"/".join(reversed(names))


class Held:
    """A directory that is open, its device, and the path where the tree enters the file system of the directory."""

    __slots__ = ("handle", "users", "device", "mount")

    def __init__(self, handle: int, device: int, mount: bytes) -> None:
        self.handle = handle
        self.users = 1
        self.device = device
        self.mount = mount


class Handles:
    """Opens the directories of one tree, and keeps the handles that were used last. Any number of threads can use it at
    once; each keeps one handle more open."""

    def __init__(self, root: Directory, handle: int) -> None:
        """Takes over a handle of the root."""
        self._lock = threading.Lock()
        held = Held(handle, root.identity[0], b"")
        self._held: OrderedDict[Directory, Held] = OrderedDict({root: held})  # the root is always in use

    @contextlib.contextmanager
    def held(self, directory: Directory) -> Iterator[Held]:
        """Opens a directory from the nearest directory above it that is open.

        Raises OSError if a directory on this way cannot be opened, or is not the one that was read.
        """
        held = self._open(directory)
        try:
            yield held
        finally:
            self._release(held)

    def close(self) -> None:
        """Closes all handles that are kept. No thread may use a directory then."""
        with self._lock:
            while self._held:
                os.close(self._held.popitem()[1].handle)

    def _open(self, directory: Directory) -> Held:
        missing: List[Directory] = []
        held = self._take(directory)
        while held is None:
            assert directory.above
            missing.append(directory)
            directory = directory.above
            held = self._take(directory)
        for below in reversed(missing):
            try:
                entered = _enter(below, held)
            finally:
                self._release(held)
            held = self._keep(below, entered)
        return held

    def _take(self, directory: Directory) -> Optional[Held]:
        with self._lock:
            held = self._held.get(directory)
            if held is not None:
                held.users += 1
                self._held.move_to_end(directory)
            return held

    def _release(self, held: Held) -> None:
        with self._lock:
            held.users -= 1

    def _keep(self, directory: Directory, entered: Held) -> Held:
        """Keeps a new handle, or closes it if another thread has opened the directory in the meantime."""
        with self._lock:
            held = self._held.get(directory)
            if held is not None:
                os.close(entered.handle)
                held.users += 1
                return held
            if len(self._held) > KEPT:
                unused = next((one for one, known in self._held.items() if not known.users), None)
                if unused is not None:
                    os.close(self._held.pop(unused).handle)
            self._held[directory] = entered
            return entered


def _enter(directory: Directory, above: Held) -> Held:
    handle = os.open(directory.name, OBJECT | os.O_DIRECTORY, dir_fd=above.handle)
    try:
        status = os.fstat(handle)
        directory.judge(status)
    except OSError:
        os.close(handle)
        raise
    return Held(handle, status.st_dev, above.mount if status.st_dev == above.device else directory.path())


def open_root(root: bytes) -> int:
    """Returns a handle of the root of a tree, which may be a link. Raises OSError."""
    try:
        return os.open(root, os.O_PATH | os.O_DIRECTORY)  # O_DIRECTORY mounts what is mounted on demand
    except NotADirectoryError:
        return os.open(root, os.O_PATH)


def open_list(directory: int) -> int:
    """Opens a directory, given by its handle, to read its names. Raises OSError."""
    flags = os.O_RDONLY | os.O_DIRECTORY
    try:
        return os.open(b".", flags | os.O_NOATIME, dir_fd=directory)
    except PermissionError:  # only the owner may use O_NOATIME
        return os.open(b".", flags, dir_fd=directory)


class DirectoryNames(NamedTuple):
    """Some names of a directory, where in the directory the next name is, and which of the names are not those of
    directories, as far as the file system says so."""

    names: List[bytes]
    after: int
    others: FrozenSet[bytes]


def read_names(handle: int) -> Optional[DirectoryNames]:
    """Reads the next names of a directory, or returns None at its end. Raises OSError."""
    buffer = ctypes.create_string_buffer(PIECE)
    size = _LIBC.getdents64(handle, buffer, PIECE)
    if size < 0:
        number = ctypes.get_errno()
        raise OSError(number, os.strerror(number))
    data = buffer.raw[:size]
    names: List[bytes] = []
    others: List[bytes] = []
    at = after = 0
    while at < size:
        _, after, length, kind = _ENTRY.unpack_from(data, at)
        name = data[at + _ENTRY.size:at + length].partition(b"\0")[0]
        if name not in (b".", b".."):
            names.append(name)
            if kind not in _MAY_BE_DIRECTORY:
                others.append(name)
        at += length
    return DirectoryNames(names, after, frozenset(others)) if size else None
