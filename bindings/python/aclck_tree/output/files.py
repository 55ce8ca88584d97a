"""New files, which take the place of older ones when they are whole."""

from __future__ import annotations

import contextlib
import errno
import fcntl
import os
import re
import secrets
import stat
from typing import BinaryIO, Iterator, TextIO

from aclck_tree.output.errors import DeviceError, TreeError
from aclck_tree.output.text import quoted


EXCHANGED = "the new file was exchanged for another one before it took its place"


class NewFile:
    """A new, empty file next to the place that it will take. Nobody can guess its name, and only its owner may read
    it. While it is open it is locked, so that other runs can see that it is in use."""

    def __init__(self, path: str) -> None:
        """Raises TreeError if something else than a file is there, and OSError if the file cannot be made."""
        refuse_what_is_no_file(path)
        directory, base = os.path.split(path)
        self._remove_leftovers(directory or ".", base[:200])
        self.name = os.path.join(directory, f".{base[:200]}.{secrets.token_hex(16)}.part")
        self.handle = os.open(self.name, os.O_RDWR | os.O_CREAT | os.O_EXCL | os.O_NOFOLLOW, 0o600)
        _lock(self.handle)

    @staticmethod
    def _remove_leftovers(directory: str, base: str) -> None:
        """Removes the files of this kind that no process has open any more."""
        pattern = re.compile(re.escape(base).join((r"\.", r"\.[0-9a-f]{32}\.part")))
        with contextlib.suppress(OSError), os.scandir(directory) as entries:
            for name in [entry.name for entry in entries if pattern.fullmatch(entry.name)]:
                _remove_leftover(os.path.join(directory, name))

    def take(self, path: str) -> None:
        """Moves the file to its place. Raises OSError if that fails, or if the file is no longer where it was made."""
        os.fsync(self.handle)
        if not os.path.samestat(os.fstat(self.handle), os.lstat(self.name)):
            raise OSError(errno.ESTALE, EXCHANGED)
        os.replace(self.name, path)

    def is_held_by(self, handle: int) -> bool:
        """Whether a handle, which may be closed, is another one of the file."""
        try:
            return handle != self.handle and os.path.samestat(os.fstat(self.handle), os.fstat(handle))
        except OSError:
            return False

    def drop(self) -> None:
        """Closes the file, and removes it if it has not taken its place."""
        with contextlib.suppress(OSError):
            if os.path.samestat(os.fstat(self.handle), os.lstat(self.name)):
                os.unlink(self.name)
        os.close(self.handle)


def refuse_what_is_no_file(path: str) -> None:
    """Raises TreeError if there is a directory, a link, a device or the like at a path. It opens nothing."""
    with contextlib.suppress(OSError):
        if not stat.S_ISREG(os.lstat(path).st_mode):
            raise TreeError(f"{path}: not a regular file, and is not replaced")


def opened_file(path: str) -> BinaryIO:
    """Opens a file to read it, or a pipe without a name, such as that of `<(..)`. Raises TreeError if there is something
    else, such as a device that never ends or a FIFO that somebody holds open and never writes, or nothing."""
    try:
        handle = os.open(path, os.O_RDONLY | os.O_NONBLOCK | os.O_NOCTTY)
    except (OSError, ValueError) as error:
        raise TreeError(f"{quoted(path)}: {getattr(error, 'strerror', None) or error}") from None
    if not stat.S_ISREG(os.fstat(handle).st_mode) and not is_pipe_without_name(handle):
        os.close(handle)
        raise TreeError(f"{quoted(path)}: neither a file nor a pipe without a name")
    os.set_blocking(handle, True)
    return open(handle, "rb")


def is_pipe_without_name(handle: int) -> bool:
    """Whether a handle is that of a pipe which is no FIFO: nobody else can hold it open."""
    return stat.S_ISFIFO(os.fstat(handle).st_mode) and os.readlink(f"/proc/self/fd/{handle}").startswith("pipe:")


def _lock(handle: int) -> bool:
    """Locks an open file, or returns False if another process has locked it."""
    try:
        fcntl.flock(handle, fcntl.LOCK_EX | fcntl.LOCK_NB)
    except OSError:
        return False
    return True


def _remove_leftover(name: str) -> None:
    with contextlib.suppress(OSError):
        handle = os.open(name, os.O_RDWR | os.O_NOFOLLOW | os.O_NONBLOCK)
        try:
            status = os.fstat(handle)
            if stat.S_ISREG(status.st_mode) and status.st_uid == os.geteuid() and _lock(handle):
                os.unlink(name)
        finally:
            os.close(handle)


@contextlib.contextmanager
def replaced(path: str) -> Iterator[TextIO]:
    """Makes a text file that replaces the file at `path` when the block is done. If the block raises, the old file
    stays as it was.

    Raises TreeError if something else than a file is there, and DeviceError if the file cannot be written.
    """
    try:
        part = NewFile(path)
        try:
            with open(part.handle, "w", encoding="utf-8", errors="surrogateescape", closefd=False) as file:
                yield file
            part.take(path)
        finally:
            part.drop()
    except OSError as error:
        raise DeviceError(f"{path}: {error.strerror or error}") from None
