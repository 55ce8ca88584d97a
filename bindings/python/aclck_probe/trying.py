"""Tries operations as the requesters, on a copy of an object in a scratch directory. Nothing else is changed."""

from __future__ import annotations

import argparse
import contextlib
import errno
import os
import secrets
import shutil
import stat
from typing import Callable, Iterator, List, Mapping, NamedTuple, Optional, Sequence

from aclck import ADD_FILE, ADD_SUBDIRECTORY, APPEND_DATA, DELETE_CHILD, EXECUTE, READ_DATA, WRITE_DATA, PosixAcl
from aclck_tree.output.errors import DeviceError, TreeError
from aclck_tree.output.text import quoted
from aclck_tree.scan.handles import OBJECT
from aclck_tree.scan.reader import ATTRIBUTES
from aclck_tree.snapshot.snapshot import StoredForm

from .asking import GRANTED, undisturbed
from .examining import Examination, Examined, Limits, Request
from .objects import Lists, Probed

_COPIED = stat.S_ISVTX | 0o777
"""The bits of the mode that a copy has: it never runs as another user."""

_MODES = (0o700, 0o711)
"""The modes of the two directories. Nobody reaches the second one by its name, because of the first one."""

_NO_ENVIRONMENT: Mapping[str, str] = {}

_COPY = b"copy"
_OLD, _NEW, _NEW_DIRECTORY = (_COPY + b"/" + name for name in (b"old", b"new", b"new-directory"))


class _Operation(NamedTuple):
    """What is tried: the request, and the call, which takes a handle of the directory in which the copy is and raises
    OSError."""

    request: Request
    call: Callable[[int], None]


def _opens(name: bytes, flags: int) -> Callable[[int], None]:
    def call(directory: int) -> None:
        os.close(os.open(name, flags | os.O_NOFOLLOW | os.O_CLOEXEC, 0o600, dir_fd=directory))
    return call


def _runs(directory: int) -> None:
    handle = os.open(_COPY, OBJECT, dir_fd=directory)
    try:
        os.execve(handle, [_COPY], _NO_ENVIRONMENT)
    except OSError as error:
        if error.errno != errno.ENOEXEC:  # it is empty, so this is said of one that may be run
            raise
    finally:
        os.close(handle)


def _makes(directory: int) -> None:
    os.mkdir(_NEW_DIRECTORY, 0o700, dir_fd=directory)


def _removes(directory: int) -> None:
    os.unlink(_OLD, dir_fd=directory)


def _passes(directory: int) -> None:
    os.stat(_COPY + b"/.", dir_fd=directory)


_OF_FILES = (
    _Operation(Request("read", 4, READ_DATA), _opens(_COPY, os.O_RDONLY)),
    _Operation(Request("write", 2, WRITE_DATA | APPEND_DATA), _opens(_COPY, os.O_WRONLY)),
    _Operation(Request("append", 2, WRITE_DATA | APPEND_DATA), _opens(_COPY, os.O_WRONLY | os.O_APPEND)),
    _Operation(Request("execute", 1, EXECUTE), _runs))

_OF_DIRECTORIES = (
    _Operation(Request("list", 4, READ_DATA), _opens(_COPY, os.O_RDONLY | os.O_DIRECTORY)),
    _Operation(Request("pass", 1, EXECUTE), _passes),
    _Operation(Request("add a file", 3, ADD_FILE | EXECUTE, ADD_FILE),
               _opens(_NEW, os.O_WRONLY | os.O_CREAT | os.O_EXCL)),
    _Operation(Request("add a directory", 3, ADD_SUBDIRECTORY | EXECUTE, ADD_SUBDIRECTORY), _makes),
    _Operation(Request("remove", 3, ADD_FILE | DELETE_CHILD | EXECUTE, removes=True), _removes))

_OF_KINDS: Mapping[int, Sequence[_Operation]] = {stat.S_IFREG: _OF_FILES, stat.S_IFDIR: _OF_DIRECTORIES}


class Scratch:
    """A directory that nobody but root reaches, and in it one in which the copies are. Requesters reach that one by its
    handle."""

    def __init__(self, args: argparse.Namespace, lists: Lists) -> None:
        """Makes it in the directory of `--try`. Raises DeviceError if that fails."""
        self._lists, self._attribute = lists, args.attribute or ATTRIBUTES[0]
        self._handles: List[int] = []  # of the given directory, and of the two that are made
        self._names: List[str] = []  # of these two, each in the directory of the handle at its place
        try:
            self._handles.append(os.open(args.scratch, os.O_PATH | os.O_DIRECTORY))
            for name, mode in zip((f".aclck-probe.{secrets.token_hex(16)}", "inner"), _MODES):
                self._enter(name, mode)
        except BaseException as error:
            self.close()
            if isinstance(error, OSError):
                raise DeviceError(f"{quoted(args.scratch)}: {error.strerror or error}") from None
            raise

    def _enter(self, name: str, mode: int) -> None:
        """Makes a directory in the one that was made last, with a mode and no list. Raises OSError, also if somebody
        has put another directory in its place."""
        os.mkdir(name, 0o700, dir_fd=self._handles[-1])
        self._names.append(name)
        handle = os.open(name, os.O_RDONLY | os.O_DIRECTORY | os.O_NOFOLLOW, dir_fd=self._handles[-1])
        self._handles.append(handle)
        if os.fstat(handle).st_uid != os.geteuid() or os.listdir(handle):
            raise OSError(errno.ESTALE, "the scratch directory was exchanged for another one")
        PosixAcl.from_mode(mode).to_file(handle)

    @property
    def _inner(self) -> int:
        return self._handles[len(_MODES)]

    def close(self) -> None:
        """Removes it, with what was made in it, and nothing of a directory that somebody has put in its place. Raises
        TreeError if that fails."""
        with undisturbed():
            try:
                if len(self._handles) > len(_MODES):
                    _remove(_COPY, self._inner)
                for handle, name in reversed([*zip(self._handles, self._names)]):
                    with contextlib.suppress(FileNotFoundError):
                        os.rmdir(name, dir_fd=handle)
            except OSError as error:
                raise TreeError(f"{self._names[0]} could not be removed: {error.strerror or error}") from None
            finally:
                while self._handles:
                    os.close(self._handles.pop())

    def tried(self, probed: Probed, limits: Limits) -> Optional[Examined]:
        """Tries operations on a copy of an object, or returns None if it is neither a file nor a directory. Raises
        TreeError if the copy cannot have the list, or an answer is not known, and OSError."""
        operations = _OF_KINDS.get(stat.S_IFMT(probed.status.st_mode), ())
        if not operations:
            return None
        inner = self._inner
        if os.fstat(inner).st_dev != probed.status.st_dev:
            raise TreeError("the scratch directory is on another file system")
        with self._copy(probed) as copy:
            examination = Examination(copy, limits)

            def ask() -> List[int]:
                return [_answer_of(operation.call, inner) for operation in operations]
            requests = [operation.request for operation in operations]
            return examination.by(requests, ask, self._prepare if copy.is_directory else lambda: None)

    @contextlib.contextmanager
    def _copy(self, probed: Probed) -> Iterator[Probed]:
        """Makes a copy of an object without content: with its kind, owner, group, mode and list."""
        if probed.is_directory:
            os.mkdir(_COPY, 0o700, dir_fd=self._inner)
        flags = os.O_RDONLY | os.O_DIRECTORY if probed.is_directory else os.O_WRONLY | os.O_CREAT | os.O_EXCL
        handle = os.open(_COPY, flags | os.O_NOFOLLOW, 0o600, dir_fd=self._inner)
        try:
            os.fchown(handle, probed.status.st_uid, probed.status.st_gid)
            os.fchmod(handle, probed.status.st_mode & _COPIED)
            _set(handle, probed, self._attribute)
            if not probed.is_directory:
                handle, writing = os.open(_COPY, OBJECT, dir_fd=self._inner), handle
                os.close(writing)  # what is open for writing is not executed
            stored, status = self._lists.stored(handle, _COPY), os.fstat(handle)
            is_owned = (status.st_uid, status.st_gid) == (probed.status.st_uid, probed.status.st_gid)
            if stored != probed.stored or not is_owned:
                raise TreeError("the copy in the scratch directory has another owner, group or list")
            yield probed._replace(handle=handle, status=status)
        finally:
            os.close(handle)
            _remove(_COPY, self._inner)

    def _prepare(self) -> None:
        """Gives the copy of a directory a file to remove, and takes away what a requester made."""
        for name in (_NEW, _NEW_DIRECTORY):
            _remove(name, self._inner)
        with contextlib.suppress(FileExistsError):
            os.close(os.open(_OLD, os.O_WRONLY | os.O_CREAT | os.O_EXCL, 0o600, dir_fd=self._inner))


def _answer_of(call: Callable[[int], None], directory: int) -> int:
    """Returns the answer of the system to an operation."""
    try:
        call(directory)
    except OSError as error:
        return error.errno or errno.EIO
    return GRANTED


def _set(handle: int, probed: Probed, attribute: str) -> None:
    """Gives a copy the list of an object. Raises TreeError if a list in this form is not set, and OSError."""
    stored = probed.stored
    if probed.resolved.posix is not None:
        probed.resolved.posix.to_file(handle)
    elif stored.kind is StoredForm.NFS4 and stored.access is not None:
        os.setxattr(handle, attribute, stored.access)
    else:
        raise TreeError("a list in this form is not set in the scratch directory")


def _remove(name: bytes, directory: int) -> None:
    """Removes a file or a directory, if it is there."""
    with contextlib.suppress(FileNotFoundError):
        if stat.S_ISDIR(os.stat(name, dir_fd=directory, follow_symlinks=False).st_mode):
            shutil.rmtree(os.path.join(b"/proc/self/fd/%d" % directory, name))
        else:
            os.unlink(name, dir_fd=directory)
