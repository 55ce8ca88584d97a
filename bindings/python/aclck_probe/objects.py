"""The objects that are asked about, each with its list, by which the library answers."""

from __future__ import annotations

import argparse
import contextlib
import os
import stat
from typing import Hashable, Iterator, NamedTuple, Optional

from aclck import NfsAcl, PosixAcl, Refused
from aclck.rest import CHANGING, at_one_time, is_same
from aclck_ask.lists import SPECIAL
from aclck_form.accounts import SystemIds, exchanged, suffix_of
from aclck_tree.answer.lists import RefusedList, ready
from aclck_tree.output.errors import TreeError
from aclck_tree.output.text import quoted
from aclck_tree.people.people import read_id
from aclck_tree.scan.handles import OBJECT
from aclck_tree.scan.mounts import mount_of
from aclck_tree.scan.reader import ATTRIBUTES, Reader, ScanOptions
from aclck_tree.snapshot.others import UNREAD
from aclck_tree.snapshot.snapshot import StoredList

from .asking import access


class Resolved(NamedTuple):
    """The list for one object, by ids (docs/reference/lists.md, "For one object"). Of a POSIX ACL, which is `posix`, it
    is the bridge."""

    acl: NfsAcl
    posix: Optional[PosixAcl]


class Probed(NamedTuple):
    """An object with its handle and its mount, with its status and its list as they were at one time, and the list for
    this one object."""

    handle: int
    mount: bytes
    status: os.stat_result
    stored: StoredList
    resolved: Resolved

    @property
    def is_directory(self) -> bool:
        """Whether the object is a directory."""
        return stat.S_ISDIR(self.status.st_mode)

    @property
    def key(self) -> Hashable:
        """What two objects have in common that are asked once: the mount, the kind, the sticky bit, the owner, the
        group, the list, and what root may do, which shows that one is immutable."""
        status, of_root = self.status, tuple(access(self.handle, want) for want in (4, 2, 1))
        return (self.mount, status.st_dev, stat.S_IFMT(status.st_mode), status.st_mode & stat.S_ISVTX, status.st_uid,
                status.st_gid, self.stored, of_root)

    def require_same(self) -> None:
        """Raises TreeError if the object was changed since its list was read, and OSError."""
        if not is_same(self.status, os.fstat(self.handle)):
            raise TreeError(CHANGING)


class Lists:
    """Reads the lists of objects, as `aclck-tree scan` does."""

    def __init__(self, args: argparse.Namespace, accounts: Optional[SystemIds]) -> None:
        """Raises OSError."""
        self._reader = Reader(b"/", ScanOptions(attributes=[args.attribute] if args.attribute else ATTRIBUTES))
        self._accounts = accounts
        self._domain: str = args.domain or ""
        self._suffix = suffix_of(args)

    def close(self) -> None:
        """Closes the handle that the reader has."""
        self._reader.close()

    def stored(self, handle: int, path: bytes) -> StoredList:
        """Returns the list of an object as the system gives it. Raises TreeError if another list decides too, and
        OSError."""
        stored, other = self._reader.read_list(handle, os.fstat(handle), path)
        if other:
            raise TreeError(f"{UNREAD}: {other}")
        return stored

    @contextlib.contextmanager
    def opened(self, path: str) -> Iterator[Probed]:
        """Takes a handle of an object, which is not opened, and reads its list. If the object is a link, it is not
        followed. Raises TreeError if the list cannot be read or asked, and OSError."""
        handle = _handle(path)
        try:
            if stat.S_ISLNK(os.fstat(handle).st_mode):
                raise TreeError("a symbolic link, which has no list and is not followed")
            name = os.fsencode(path)
            status, stored = at_one_time(handle, lambda _: self.stored(handle, name))
            yield Probed(handle, mount_of(handle), status, stored, self._resolved(stored, status))
        finally:
            os.close(handle)

    def _resolved(self, stored: StoredList, status: os.stat_result) -> Resolved:
        """Returns the list for one object. Raises TreeError if it cannot be asked with ids."""
        found = ready(stored, domain=self._domain)
        if isinstance(found, RefusedList):
            raise TreeError(found.reason)
        if found.specials:
            raise TreeError(f"only the server knows whom {quoted(found.specials[0][0])} means")
        try:
            acl = exchanged(found.acl, self._accounts, True, self._suffix) if self._accounts else found.acl
            _require_ids(acl)
            resolved = acl.resolved(owner=str(status.st_uid), group=str(status.st_gid))
        except Refused as refused:
            raise TreeError(str(refused)) from None
        return Resolved(resolved, found.posix)


def _handle(path: str) -> int:
    """Returns a handle of an object. A directory that is mounted on demand is mounted. Raises OSError."""
    try:
        return os.open(path, OBJECT | os.O_DIRECTORY)
    except NotADirectoryError:
        return os.open(path, OBJECT)


def _require_ids(acl: NfsAcl) -> None:
    """Raises TreeError if a user or a group of a list is no id."""
    for ace in acl:
        number = None if ace.who in SPECIAL else read_id(ace.who)
        if ace.who not in SPECIAL and (number is None or str(number) != ace.who):
            raise TreeError(f"nothing says which id {quoted(ace.who)} has (--names, --system, --domain)")
