"""Reads the objects of a tree, with their lists, by handles. A task is a part of a walk; its result has what was found,
and the tasks that follow from it."""

from __future__ import annotations

import errno
import functools
import os
import socket
import stat
from dataclasses import dataclass, field
from typing import AbstractSet, Dict, FrozenSet, List, NamedTuple, Optional, Sequence, Set, Tuple, Union

from aclck.rest import at_one_time, clock

from aclck_tree.output.errors import DeviceError
from aclck_tree.people import accounts
from aclck_tree.scan.handles import OBJECT, Directory, Handles, Held, open_list, open_root, read_names
from aclck_tree.scan.mounts import LISTS, Mounts
from aclck_tree.scan.rest import MOVED, Patience, changed_last
from aclck_tree.snapshot.portions import Device, Portion
from aclck_tree.snapshot.snapshot import Found, StoredForm, StoredList

_KINDS = {stat.S_IFDIR: "d", stat.S_IFREG: "f", stat.S_IFIFO: "p", stat.S_IFSOCK: "s", stat.S_IFBLK: "b",
          stat.S_IFCHR: "c"}
_ABSENT = (errno.ENODATA, errno.ENOTSUP)

ATTRIBUTES = ("system.nfs4_acl", "system.nfs4_dacl", "security.nfs4acl_xdr", "system.nfs4_acl_xdr")
"""The attributes with NFSv4 lists. If an object has several of them, the first counts."""

OTHER_FORMS = ATTRIBUTES[1:]
"""Those that are in another form than the first (`values.py`)."""

OF_IDS = ATTRIBUTES[2:]
"""Those that have ids."""

_OF_A_MOUNT = ATTRIBUTES[:2]
"""Those in which an NFSv4 mount shows one list."""

POSIX = ("system.posix_acl_access", "system.posix_acl_default")
"""The attributes with POSIX ACLs."""

_WITH_LISTS = LISTS.union(ATTRIBUTES, POSIX)

_STORED = "security."
"""What begins the names of attributes that are on the disk, so that whoever has one lists it."""

_OTHER_IDS = "its ids are those of the disk, which the mount or the user namespace maps to others"

_MOST_VALUES = 1024
"""How many values of attributes are kept with the lists that they are."""

_NEW_DIRECTORY = "it was no directory when its name was read: other shards may lack what is below it"

@dataclass
class ScanOptions:
    """The options of a scan. `shard` is 0 if it is not cut into shards."""

    threads: int = 32
    one_file_system: bool = False
    attributes: Sequence[str] = ATTRIBUTES
    host: str = field(default_factory=socket.gethostname)
    quiet: bool = False
    shard: int = 0
    shards: int = 0
    key: bytes = b""

    def portion(self) -> Portion:
        """Returns the shard, or what the scan of a list reads."""
        return Portion(self.shard, self.shards, self.key, ",".join(self.attributes), self.one_file_system)


@dataclass
class Result:
    """What one task found: objects, those of them that have another list, the directory whose names it began to read,
    tasks that follow from it, failures, and the number of links."""

    found: List[Found] = field(default_factory=list)
    others: List[Tuple[bytes, str]] = field(default_factory=list)
    listed: Optional[Directory] = None
    tasks: List[Task] = field(default_factory=list)
    errors: List[Tuple[bytes, str, str]] = field(default_factory=list)
    links: int = 0


class Listing(NamedTuple):
    """A directory whose names are to be read, and where in the directory to begin."""

    directory: Directory
    start: int = 0


class Check(NamedTuple):
    """Directories whose names were read. If no directory of a tree has changed since, each object that was there all
    the time was found, wherever it was moved."""

    directories: Sequence[Directory]


class Batch(NamedTuple):
    """A directory, and names in it whose objects are to be read. `others` are those of them that were no directories
    when the names were read. If a list gave the names, directories among them are not entered."""

    directory: Directory
    names: List[bytes]
    others: FrozenSet[bytes] = frozenset()
    is_listed: bool = False


class _Place(NamedTuple):
    """Where objects are read: the directory, its handle and its path with a slash behind it, and whether its objects
    are in the shard."""

    piece: Batch
    held: Held
    prefix: bytes
    is_own: bool


Task = Union[Listing, Batch, Check]


class Reader:
    """Reads the objects of one tree. Any number of threads can use it at once."""

    def __init__(self, root: bytes, options: ScanOptions) -> None:
        """Opens the root. Raises OSError if that fails."""
        self._options = options
        self._root_handle = open_root(root)
        status = os.fstat(self._root_handle)
        self._device = status.st_dev
        self._root = Directory(None, b"", status)
        self._handles = Handles(self._root, self._root_handle)
        self._with_lists: Set[int] = set()  # devices on which an object has the first of the attributes
        self._unsupported: Dict[int, bytes] = {}  # devices without support for it: the path that showed it
        self._accounts = accounts.System()
        self._values = functools.lru_cache(_MOST_VALUES)(self._read_value)
        self._mounts: Dict[int, bytes] = {}  # where the tree enters a device: the first of these places
        self._shard = options.portion() if options.shards else None
        self._patience = Patience()
        self._mounts_met = Mounts()

    @property
    def root_handle(self) -> int:
        """The handle of the root, which this reader closes."""
        return self._root_handle

    @property
    def root(self) -> Directory:
        """The root of the tree."""
        return self._root

    def close(self) -> None:
        """Closes the handles."""
        self._handles.close()

    def mixed(self) -> List[bytes]:
        """Returns the path of an object that seemed to be on a device without NFSv4 lists, for each device on which
        another object turned out to have one."""
        return [path for device, path in self._unsupported.items() if device in self._with_lists]

    def devices(self) -> List[Device]:
        """Returns what was found out about each file system, for the scans of other portions of the tree."""
        return [Device(place, device in self._with_lists, self._unsupported.get(device))
                for device, place in sorted(self._mounts.items(), key=lambda item: item[1])]

    def read_root(self) -> Result:
        """Reads the root itself, which may be a symbolic link to the tree. A failure is in the result."""
        result = Result()
        try:
            now, status = clock(), os.fstat(self._root_handle)
            if stat.S_ISDIR(status.st_mode):
                result.tasks.append(Listing(self._root))
            if self._has(b""):
                self._keep(self._root_handle, now, status, b"", b"", result)
        except OSError as error:
            result.errors.append((b"", "read", reason_of(error)))
        return result

    def run(self, task: Task) -> Result:
        """Does one task. Failures are in the result; the only exception it raises is MemoryError."""
        result = Result()
        if isinstance(task, Check):
            for directory in task.directories:
                self._check(directory, result)
            return result
        try:
            with self._handles.held(task.directory) as held:
                if isinstance(task, Batch):
                    self._read_names(task, held, result)
                else:
                    self._list(task, held, result)
        except OSError as error:
            path = task.directory.path()
            if isinstance(task, Batch) and task.is_listed:
                result.errors += [(path + b"/" + name, "read", reason_of(error)) for name in task.names]
            else:
                result.errors.append((path, "list", reason_of(error)))
        return result

    def _check(self, directory: Directory, result: Result) -> None:
        """Looks whether the names of a directory are those that were read."""
        try:
            with self._handles.held(directory) as held:
                if os.fstat(held.handle).st_ctime_ns != directory.changed:
                    result.errors.append((directory.path(), "list", MOVED))
        except OSError as error:
            result.errors.append((directory.path(), "list", reason_of(error)))

    def _has(self, directory: bytes) -> bool:
        return self._shard is None or self._shard.has(directory)

    def _list(self, task: Listing, held: Held, result: Result) -> None:
        """Reads the names of a directory, and their objects too if there are few."""
        names = open_list(held.handle)
        try:
            if task.start:
                os.lseek(names, task.start, os.SEEK_SET)
            else:
                task.directory.changed = changed_last(names, self._patience)
                result.listed = task.directory
            first = read_names(names)
            second = read_names(names)
        finally:
            os.close(names)
        if first and second:  # tasks are done last first: so the objects of these names, and all below them, come next
            result.tasks = [Listing(task.directory, second.after), Batch(task.directory, second.names, second.others),
                            Batch(task.directory, first.names, first.others)]
        elif first:
            self._read_names(Batch(task.directory, first.names, first.others), held, result)

    def _read_names(self, piece: Batch, held: Held, result: Result) -> None:
        """Reads the objects of some names. In a directory of another shard these are only directories."""
        path = piece.directory.path()
        place = _Place(piece, held, path + b"/" if path else b"", self._has(path))
        for name in piece.names if place.is_own else [one for one in piece.names if one not in piece.others]:
            try:
                self._read(place, name, result)
            except OSError as error:
                result.errors.append((place.prefix + name, "read", reason_of(error)))

    def _read(self, place: _Place, name: bytes, result: Result) -> None:
        handle = os.open(name, OBJECT, dir_fd=place.held.handle)
        try:
            now, status = clock(), os.fstat(handle)
            is_directory = stat.S_ISDIR(status.st_mode)
            if stat.S_ISLNK(status.st_mode):
                result.links += place.is_own
            elif place.is_own and not is_directory:
                self._keep_in(place, handle, now, status, name, result)
        finally:
            os.close(handle)
        if is_directory:
            self._read_directory(place, name, result)

    def _read_directory(self, place: _Place, name: bytes, result: Result) -> None:
        handle = os.open(name, OBJECT | os.O_DIRECTORY, dir_fd=place.held.handle)  # mounts what is mounted on demand
        try:
            now, found = clock(), os.fstat(handle)
            is_entered = not self._options.one_file_system or found.st_dev == self._device
            if is_entered and not place.piece.is_listed:
                result.tasks.append(Listing(Directory(place.piece.directory, name, found)))
            if self._shard and name in place.piece.others:
                result.errors.append((place.prefix + name, "list", _NEW_DIRECTORY))
            if place.is_own:
                self._keep_in(place, handle, now, found, name, result)
        finally:
            os.close(handle)

    def _keep_in(self, place: _Place, handle: int, now: int, status: os.stat_result, name: bytes,
                 result: Result) -> None:
        path = place.prefix + name
        mount = place.held.mount if status.st_dev == place.held.device else path
        self._keep(handle, now, status, path, mount, result)

    def _keep(self, handle: int, now: int, status: os.stat_result, path: bytes, mount: bytes, result: Result) -> None:
        self._mounts[status.st_dev] = min(self._mounts.get(status.st_dev, mount), mount)
        kind = _KINDS.get(stat.S_IFMT(status.st_mode), "?")
        status, (stored, other) = at_one_time(handle, lambda found: self.read_list(handle, found, path), (now, status),
                                              self._patience.wait)
        result.found.append(Found(path, kind, stat.S_IMODE(status.st_mode), status.st_uid, status.st_gid, stored))
        if other:
            result.others.append((path, other))

    def read_list(self, handle: int, status: os.stat_result, path: bytes) -> Tuple[StoredList, Optional[str]]:
        """Returns the list of an object, and what says that it has another list, which is not read."""
        place = b"/proc/self/fd/%d" % handle  # which leads to the object that the handle has, and not by its name
        names = _names(place)
        read, nfs = self._nfs(handle, status.st_dev, path, names) or (None, None)
        other = self._mounts_met.another(handle, status.st_dev) or another_attribute(set(names), read)
        if nfs:
            return nfs, other
        access = _attribute(place, POSIX[0])
        default = _attribute(place, POSIX[1]) if stat.S_ISDIR(status.st_mode) else None
        if access is None and default is None:
            return StoredList(StoredForm.MODE, status.st_mode & 0o777, None, None), other
        return StoredList(StoredForm.POSIX, status.st_mode & 0o777 if access is None else 0, access, default), other

    def _nfs(self, handle: int, device: int, path: bytes, names: List[str]) -> Optional[Tuple[str, StoredList]]:
        """Returns the first NFSv4 list of an object with its attribute, or None if it has none. `names` are the
        attributes that it lists: those that no file system makes up are among them."""
        first, *more = self._options.attributes
        place = b"/proc/self/fd/%d" % handle
        is_unsupported = False
        try:
            data = os.getxattr(place, first)
            self._with_lists.add(device)
            return first, self._value(first, data, handle)
        except OSError as error:
            if error.errno == errno.ENOTSUP and device not in self._with_lists:
                is_unsupported = True
            elif error.errno != errno.ENODATA:
                raise
        for name in more:
            value = None if name.startswith(_STORED) and name not in names else _attribute(place, name)
            if value is not None:
                return name, self._value(name, value, handle)
        if is_unsupported:
            self._unsupported.setdefault(device, path)
        return None

    def _value(self, name: str, value: bytes, handle: int) -> StoredList:
        """Returns the list of an attribute."""
        if name in OF_IDS and self._mounts_met.has_other_ids(handle):
            return StoredList(StoredForm.REFUSED, 0, value, f"{name}: {_OTHER_IDS}".encode())
        return self._values(name, value) if name in OTHER_FORMS else StoredList(StoredForm.NFS4, 0, value, None)

    def _read_value(self, name: str, value: bytes) -> StoredList:
        try:
            from aclck_tree.scan.values import (  # which needs the library; a scan without such attributes does not
                read_value,
            )
        except ImportError as error:
            raise DeviceError(str(error)) from None
        return read_value(name, value, self._accounts)


def another_attribute(names: AbstractSet[str], read: Optional[str]) -> Optional[str]:
    """Returns an attribute of an object with another list than the one that is read, or None. `names` are those of its
    attributes, and `read` is the one that is read, or None if that is a POSIX ACL or the mode."""
    own = POSIX if read is None else _OF_A_MOUNT if read in _OF_A_MOUNT else (read,)
    return min(_WITH_LISTS.intersection(names).difference(own), default=None)


def _attribute(place: bytes, name: str) -> Optional[bytes]:
    try:
        return os.getxattr(place, name)
    except OSError as error:
        if error.errno not in _ABSENT:
            raise
    return None


def _names(place: bytes) -> List[str]:
    """Returns the names of the attributes that an object lists."""
    try:
        return os.listxattr(place)
    except OSError as error:
        if error.errno not in _ABSENT:
            raise
    return []


def reason_of(error: OSError) -> str:
    return error.strerror or str(error)
