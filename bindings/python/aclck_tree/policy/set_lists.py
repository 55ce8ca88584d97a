"""Gives the objects of a tree mended lists (`apply`), or the lists of the snapshot again (`undo`). `aclck-tree policy
--fix DIR` puts this file into DIR under both names. It needs Linux, Python 3.9 or later, and somebody who may change
the lists.

A list is only set if the object has the owner, the group and the list that it should have before. No link in a path is
followed. `undo` is only about objects that `apply` has set. A line says of each object whose list is not set why. The
exit status is 0 if all objects have the lists that they should have, 1 if some have not, and 2 if the files in DIR or
the command line cannot be used.
"""

import argparse
import contextlib
import json
import os
import stat
import sys
from typing import BinaryIO, Iterator, List, NamedTuple, Optional, Sequence

_OBJECT = os.O_PATH | os.O_NOFOLLOW | os.O_CLOEXEC
_DIRECTORY = _OBJECT | os.O_DIRECTORY


class Mending(NamedTuple):
    """The root of a tree, the owner and the group of objects in it, and their list before and after."""

    root: bytes
    uid: int
    gid: int
    old: bytes
    new: bytes


class ObjectToSet(NamedTuple):
    """An object that gets a list: the number of its mending, its path below the root of the tree, and its inode if
    `apply` has set it."""

    number: int
    mending: Mending
    path: bytes
    inode: Optional[int] = None

    def full(self) -> bytes:
        """Returns the whole path."""
        return self.mending.root.rstrip(b"/") + b"/" + self.path if self.path else self.mending.root

    @classmethod
    def read(cls, row: bytes, mendings: Sequence[Mending], has_inode: bool) -> "ObjectToSet":
        """Reads a row of `paths`, or of `applied`, which has inodes. Raises ValueError and LookupError."""
        number, *inode, path = row.split(b" ", 2 if has_inode else 1)
        return cls(int(number), mendings[int(number)], path, int(inode[0]) if has_inode else None)


class NotSet(Exception):
    """Why a list is not set."""


def opened(path: bytes) -> int:
    """Returns a handle of an object. No name in the path is followed if it is a link. Raises OSError and NotSet."""
    names = [name for name in path.split(b"/") if name]
    if not path.startswith(b"/") or b"." in names or b".." in names:
        raise NotSet("its path is none of an object")
    handle = os.open(b"/", _DIRECTORY)
    for place, name in enumerate(names, 1):
        try:
            below = os.open(name, _OBJECT if place == len(names) else _DIRECTORY, dir_fd=handle)
        finally:
            os.close(handle)
        handle = below
    return handle


class Setter:
    """Sets lists, and records in a file what it sets."""

    def __init__(self, attribute: str, record: Optional[BinaryIO]) -> None:
        """Without a record, the lists of the snapshot are put back."""
        self._attribute = attribute
        self._record = record

    def set(self, one: ObjectToSet) -> bool:
        """Sets the list of an object. Returns whether it had another one. Raises OSError and NotSet."""
        handle = opened(one.full())
        try:
            return self._set(handle, one)
        finally:
            os.close(handle)

    def _set(self, handle: int, one: ObjectToSet) -> bool:
        status, mending = os.fstat(handle), one.mending
        if stat.S_ISLNK(status.st_mode):
            raise NotSet("it is a link now")
        if one.inode not in (None, status.st_ino):
            raise NotSet("another object has its name now")
        if (status.st_uid, status.st_gid) != (mending.uid, mending.gid):
            raise NotSet("its owner or its group is another one now")
        place = f"/proc/self/fd/{handle}"
        before, after = (mending.old, mending.new) if self._record else (mending.new, mending.old)
        found = os.getxattr(place, self._attribute)
        if found == after:
            return False
        if found != before:
            raise NotSet("its list is another one now")
        if self._record:
            self._record.write(b"%d %d %s\0" % (one.number, status.st_ino, one.path))
            self._record.flush()
        self._exchange(place, before, after)
        return True

    def _exchange(self, place: str, before: bytes, after: bytes) -> None:
        """Gives an object another list. Raises NotSet if the object does not have it then, and OSError if it still has
        the list from before."""
        try:
            os.setxattr(place, self._attribute, after)
        except OSError:
            if self._has(place, before):
                raise
        if not self._has(place, after):
            with contextlib.suppress(OSError):
                os.setxattr(place, self._attribute, before)
            raise NotSet("the server keeps or shows another list than it is given, so the list " + (
                "is the one from before" if self._has(place, before) else "may be another one now: look at it"))

    def _has(self, place: str, data: bytes) -> bool:
        """Whether an object has a list, and shows it."""
        with contextlib.suppress(OSError):
            return os.getxattr(place, self._attribute) == data
        return False


def _read(directory: str, name: str) -> bytes:
    with open(os.path.join(directory, name), "rb") as file:
        return file.read()


def _rows(directory: str, is_undo: bool) -> bytes:
    """Returns the rows of the objects to set, each of which ends with a zero byte. Raises OSError, and ValueError if
    `paths` is cut short."""
    if is_undo:
        return _read(directory, "applied") if os.path.exists(os.path.join(directory, "applied")) else b""
    data = _read(directory, "paths")
    if not data.endswith(b"\0"):
        raise ValueError("paths is cut short")
    return data


def _from_the_last(rows: bytes) -> Iterator[bytes]:
    """Yields rows, the last one first. A list of millions of them would need much more memory."""
    end = rows.rfind(b"\0")
    while end >= 0:
        start = rows.rfind(b"\0", 0, end) + 1
        yield rows[start:end]
        end = start - 1


def _record(path: str) -> BinaryIO:
    """Opens the file `applied` to write behind its rows. A last row that is cut short goes: its object was not set."""
    flags = os.O_RDWR | os.O_CREAT | os.O_APPEND | os.O_NOFOLLOW | os.O_CLOEXEC
    file = open(os.open(path, flags, 0o600), "a+b")
    file.seek(0)
    file.truncate(file.read().rfind(b"\0") + 1)
    return file


def mendings_in(directory: str) -> List[Mending]:
    """Returns the lists that the file `lists` has."""
    return [Mending(bytes.fromhex(row["root"]), row["uid"], row["gid"], bytes.fromhex(row["old"]),
                    bytes.fromhex(row["new"])) for row in json.loads(_read(directory, "lists"))]


def run(directory: str, is_undo: bool, attribute: str) -> int:
    """Sets the lists of all objects, and returns the exit status."""
    mendings, rows = mendings_in(directory), _rows(directory, is_undo)

    def objects() -> Iterator[ObjectToSet]:
        return (ObjectToSet.read(row, mendings, is_undo) for row in _from_the_last(rows))
    for _ in objects():
        pass  # nothing is set if a row is none
    setter = Setter(attribute, None if is_undo else _record(os.path.join(directory, "applied")))
    counts = {True: 0, False: 0}
    failed = 0
    # Directories come behind what is in them, so that whoever loses EXECUTE on one has done the rest before.
    for one in objects():
        try:
            counts[setter.set(one)] += 1
        except (OSError, NotSet) as error:
            failed += 1
            print(f"not set: {ascii(os.fsdecode(one.full()))}: {getattr(error, 'strerror', None) or error}")
    print(f"{counts[True]} set, {counts[False]} had the list before, {failed} not set")
    return 1 if failed else 0


def main(words: Optional[Sequence[str]] = None) -> int:
    """Runs the script by its name, and returns the exit status."""
    directory, name = os.path.split(os.path.abspath(__file__))
    parser = argparse.ArgumentParser(prog=name, description="Sets the lists that `aclck-tree policy --fix` wrote.")
    parser.add_argument("--attribute", default="system.nfs4_acl", metavar="NAME", help="the attribute that has lists")
    args = parser.parse_args(words)
    if name not in ("apply", "undo"):
        parser.error("the name of this file is neither apply nor undo")
    try:
        return run(directory, name == "undo", args.attribute)
    except (OSError, ValueError, LookupError, TypeError, RecursionError) as error:
        print(f"{name}: {error}", file=sys.stderr)
        return 2


if __name__ == "__main__":
    sys.exit(main())
