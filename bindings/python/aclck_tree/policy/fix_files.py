"""The directory that `policy --fix` makes: the mended lists, the objects that get them, a report, and the script that
sets the lists (`set_lists.py`), under the names `apply` and `undo`. Nobody but its owner may read it."""

from __future__ import annotations

import contextlib
import json
import os
import pkgutil
from typing import Dict, Iterable, Iterator, NamedTuple, Sequence, Tuple

from aclck_tree.output.errors import DeviceError, TreeError
from aclck_tree.output.text import quoted, quoted_line
from aclck_tree.snapshot.snapshot import Snapshot

_INTERPRETER = b"#!/usr/bin/env -S python3 -I\n"
"""The first line of `apply` and `undo`: nothing of the directory in which they run is imported."""


class ListToSet(NamedTuple):
    """The objects of a tree with one owner, one group and one list get another list."""

    tree: int
    uid: int
    gid: int
    old: bytes
    new: bytes


def refuse_fix(place: str, snapshot: Snapshot) -> None:
    """Raises TreeError if a snapshot cannot be mended, or if the directory cannot be made."""
    if snapshot.together or not snapshot.is_complete() or snapshot.has_shards():
        raise TreeError(f"{quoted(snapshot.place)}: --fix takes a whole snapshot: without failed steps, and no shard")
    if len({tree.host for tree in snapshot.trees.values()}) > 1:
        raise TreeError(f"{quoted(snapshot.place)}: --fix takes the trees of one host")
    if os.path.lexists(place):
        with _directory(place):
            pass


@contextlib.contextmanager
def _directory(place: str) -> Iterator[int]:
    """Opens an empty directory. Raises TreeError if there is something else, or if others may write in it."""
    try:
        handle = os.open(place.rstrip("/"), os.O_RDONLY | os.O_DIRECTORY | os.O_NOFOLLOW | os.O_CLOEXEC)
    except OSError as error:
        raise TreeError(f"{quoted(place)}: {error.strerror}") from None
    try:
        status = os.fstat(handle)
        if status.st_uid != os.geteuid() or status.st_mode & 0o022:
            raise TreeError(f"{quoted(place)}: others than you may write in it")
        if os.listdir(handle):
            raise TreeError(f"{quoted(place)}: the directory is not empty")
        yield handle
    finally:
        os.close(handle)


class FixDirectory:
    """A new directory. `apply` comes last, so that one in which something is missing cannot be applied."""

    def __init__(self, place: str, snapshot: Snapshot) -> None:
        self._place = place
        self._snapshot = snapshot

    def write(self, lists: Sequence[ListToSet], objects: Iterable[Tuple[int, bytes]], report: Iterable[str]) -> None:
        """Writes the files. An object has the place of its list and its path below the root of the tree. Without lists,
        there is only the report. Raises TreeError and DeviceError."""
        try:
            with contextlib.suppress(FileExistsError):
                os.mkdir(self._place, 0o700)
            with _directory(self._place) as handle:
                _put(handle, "report", (quoted_line(line).encode() + b"\n" for line in report))
                if lists:
                    _put(handle, "lists", [json.dumps(list(self._rows(lists))).encode()])
                    _put(handle, "paths", (b"%d %s\0" % one for one in objects))
                    for name in ("undo", "apply"):
                        _put(handle, name, [_INTERPRETER, _script()], 0o700)
        except OSError as error:
            raise DeviceError(f"{quoted(self._place)}: {error.strerror or error}") from None

    def _rows(self, lists: Sequence[ListToSet]) -> Iterator[Dict[str, object]]:
        for one in lists:
            root = self._snapshot.trees[one.tree].place
            yield {"root": root.hex(), "uid": one.uid, "gid": one.gid, "old": one.old.hex(), "new": one.new.hex()}


def _script() -> bytes:
    """Returns the script that sets lists. Raises DeviceError if it is not there: without it, `apply` would end well."""
    found = pkgutil.get_data("aclck_tree.policy", "set_lists.py")
    if not found:
        raise DeviceError("set_lists.py, the script of --fix, is not installed")
    return found


def _put(handle: int, name: str, parts: Iterable[bytes], mode: int = 0o600) -> None:
    """Writes a new file of a directory, which has its name when it is whole: a part of a script could end well."""
    flags = os.O_WRONLY | os.O_CREAT | os.O_EXCL | os.O_NOFOLLOW | os.O_CLOEXEC
    with open(os.open(f"{name}.part", flags, mode, dir_fd=handle), "wb") as file:
        file.writelines(parts)
    os.rename(f"{name}.part", name, src_dir_fd=handle, dst_dir_fd=handle)
