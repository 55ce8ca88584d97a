"""The writer of a snapshot: it puts what a scan found into a new file, which takes its place when it is done."""

from __future__ import annotations

import contextlib
import errno
import itertools
import os
import sqlite3
from typing import Dict, Iterable, Iterator, List, Optional, Sequence, Tuple

from aclck_tree.output.errors import DeviceError
from aclck_tree.output.files import EXCHANGED, NewFile, refuse_what_is_no_file
from aclck_tree.snapshot import others
from aclck_tree.snapshot.portions import Device, Portion
from aclck_tree.snapshot.schema import (
    ABOVE,
    ABOVE_TABLES,
    APPLICATION,
    FORMAT,
    KINDS,
    PORTIONS,
    PORTION_TABLES,
    SCHEMA,
    TABLES,
)
from aclck_tree.snapshot.snapshot import Above, Account, Found, Snapshot, StoredForm, Tree, uri


class Writer:
    """Makes a new snapshot in an empty file."""

    def __init__(self, place: str, part: NewFile) -> None:
        """`place` is the name of the snapshot in messages, and `part` is the file. Raises OSError if the file is no
        longer where it was made."""
        self._lists: Dict[bytes, int] = {}
        self._faces: Dict[Tuple[int, int, int, int], int] = {}
        self._version = FORMAT
        self.objects = 0
        self.others: List[str] = []  # the messages about other lists
        self.whole = True
        self.place = place
        self._db = _opened(part)
        # In this mode, SQLite looks for no journal beside the file once it has written something.
        for line in ("PRAGMA locking_mode = EXCLUSIVE", "PRAGMA journal_mode = OFF", "PRAGMA synchronous = OFF",
                     f"PRAGMA application_id = {APPLICATION}", f"PRAGMA user_version = {FORMAT}"):
            self._db.execute(line)
        self._db.execute("BEGIN")
        for name in TABLES:
            self._db.execute(SCHEMA[name])

    @property
    def lists(self) -> int:
        """The number of distinct lists so far."""
        return len(self._lists)

    def add_tree(self, tree: Tree) -> int:
        """Adds a tree and returns its new number."""
        row = (_bytes(tree.host), tree.root, tree.place, tree.began, tree.ended, tree.whole, tree.version, tree.links)
        cursor = self._db.execute("INSERT INTO trees VALUES (NULL, CAST(? AS TEXT), ?, ?, ?, ?, ?, ?, ?)", row)
        return cursor.lastrowid or 0

    def add_portion(self, tree: int, portion: Portion) -> None:
        """Records that a tree is only a portion of one."""
        self._raise_version(PORTIONS)
        row = (tree, portion.shard, portion.shards, portion.key, _bytes(portion.attribute), portion.one_file_system)
        self._db.execute("INSERT INTO portions VALUES (?, ?, ?, ?, CAST(? AS TEXT), ?)", row)

    def _raise_version(self, version: int) -> None:
        """Makes the snapshot one of at least some version, which is a later one than `FORMAT`."""
        tables = PORTION_TABLES if self._version == FORMAT else {}
        for name in {**tables, **(ABOVE_TABLES if self._version < ABOVE <= version else {})}:
            self._db.execute(SCHEMA[name])
        if self._version < version:
            self._version = version
            self._db.execute(f"PRAGMA user_version = {version}")

    def add_above(self, tree: int, directories: Optional[Sequence[Above]]) -> None:
        """Records the directories above the root of a tree, from `/` down, or nothing if they were not asked."""
        if directories is None:
            return
        self._raise_version(ABOVE)
        for one in directories:
            values = ((one.uid, one.gid, one.stored.kind, one.stored.mode, one.stored.access, one.stored.default, None)
                      if one.stored else (None, None, None, 0, None, None, _bytes(one.message)))
            self._db.execute("INSERT INTO above VALUES (?, ?, ?, ?, ?, ?, ?, ?, CAST(? AS TEXT))",
                             (tree, one.path, *values))

    def add_devices(self, tree: int, devices: Iterable[Device]) -> None:
        """Records what the scan of a portion found out about file systems."""
        self._db.executemany("INSERT INTO devices VALUES (?, ?, ?, ?)", ((tree, *device) for device in devices))

    def end_tree(self, tree: int, ended: str, whole: bool, links: int) -> None:
        """Records how the scan of a tree ended."""
        self._db.execute("UPDATE trees SET ended = ?, whole = ?, links = ? WHERE tree = ?", (ended, whole, links, tree))

    def add_objects(self, tree: int, found: Sequence[Found]) -> None:
        """Records objects of a tree and counts them. Lists that are equal are kept once, and so are faces."""
        self.objects += len(found)
        self._db.executemany("INSERT INTO objects VALUES (?, ?, ?, ?, ?)",
                             [(tree, one.path, one.kind, one.mode, self._face(tree, one)) for one in found])

    def _face(self, tree: int, found: Found) -> int:
        stored = found.stored
        digest = stored.digest
        number = self._lists.get(digest)
        if number is None:
            number = self._lists[digest] = len(self._lists) + 1
            if stored.kind in (StoredForm.ACCOUNTS, StoredForm.REFUSED):
                self._raise_version(KINDS)
            self._db.execute("INSERT INTO lists VALUES (?, ?, ?, ?, ?)",
                             (number, stored.kind, stored.mode, stored.access, stored.default))
        key = (tree, found.uid, found.gid, number)
        face = self._faces.get(key)
        if face is None:
            face = self._faces[key] = len(self._faces) + 1
            self._db.execute("INSERT INTO faces VALUES (?, ?, ?, ?, ?)", (face, *key))
        return face

    def add_error(self, tree: int, path: bytes, step: str, message: str) -> None:
        """Records that a step failed at a path."""
        if others.is_other(message):
            self.others.append(message)
        self._db.execute("INSERT INTO errors VALUES (?, ?, ?, CAST(? AS TEXT))", (tree, path, step, _bytes(message)))

    def add_names(self, accounts: Iterable[Account]) -> None:
        """Adds names of users and groups."""
        self._db.executemany("INSERT INTO names VALUES (?, ?, ?, ?)", accounts)

    def add_members(self, rows: Iterable[Tuple[int, bytes, bytes]]) -> None:
        """Adds rows of a tree, a user and a group that the user is in."""
        self._db.executemany("INSERT INTO members VALUES (?, ?, ?)", rows)

    def seen_ids(self, tree: int) -> Tuple[List[int], List[int]]:
        """Returns the ids of the owners and of the groups of a tree."""
        both = [{row[0] for table in self._with_lists("faces") for row in self._db.execute(
            f"SELECT DISTINCT {column} FROM {table} WHERE tree = ? AND {column} IS NOT NULL", (tree,))}
                for column in ("uid", "gid")]
        return sorted(both[0]), sorted(both[1])

    def _with_lists(self, table: str) -> List[str]:
        """Returns a table, and with it that of the directories above the roots of trees if there is one."""
        return [table, "above"] if self._version >= ABOVE else [table]

    def posix_acls(self) -> Iterator[Optional[bytes]]:
        """Yields the attributes of all POSIX ACLs."""
        for table in self._with_lists("lists"):
            for row in self._db.execute(f"SELECT access, dflt FROM {table} WHERE kind = 'posix'"):
                yield from row

    def finish(self) -> None:
        """Makes the file whole."""
        self._db.execute(SCHEMA["objects_by_path"])
        self._db.execute("COMMIT")
        self._db.close()

    def drop(self) -> None:
        """Closes the file, in whatever state it is."""
        with contextlib.suppress(sqlite3.Error):
            self._db.close()


def _opened(part: NewFile) -> sqlite3.Connection:
    """Opens a new file as a database, which it is the only one to use. SQLite can only open it by its name, and who may
    write to the directory can put a link there. So before anything is written or even read, one of the files that are
    open must be the file that was made. Raises OSError if none is."""
    db = sqlite3.connect(uri(part.name, "mode=rw&nolock=1"), uri=True, isolation_level=None)
    if not any(part.is_held_by(int(number)) for number in os.listdir("/proc/self/fd")):
        db.close()
        raise OSError(errno.ESTALE, EXCHANGED)
    return db


def merge(writer: Writer, snapshot: Snapshot) -> None:
    """Adds everything in a snapshot of whole trees to a new one."""
    numbers = {number: writer.add_tree(tree) for number, tree in snapshot.trees.items()}
    parts = snapshot.lists(), snapshot.faces()  # once for all trees, and for this snapshot alone
    for tree, number in numbers.items():
        found = snapshot.objects_of(tree, parts)
        for first in found:
            writer.add_objects(number, [first, *itertools.islice(found, 999)])
        writer.add_above(number, snapshot.above(tree))
    writer.add_names((numbers[tree], is_group, number, name) for tree, is_group, number, name in snapshot.names())
    writer.add_members((numbers[tree], user, group) for tree, user, group in snapshot.members())
    for tree, path, step, message in snapshot.errors():
        writer.add_error(numbers[tree], path, step, message)


@contextlib.contextmanager
def new_snapshot(place: str) -> Iterator[Writer]:
    """Makes a snapshot next to `place`, and moves it there when the block is done. If the block raises, `place` stays
    as it was.

    A snapshot that is not whole does not replace a file: it is written to `PLACE.partial` instead. Raises TreeError if
    something is at the place that is not a file, and DeviceError if the snapshot cannot be written.
    """
    try:
        part = NewFile(place)
        writer: Optional[Writer] = None
        try:
            writer = Writer(place, part)
            yield writer
            writer.finish()
            if not writer.whole and os.path.lexists(place):
                writer.place = f"{place}.partial"
                refuse_what_is_no_file(writer.place)
            part.take(writer.place)
        finally:
            if writer:
                writer.drop()
            part.drop()
    except (sqlite3.Error, OSError) as error:
        raise DeviceError(f"{place}: {getattr(error, 'strerror', None) or error}") from None


def _bytes(text: str) -> bytes:
    """Returns a text, which may have bytes in it that are not UTF-8, as SQLite keeps it."""
    return text.encode("utf-8", "surrogateescape")
