"""A snapshot, to be read: one SQLite file with what a scan found. `writer.py` makes it, and `joined.py` reads two
together. The SQL of the program is in these modules and in `schema.py`.

The tables:

- `trees`: one row per scanned tree: the host, the root's path as it was typed and from `/`, when the scan began and
  ended (UTC), whether it is whole, the version of the program, and how many symbolic links were not followed.
- `lists`: each distinct list once. `kind` is `nfs4` (`access` has the bytes of `system.nfs4_acl`, and `mode` the flags
  of the list if the attribute had any), `posix` (`access` and `dflt` are the bytes of `system.posix_acl_access` and
  `_default`, or NULL if there is none; `mode` has the nine bits that replace an absent access list), or `mode` (only
  those nine bits). Two more kinds came later: `accounts` is as `nfs4`, but its names are those of accounts and have no
  domain; and `refused` is a value in another form that the scan refused: `access` has it, and `dflt` the reason.
- `faces`: each distinct owner, group and list once. A question is about a face.
- `objects`: one row per file, directory or other object: its path below the root (bytes, empty for the root itself),
  its kind (one letter, as for find -type), its mode, and its face.
- `names` and `members`: the accounts that the scanning host knew, and the ids that the tree has.
- `errors`: what could not be read, with the path and the step.
- `portions`: which trees are only a shard of a tree, or the paths of a list. `shard` and `shards` are 0 for a list. The
  other columns say how the tree was cut, and must be equal in snapshots that are joined.
- `devices`: what the scan of a portion found out about each file system (`portions.Device`).

- `above`: the directories above the root of each tree from `/` down, each with its owner, its group and its list as
  `lists` has it, or with a message that says why these are not known. A tree that has none of them was scanned by an
  older program, or is `/` or an archive.

The version of this layout is in `PRAGMA user_version`: 4 if there is the table `above`, 3 if a list may be of a kind
that came later, 2 if there are `portions` and `devices`, and 1 if these two tables are absent. A newer version is
refused, with a message that says so.
"""

from __future__ import annotations

import enum
import functools
import hashlib
import itertools
import os
import sqlite3
import stat
import sys
import urllib.parse
from dataclasses import dataclass
from typing import Any, Dict, Iterator, List, Optional, Sequence, Set, Tuple

from aclck_tree.output.errors import TreeError
from aclck_tree.output.text import quoted_place
from aclck_tree.snapshot.portions import Device, Portion
from aclck_tree.snapshot.schema import judge_contents
from aclck_tree.snapshot.together import Together

_OBJECTS = "objects INDEXED BY objects_by_path"
"""Objects with their trees and paths from the index, in which these are judged."""

_MODE = "mode & 4095"
"""A mode as a whole number."""

TIME = "%Y-%m-%dT%H:%M:%SZ"
"""The form of the times at which a scan began and ended, in UTC. A snapshot of others can have any text there."""

_AT_ONCE = 256
"""How many objects are read at once."""

STEP = 100_000
"""After how many instructions of SQLite the work is counted."""

READ_ONLY = "mode=ro&immutable=1"
"""The file is read as it is: without locks, without a journal, and without a write-ahead log beside it."""

WORK, WORK_PER_BYTE = 2_000_000, 30
"""How many instructions the questions of one run may need, and how many more for each byte of the file."""


PAIRS, PAIRS_PER_BYTE = 1_000_000, 4
"""How many pairs of a person and a tree one run may ask about, and how many more for each byte of the file."""


@dataclass(frozen=True)
class Tree:
    """One scanned tree."""

    tree: int
    host: str
    root: bytes
    place: bytes
    began: str
    ended: Optional[str]
    whole: bool
    version: str
    links: int

    def full(self, path: bytes) -> bytes:
        """Returns the whole path of an object from its path below the root."""
        return self.root.rstrip(b"/") + b"/" + path if path else self.root

    def words(self) -> str:
        """Returns the host and the place as bash reads them, on one line."""
        return quoted_place(self.host, self.place)


class StoredForm(str, enum.Enum):
    """How a list was found: as an NFSv4 list, as one whose ids the scan named, as POSIX ACLs, as a mode alone, or as a
    value that the scan refused. A form equals its word."""

    NFS4 = "nfs4"
    ACCOUNTS = "accounts"
    POSIX = "posix"
    MODE = "mode"
    REFUSED = "refused"


@dataclass(frozen=True)
class StoredList:
    """A list as the file system gave it. The columns of the table `lists` say what the fields are."""

    kind: StoredForm
    mode: int
    access: Optional[bytes]
    default: Optional[bytes]

    @property
    def is_nfs(self) -> bool:
        """Whether it is an NFSv4 list."""
        return self.kind in (StoredForm.NFS4, StoredForm.ACCOUNTS)

    @property
    def is_posix(self) -> bool:
        """Whether it is a POSIX ACL or a mode."""
        return self.kind in (StoredForm.POSIX, StoredForm.MODE)

    @functools.cached_property
    def digest(self) -> bytes:
        """16 bytes that are the same for equal lists."""
        parts = [self.kind.encode(), b"%o" % self.mode, self.access, self.default]
        whole = b"".join(b"-" if part is None else b"%d:" % len(part) + part for part in parts)
        return hashlib.blake2b(whole, digest_size=16).digest()


@dataclass(frozen=True)
class Face:
    """An owner, a group and a list."""

    face: int
    tree: int
    uid: int
    gid: int
    list: int


@dataclass(frozen=True)
class Found:
    """An object that a scan found."""

    path: bytes
    kind: str
    mode: int
    uid: int
    gid: int
    stored: StoredList


@dataclass(frozen=True)
class Above:
    """A directory above the root of a tree: its path from `/`, its owner, its group and its list, or the reason why
    these are not known."""

    path: bytes
    uid: int = 0
    gid: int = 0
    stored: Optional[StoredList] = None
    message: str = ""


Account = Tuple[int, bool, int, bytes]  # tree, whether it is a group, id, name

Parts = Tuple[Dict[int, StoredList], Dict[int, Face]]
"""Lists and faces by their numbers."""


class Snapshot:
    """A snapshot to read, which has `count` objects. It can come from anybody: whatever is in the file, it is judged
    before it is used."""

    def __init__(self, place: str, together: Optional[Together] = None) -> None:
        """Opens a snapshot, which may be asked together with others. Raises TreeError if the file is not a snapshot, is
        damaged, has a newer layout, or has something in it that a scan does not write."""
        self.place = place
        self.together = together
        self._size = _file_size(place)
        self._steps = 0
        try:
            self._db = sqlite3.connect(uri(place, READ_ONLY), uri=True)
        except sqlite3.DatabaseError as error:
            raise self._unreadable(error) from None
        self._db.text_factory = lambda data: data.decode("utf-8", "surrogateescape")
        if sys.version_info >= (3, 11):
            self._db.setlimit(sqlite3.SQLITE_LIMIT_LENGTH, max(self._size, 1 << 20))
        self.allow_work(self._size)
        for line in ("trusted_schema = OFF", "cell_size_check = ON"):
            self._db.execute(f"PRAGMA {line}")
        self.count, self._has_portions, self._has_above = judge_contents(place, self._rows, self._size)
        rows = self._rows("SELECT * FROM trees ORDER BY tree")
        self.trees = {row[0]: Tree(row[0], row[1], row[2], row[3], row[4], row[5], bool(row[6]), row[7], row[8])
                      for row in rows}
        rows = self._rows("SELECT * FROM portions ORDER BY tree") if self._has_portions else iter(())
        self.portions = {row[0]: Portion(row[1], row[2], row[3], row[4], bool(row[5])) for row in rows}

    def allow_work(self, size: int) -> None:
        """Allows as much work as questions about a snapshot of this size need. A file can be built so that a question
        about it would never end."""
        self._steps += (WORK + WORK_PER_BYTE * size) // STEP
        self._db.set_progress_handler(self._count_step, STEP)

    def allow_people(self, count: int) -> None:
        """Raises TreeError if so many people cannot be asked about: each has ids of their own in each tree, and a small
        file can have many of both."""
        most = PAIRS + PAIRS_PER_BYTE * self._size
        if count * len(self.trees) > most:
            raise TreeError(f"{self.place}: {count:,} people in {len(self.trees):,} trees are more than the {most:,} "
                            "pairs that a snapshot of this size is asked about: name fewer people")

    def _count_step(self) -> bool:
        self._steps -= 1
        return self._steps < 0

    def _rows(self, query: str, values: Sequence[object] = ()) -> Iterator[Any]:
        """Yields the rows of a query. Raises TreeError if the file is damaged."""
        try:
            yield from self._db.execute(query, values)
        except (sqlite3.DatabaseError, UnicodeDecodeError) as error:  # a message of SQLite can have any bytes in it
            raise self._unreadable(error) from None

    def _rows_at_once(self, query: str, values: Sequence[object]) -> Iterator[List[Any]]:
        """Yields the rows of a query, many at once, which is quicker."""
        try:
            yield from iter(functools.partial(self._db.execute(query, values).fetchmany, _AT_ONCE), [])
        except (sqlite3.DatabaseError, UnicodeDecodeError) as error:
            raise self._unreadable(error) from None

    def _unreadable(self, error: Exception) -> TreeError:
        words = "it makes more work than any snapshot of its size" if self._steps < 0 else str(error)
        return TreeError(f"{self.place}: cannot be read as a snapshot: {words}")

    def is_whole(self) -> bool:
        """Whether all its scans were completed."""
        return all(tree.whole for tree in self.trees.values())

    def is_complete(self) -> bool:
        """Whether all its scans were completed, and no step of them failed."""
        return self.is_whole() and next(self.errors(), None) is None

    def has_shards(self) -> bool:
        """Whether it has only a shard of a tree."""
        return any(not portion.is_list for portion in self.portions.values())

    def count_kinds(self) -> Dict[str, int]:
        """Returns the number of objects of each kind."""
        return dict(self._rows("SELECT kind, COUNT(*) FROM objects GROUP BY kind ORDER BY kind"))

    def lists(self) -> Dict[int, StoredList]:
        """Returns all lists by their numbers."""
        return {row[0]: StoredList(StoredForm(row[1]), *row[2:]) for row in self._rows("SELECT * FROM lists")}

    def posix_acls(self) -> Iterator[Optional[bytes]]:
        """Yields the attributes of all POSIX ACLs, also of directories above the roots of trees."""
        for row in self._rows("SELECT access, dflt FROM lists WHERE kind = 'posix'"):
            yield from row
        for one in itertools.chain.from_iterable(self._above.values()):
            if one.stored and one.stored.kind == StoredForm.POSIX:
                yield from (one.stored.access, one.stored.default)

    def nfs_lists(self) -> Iterator[StoredList]:
        """Yields all NFSv4 lists, also of directories above the roots of trees."""
        above = (one.stored for one in itertools.chain.from_iterable(self._above.values()) if one.stored)
        return (one for one in itertools.chain(self.lists().values(), above) if one.is_nfs)

    def above(self, tree: int) -> Optional[List[Above]]:
        """Returns the directories above the root of a tree, from `/` down, or None if the scan did not ask them. There
        are none above `/`."""
        return self._above.get(tree) or ([] if self.trees[tree].place == b"/" else None)

    @functools.cached_property
    def _above(self) -> Dict[int, List[Above]]:
        found: Dict[int, List[Above]] = {}
        query = "SELECT tree, path, uid, gid, kind, mode, access, dflt, message FROM above ORDER BY tree, length(path)"
        for tree, path, uid, gid, kind, *values, message in self._rows(query) if self._has_above else ():
            stored = None if kind is None else StoredList(StoredForm(kind), *values)
            found.setdefault(tree, []).append(Above(path, uid or 0, gid or 0, stored, message or ""))
        for tree, held in found.items():
            if not are_above(self.trees[tree].place, [one.path for one in held]):
                raise TreeError(f"{self.place}: damaged: the directories above a tree are others than its path has")
        return found

    def is_posix(self, number: int) -> bool:
        """Whether a list is a POSIX ACL or a mode."""
        rows = self._rows("SELECT kind IN ('posix', 'mode') FROM lists WHERE list = ?", (number,))
        return bool(next(rows)[0])

    def faces(self) -> Dict[int, Face]:
        """Returns all faces by their numbers."""
        return {row[0]: Face(*row) for row in self._rows("SELECT * FROM faces")}

    def face_counts(self) -> Dict[int, Tuple[int, bytes]]:
        """Returns for each face how many objects have it, and the first path."""
        for query in ("CREATE TEMP TABLE counts (face INTEGER PRIMARY KEY, objects INTEGER, first BLOB)",
                      # GROUP BY would sort all objects.
                      f"INSERT INTO counts SELECT face, 1, path FROM {_OBJECTS} WHERE TRUE ORDER BY tree, path "
                      "ON CONFLICT (face) DO UPDATE SET objects = objects + 1"):
            list(self._rows(query))
        found = {row[0]: (row[1], row[2]) for row in self._rows("SELECT face, objects, first FROM counts")}
        list(self._rows("DROP TABLE counts"))
        self._db.commit()
        return found

    def directory_faces(self) -> Set[int]:
        """Returns the faces that directories have."""
        return {row[0] for row in self._rows("SELECT DISTINCT face FROM objects WHERE kind = 'd'")}

    def objects(self, bits: int = 0o7777) -> Iterator[Tuple[int, bytes, bool, int, int]]:
        """Yields of all objects the tree, the path, whether it is a directory (1 or 0), these bits of the mode, and the
        face, in the order of trees and paths."""
        query = f"SELECT tree, path, kind = 'd', mode & ?, face FROM {_OBJECTS} ORDER BY tree, path"
        return itertools.chain.from_iterable(self._rows_at_once(query, (bits,)))

    def objects_in(self, tree: int) -> Iterator[Tuple[bytes, bytes, int, int]]:
        """Yields the path, kind, mode and face of the objects of a tree, in the order of paths."""
        query = f"SELECT path, CAST(kind AS BLOB), {_MODE}, face FROM objects WHERE tree = ? ORDER BY path"
        return self._rows(query, (tree,))

    @functools.cached_property
    def parts(self) -> Parts:
        """All lists and all faces. They are kept, because a snapshot can have many trees."""
        return self.lists(), self.faces()

    def objects_of(self, tree: int, parts: Optional[Parts] = None) -> Iterator[Found]:
        """Yields the objects of a tree in the order of paths, from all lists and all faces. It keeps no object."""
        lists, faces = parts or self.parts
        query = f"SELECT path, kind, {_MODE}, face FROM {_OBJECTS} WHERE tree = ? ORDER BY path"
        for path, kind, mode, number in self._rows(query, (tree,)):
            face = faces[number]
            yield Found(path, kind, mode, face.uid, face.gid, lists[face.list])

    def devices_of(self, tree: int) -> Iterator[Device]:
        """Yields what the scan of a portion found out about file systems."""
        if self._has_portions:
            for row in self._rows("SELECT place, has_lists, without FROM devices WHERE tree = ?", (tree,)):
                yield Device(row[0], bool(row[1]), row[2])

    def find(self, tree: int, path: bytes) -> Optional[Tuple[str, int, int]]:
        """Returns the kind, mode and face of an object, or None if there is no such object."""
        rows = self._rows(f"SELECT kind, {_MODE}, face FROM {_OBJECTS} WHERE tree = ? AND path = ?", (tree, path))
        return next(rows, None)

    def names(self) -> Iterator[Account]:
        """Yields tree, whether it is a group, id and name of all accounts that the scans knew."""
        for tree, is_group, number, name in self._rows("SELECT * FROM names ORDER BY rowid"):
            yield tree, bool(is_group), number, name

    def members(self) -> Iterator[Tuple[int, bytes, bytes]]:
        """Yields tree, user and group of all memberships that the scans knew."""
        yield from self._rows("SELECT * FROM members")

    def errors(self) -> Iterator[Tuple[int, bytes, str, str]]:
        """Yields the tree, path, step and message of each failure to read."""
        yield from self._rows("SELECT * FROM errors ORDER BY tree, path")

    def attach(self, later: Snapshot) -> sqlite3.Connection:
        """Attaches a later snapshot to the database of this one as `later`, and returns the database."""
        self.allow_work(self._size + later._size)
        self._db.execute("ATTACH ? AS later", (uri(later.place, READ_ONLY),))
        return self._db


def are_above(place: bytes, paths: Sequence[bytes]) -> bool:
    """Whether some paths are those of all directories above a place, from `/` down."""
    if place == b"/" or len(paths) != place.count(b"/"):
        return False
    at = 0
    for path in paths:
        if path != (place[:at] or b"/"):
            return False
        at = place.find(b"/", at + 1)
    return True


def uri(place: str, options: str) -> str:
    """Returns the URI by which SQLite opens a file."""
    return "file:" + urllib.parse.quote(os.path.abspath(os.fsencode(place))) + "?" + options


def _file_size(place: str) -> int:
    """Returns the size of a regular file without opening it. Raises TreeError if there is none."""
    try:
        status = os.stat(place)
    except FileNotFoundError:
        raise TreeError(f"{place}: no such snapshot") from None
    except (OSError, ValueError) as error:
        raise TreeError(f"{place}: {getattr(error, 'strerror', error)}") from None
    if not stat.S_ISREG(status.st_mode):
        raise TreeError(f"{place}: no snapshot: not a regular file")
    return status.st_size
