"""The scan of an archive. What its members are is gathered in a temporary file first, because a later member of the
same path counts, and because the names of any member can be those of ids in the list of another one."""

from __future__ import annotations

import contextlib
import functools
import hashlib
import os
import sqlite3
from typing import Dict, Iterator, List, NamedTuple, Optional, Sequence, Tuple

from aclck_tree import VERSION
from aclck_tree.output.errors import Damaged, TreeError
from aclck_tree.output.text import quoted_path
from aclck_tree.people import accounts
from aclck_tree.people.people import HIGHEST_ID
from aclck_tree.scan import headers
from aclck_tree.scan.archive_names import ArchiveNames
from aclck_tree.scan.archives import Member, members
from aclck_tree.scan.compressed import opened_archive
from aclck_tree.scan.paths import PLAIN, left_of, not_made, slashes, split
from aclck_tree.scan.progress import Progress
from aclck_tree.scan.reader import ScanOptions
from aclck_tree.scan.records import SHOWN
from aclck_tree.scan.scan import utc_now
from aclck_tree.snapshot import others
from aclck_tree.snapshot.snapshot import Account, Found, StoredList, Tree
from aclck_tree.snapshot.writer import Writer

AT_ONCE = 1000
"""How many objects are written at once."""

MOST_HARD_LINKS = 30_000
"""How many hard links an archive may have until one of them can be one too many: file systems have such bounds."""

_CACHE = 1 << 16  # kilobytes
_KEPT = 64  # lists, of which each can have as many bytes as the headers of a member
_FAULT = "!"
"""The kind of a member that cannot be read."""

_LATE = "L"
"""The kind of a symbolic link that leads out of its directory. GNU tar puts a file in its place, and makes the link at
the end, if a file with the same inode is there, which can be that of a later member."""

_MAY_BE_LATE = f"kind = '{_LATE}' AND excluded.kind NOT IN ('{_LATE}', 'l')"
_ROW = "key, kind, mode, uid, gid, user, grp, headers, fault, was_other, was_directory, slashes"
_PUT = (f"INSERT INTO members ({_ROW}) VALUES (?, ?, ?, ?, ?, ?, ?, ?, ?, ?, ?, ?) ON CONFLICT (key) DO UPDATE SET "
        f"kind = CASE WHEN fault <> '' THEN kind WHEN {_MAY_BE_LATE} THEN '{_FAULT}' ELSE excluded.kind END, "
        "mode = excluded.mode, uid = excluded.uid, gid = excluded.gid, user = excluded.user, "
        "grp = excluded.grp, headers = excluded.headers, fault = CASE WHEN fault <> '' THEN fault "
        f"WHEN {_MAY_BE_LATE} THEN 'an earlier member of its path is a link, and programs may restore it' "
        "ELSE excluded.fault END, "
        "was_other = was_other OR excluded.was_other, was_directory = was_directory OR excluded.was_directory, "
        "slashes = slashes | excluded.slashes")


class _Row(NamedTuple):
    """What is known of a path, whether it begins with a slash or not: programs restore both at one place. `was_other`
    says that a member of this path was no directory, and `was_directory` that one was. `slashes` says which members of
    it there were: `PLAIN` ones, ones `WITH_SLASH` in front, or both."""

    key: bytes
    kind: str
    mode: int = 0
    uid: int = 0
    gid: int = 0
    user: bytes = b""
    group: bytes = b""
    headers: int = 0
    fault: str = ""
    was_other: bool = True
    was_directory: bool = False
    slashes: int = PLAIN


def _fault_at(key: bytes, member: Member, fault: str) -> _Row:
    """Returns the row of a path with a fault. It may be anything but a directory, unless the member is one."""
    return _Row(key, _FAULT, fault=fault, was_other=bool(key) and member.kind != "d")


def _restored_at_the_end(row: _Row) -> Tuple[int, int]:
    """Returns what programs restore of a directory after what is in it. bsdtar leaves out what the directory happens to
    have before that. So if two members do not agree, the earlier one can count."""
    return row.mode, row.headers


class _Gathered:
    """What is known of the members, in a file that nobody else sees."""

    def __init__(self) -> None:
        self._headers: Dict[bytes, int] = {}
        self._hard_links = 0
        self._db = sqlite3.connect("", isolation_level=None)
        for line in ("PRAGMA journal_mode = OFF", "PRAGMA synchronous = OFF", f"PRAGMA cache_size = -{_CACHE}", "BEGIN",
                     "CREATE TABLE members (key BLOB PRIMARY KEY, kind TEXT, mode INTEGER, uid INTEGER, gid INTEGER, "
                     "user BLOB, grp BLOB, headers INTEGER, fault TEXT, was_other INTEGER, was_directory INTEGER, "
                     "slashes INTEGER) WITHOUT ROWID",
                     "CREATE TABLE headers (number INTEGER, name TEXT, value BLOB)",
                     "CREATE INDEX headers_by_number ON headers (number)",
                     "CREATE TABLE faults (fault TEXT PRIMARY KEY) WITHOUT ROWID"):
            self._db.execute(line)

    def close(self) -> None:
        """Removes what is known."""
        self._db.close()

    def add(self, member: Member) -> None:
        """Adds a member. It replaces an earlier one of the same path, unless that one has a fault: what programs make
        of it may still be there."""
        self._hard_links += member.kind == "h"
        try:
            names = split(member.path)
        except ValueError as error:
            more = ".." if len(member.path) > SHOWN else ""
            self._db.execute("INSERT OR IGNORE INTO faults VALUES (CAST(? AS TEXT))", (
                f"{quoted_path(member.path[:SHOWN])}{more}: {error}".encode("utf-8", "surrogateescape"),))
            row = _fault_at(left_of(member.path), member, "a member whose path is none may be restored there")
        else:
            row = self._made(names, member)
        self._db.execute(_PUT, row._replace(slashes=slashes(member.path)))

    def _made(self, names: Sequence[bytes], member: Member) -> _Row:
        """Returns what a member is, whose path has these names."""
        key = b"\0".join(names)
        fault = not_made(member, names)
        if member.kind == "h" and self._hard_links > MOST_HARD_LINKS and self.row(key):
            fault = f"it is a hard link behind {MOST_HARD_LINKS:,} others, and programs may leave what was there"
        if fault:
            return _fault_at(key, member, fault)
        return self._linked(key, member.target) if member.kind == "h" else self._row(key, member)

    def _row(self, key: bytes, member: Member) -> _Row:
        fault = ""
        if not member.kind:
            fault = "its kind is not known, or programs restore it in different ways"
        elif not (0 <= member.uid <= HIGHEST_ID and 0 <= member.gid <= HIGHEST_ID):
            fault = "its owner or its group is no id"
        elif b"\0" in member.user + member.group:
            fault = "the name of its owner or of its group has a zero byte"
        if fault:
            return _Row(key, _FAULT, fault=fault)
        kind = _LATE if member.kind == "l" and (
            member.target.startswith(b"/") or b".." in member.target.split(b"/")) else member.kind
        row = _Row(key, kind, member.mode, member.uid, member.gid, member.user, member.group,
                   self._number(member.headers), "", kind != "d", kind == "d")
        fault = self._fault_of(member.path, row) if member.kind == "d" else ""
        return row._replace(kind=_FAULT, fault=fault) if fault else row

    def _fault_of(self, path: bytes, row: _Row) -> str:
        """Returns why programs restore a directory in different ways, or nothing."""
        earlier = self.row(row.key)
        if earlier and not earlier.was_other and _restored_at_the_end(earlier) != _restored_at_the_end(row):
            return "an earlier member of its path has another mode or list, and programs may restore it"
        if path.endswith(b"/.") and self.has(row.key):  # GNU tar leaves the mode of a directory that is there
            return "its name ends with a part `.`, and something in it is in front of it in the archive"
        return ""

    def _linked(self, key: bytes, target: bytes) -> _Row:
        """Returns what a hard link is: what its target was when the link was made. A target whose path leads through
        something else than a directory is elsewhere."""
        try:
            names = split(target)
        except ValueError:
            names = []
        above = (self.row(b"\0".join(names[:count])) for count in range(1, len(names)))
        found = self.row(b"\0".join(names)) if b"\0".join(names) != key else None
        if found and found.kind not in ("d", _FAULT) and not any(row and row.was_other for row in above):
            return found._replace(key=key, was_other=True, was_directory=False)
        return _Row(key, _FAULT, fault=f"it is a hard link to {quoted_path(target[:SHOWN])}, and no file is there")

    def row(self, key: bytes) -> Optional[_Row]:
        """Returns what is known of a path."""
        found = self._db.execute(f"SELECT {_ROW} FROM members WHERE key = ?", (key,)).fetchone()
        return _Row(*found) if found else None

    def _number(self, headers: Dict[str, bytes]) -> int:
        """Returns the number of some headers: 0 if there are none, and the same for equal ones."""
        if not headers:
            return 0
        whole = b"".join(b"%b=%d:%b" % (name.encode(), len(value), value) for name, value in sorted(headers.items()))
        digest = hashlib.blake2b(whole, digest_size=16).digest()
        if digest not in self._headers:
            self._headers[digest] = len(self._headers) + 1
            self._db.executemany("INSERT INTO headers VALUES (?, ?, ?)", (
                (self._headers[digest], name, value) for name, value in headers.items()))
        return self._headers[digest]

    def headers(self, number: int) -> Dict[str, bytes]:
        """Returns the headers, by their names, to which `_number` gave this number."""
        return dict(self._db.execute("SELECT name, value FROM headers WHERE number = ?", (number,)))

    def texts(self) -> Iterator[bytes]:
        """Yields all texts of POSIX ACLs."""
        query = "SELECT value FROM headers WHERE name IN ('SCHILY.acl.access', 'SCHILY.acl.default') ORDER BY number"
        return (row[0] for row in self._db.execute(query))

    def owners(self) -> Iterator[Tuple[bool, int, bytes]]:
        """Yields the owners and the groups of the members: whether it is a group, the id, and the name."""
        for uid, gid, user, group in self._db.execute(
                f"SELECT DISTINCT uid, gid, user, grp FROM members WHERE kind <> '{_FAULT}'"):
            yield False, uid, user
            yield True, gid, group

    def rows(self) -> Iterator[_Row]:
        """Yields what is known of all paths. What is below a path follows the path."""
        query = f"SELECT {_ROW} FROM members ORDER BY key"
        return (_Row(*row) for row in self._db.execute(query))

    def has(self, root: bytes) -> bool:
        """Whether a path is known, or something below it."""
        query = "SELECT 1 FROM members WHERE key = ? OR key >= ? AND key < ? LIMIT 1"
        return self._db.execute(query, (root, root + b"\0", root + b"\1")).fetchone() is not None

    def faults(self) -> Iterator[str]:
        """Yields the faults of the paths that are none."""
        for fault, in self._db.execute("SELECT CAST(fault AS BLOB) FROM faults ORDER BY fault"):
            yield fault.decode("utf-8", "surrogateescape")


class ArchiveScan:
    """The scan of an archive, or of a directory in it, into a snapshot."""

    def __init__(self, place: bytes, options: ScanOptions, writer: Writer, progress: Progress, *,
                 root: bytes = b"") -> None:
        """Raises TreeError if there is no archive, or if the root is no path."""
        try:
            self._root = b"\0".join(split(root))
        except ValueError as error:
            raise TreeError(f"{quoted_path(root)}: {error}") from None
        self._stack = contextlib.ExitStack()
        self._file = self._stack.enter_context(opened_archive(place))
        self._place, self._typed = place, root
        self._writer = writer
        self._progress = progress
        self._names = ArchiveNames()
        self._gathered = _Gathered()
        self._stack.callback(self._gathered.close)
        self._stored = functools.lru_cache(_KEPT)(self._list)
        self._links = 0
        self._others = others.Others()
        self.errors = 0
        below = root.strip(b"/")
        typed, real = ((one + b"/" + below if below else one) for one in (os.path.normpath(place),
                                                                          os.path.realpath(place)))
        self.tree = writer.add_tree(Tree(0, options.host, typed, real, utc_now(), None, False, VERSION, 0))

    def run(self) -> None:
        """Reads the archive. If Ctrl-C ends it early, what was found until then is kept, and is not marked as whole."""
        ended: Optional[KeyboardInterrupt] = None
        whole = False
        try:
            try:
                self._gather()
            except KeyboardInterrupt as error:
                ended = error
            self._write()
            whole = not ended
        finally:
            self._stack.close()
            self._writer.end_tree(self.tree, utc_now(), whole, self._links)
        if ended:
            raise ended

    def names(self) -> Iterator[Account]:
        """Yields the accounts of the archive, and those of this host that say nothing else."""
        for row in self._names.rows():
            yield (self.tree, *row)
        for account in accounts.names(self._writer, self.tree):
            if self._names.fits(*account[1:]):
                yield account

    def _gather(self) -> None:
        count = 0
        began = os.fstat(self._file.fileno())
        try:
            for count, member in enumerate(members(self._file), 1):
                self._gathered.add(member)
                self._progress.tell(count)
        except Damaged as error:
            if not count:
                raise TreeError(f"{quoted_path(self._place)}: not a tar archive: {error}") from None
            self._fail(b"", f"the archive is damaged behind its first {count:,} members: {error}")
        ended = os.fstat(self._file.fileno())
        if (began.st_size, began.st_mtime_ns) != (ended.st_size, ended.st_mtime_ns):
            self._fail(b"", "the archive changed while it was read")
        if self._root and not self._gathered.has(self._root):
            raise TreeError(f"{quoted_path(self._place)}: the archive has no {quoted_path(self._typed)}")

    def _write(self) -> None:
        """Writes the objects and the failures."""
        for is_group, number, name in self._gathered.owners():
            self._names.add(is_group, number, name)
        for text in self._gathered.texts():
            for is_group, number, name in headers.names_with_ids(text):
                self._names.add(is_group, number, name)
        for fault in self._gathered.faults():
            self._fail(b"", fault)
        found: List[Found] = []
        for path, row in self._below_directories():
            one = self._found(path, row)
            found += [one] if one else []
            if len(found) == AT_ONCE:
                self._keep(found)
                found = []
        self._keep(found)
        for path, message in self._others.messages():
            self._writer.add_error(self.tree, path, "read", message)

    def _keep(self, found: Sequence[Found]) -> None:
        self._writer.add_objects(self.tree, found)
        self._progress.tell()

    def _below_directories(self) -> Iterator[Tuple[bytes, _Row]]:
        """Yields what is known of each path of the tree. A path that leads through anything else than a directory is a
        failure, also outside of the root: in the file system it would be another one, which may be below the root. What
        it leads through is a failure too, unless it is a link: bsdtar makes it a directory."""
        other: Optional[bytes] = None
        last: Optional[Tuple[bytes, _Row]] = None  # it is not known yet whether something is below it
        for row in self._gathered.rows():
            whole = row.key.replace(b"\0", b"/")
            is_below = not self._root or row.key == self._root or row.key.startswith(self._root + b"\0")
            path = whole[len(self._root) + 1 if self._root else 0:] if is_below else b""
            if other is not None and (not other or row.key.startswith(other + b"\0")):
                through = other.replace(b"\0", b"/")
                self._fail(path, f"the path {quoted_path(whole[:SHOWN])} leads through {quoted_path(through[:SHOWN])}, "
                           "which is no directory")
                if last and last[1].kind not in ("l", _LATE):
                    fault = last[1].fault or "it is no directory, and there are paths below it"
                    last = last[0], last[1]._replace(fault=fault)
                continue
            if last:
                yield last
            last = None
            other = row.key if row.was_other else None
            if is_below and row.slashes == slashes(self._typed):
                last = path, row
            elif is_below:
                self._fail(path, "it begins with a slash and --root does not, or the other way round")
        if last:
            yield last

    def _found(self, path: bytes, row: _Row) -> Optional[Found]:
        """Returns the object of a path, or None if it is a link or cannot be read."""
        fault = row.fault
        if row.was_other and row.was_directory:
            fault = "members of its path are a directory and something else, and programs may restore both"
        elif row.kind in ("l", _LATE):
            self._links += 1
            return None
        for is_group, number, name in ((False, row.uid, row.user), (True, row.gid, row.group)):
            if not fault and accounts.is_name(name) and not self._names.fits(is_group, number, name):
                word = "group" if is_group else "owner"
                fault = f"its {word} {quoted_path(name)} has the id {number}, and elsewhere in the archive it is other"
        if fault:
            self._fail(path, fault)
            return None
        stored, other = self._stored(row.headers, row.kind == "d", row.mode & 0o777)
        if other:
            self._others.add(path, other)
        return Found(path, row.kind, row.mode, row.uid, row.gid, stored)

    def _list(self, number: int, is_directory: bool, mode: int) -> Tuple[StoredList, Optional[str]]:
        """Returns the list of some headers, and the attribute of another list, which is not read."""
        found = self._gathered.headers(number) if number else {}
        return headers.read_headers(found, is_directory, mode, self._names), headers.another(found.keys())

    def _fail(self, path: bytes, message: str) -> None:
        self.errors += 1
        self._writer.add_error(self.tree, path, "read", message)
