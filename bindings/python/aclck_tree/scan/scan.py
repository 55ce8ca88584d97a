"""Walks trees once and keeps what it finds in a snapshot. Nothing is written to a tree, and if the system permits it,
times of access do not change either."""

from __future__ import annotations

import datetime
import os
import time
from concurrent.futures import FIRST_COMPLETED, Future, ThreadPoolExecutor, wait
from typing import Iterator, List, Optional, Set

from aclck_tree import VERSION
from aclck_tree.output.errors import TreeError
from aclck_tree.output.text import quoted_path
from aclck_tree.people import accounts
from aclck_tree.scan.above import read_above
from aclck_tree.scan.handles import Directory
from aclck_tree.scan.progress import Progress
from aclck_tree.scan.reader import Check, Listing, Reader, Result, ScanOptions, Task, reason_of
from aclck_tree.snapshot import others
from aclck_tree.snapshot.portions import MIXED
from aclck_tree.snapshot.snapshot import TIME, Account, Tree
from aclck_tree.snapshot.writer import Writer

SLOW = 0.0002
"""Seconds per object from which on objects are read side by side; a local file system is faster without threads."""

PATH, ROOM = 1 << 14, 1 << 20
"""How many bytes of paths a snapshot has room for: so many for each object, and so many more. Otherwise directories
within directories, each with a long name, would make a snapshot that grows with the square of their number."""

LONG = f"something below is left out: its paths have more than {PATH:,} bytes for each object, and {ROOM:,} more"

_AT_ONCE = 100
"""How many directories are looked at again in one task."""


def _is_another(place: bytes, root: Directory) -> bool:
    """Whether an object that can be read at a place is not the root that was opened, such as behind a link that was
    exchanged in the meantime: the snapshot would say that the tree is there."""
    try:
        status = os.stat(place)
    except OSError:
        return False
    return (status.st_dev, status.st_ino) != root.identity


def utc_now() -> str:
    """Returns the time as a snapshot has it."""
    return datetime.datetime.now(datetime.timezone.utc).strftime(TIME)


class Scan:
    """The scan of one tree, or of a shard of it, into a snapshot."""

    def __init__(self, root: bytes, options: ScanOptions, writer: Writer, progress: Progress) -> None:
        """Raises TreeError if the root is not a file or directory that can be read."""
        try:
            self._reader = Reader(root, options)
        except OSError as error:
            raise TreeError(f"{os.fsdecode(root)}: {reason_of(error)}") from None
        self._options = options
        self._writer = writer
        self._progress = progress
        self._tasks: List[Task] = []
        self._links = 0
        self._listed: List[Directory] = []
        self._room = ROOM
        self._left_out: Optional[bytes] = None  # the first path that the snapshot has no room for
        self._others = others.Others()
        self.errors = 0
        typed, self._place = os.path.normpath(root), os.path.realpath(root)
        if _is_another(self._place, self._reader.root):
            self._reader.close()
            raise TreeError(f"{quoted_path(root)}: it leads to another place now")
        self.tree = writer.add_tree(Tree(0, options.host, typed, self._place, utc_now(), None, False, VERSION, 0))
        if self._is_portion():
            writer.add_portion(self.tree, options.portion())

    def names(self) -> Iterator[Account]:
        """Yields the accounts of this host."""
        return accounts.names(self._writer, self.tree)

    def _is_portion(self) -> bool:
        """Whether it reads only a portion of the tree."""
        return self._options.shards > 0

    def run(self) -> None:
        """Walks the tree. If Ctrl-C ends it early, what was found until then is kept, and is not marked as whole."""
        whole = False
        try:
            self._writer.add_above(self.tree, read_above(self._place, self._reader.root.identity, self._options))
            self._begin()
            self._walk()
            self._tasks = [Check(self._listed[at:at + _AT_ONCE]) for at in range(0, len(self._listed), _AT_ONCE)]
            self._tasks.reverse()  # they are done last first
            self._walk()
            whole = True
            for path in self._reader.mixed():
                self._fail(path, "read", MIXED)
        finally:
            self._reader.close()
            if self._left_out:
                self.errors += 1
                self._writer.add_error(self.tree, self._left_out[:PATH].rpartition(b"/")[0], "list", LONG)
            for path, message in self._others.messages():
                self._writer.add_error(self.tree, path, "read", message)
            self._writer.end_tree(self.tree, utc_now(), whole, self._links)
            if self._is_portion():
                self._writer.add_devices(self.tree, self._reader.devices())

    def _begin(self) -> None:
        self._keep(self._reader.read_root())

    def _next(self) -> Optional[Task]:
        """Returns the next task, or None if there is none now."""
        return self._tasks.pop() if self._tasks else None

    def _walk(self) -> None:
        done, began = 0, time.monotonic()
        while True:
            task = self._next()
            if task is None:
                break
            before = self._writer.objects
            self._keep(self._reader.run(task))
            done += max(1, self._writer.objects - before)
            now = time.monotonic()
            if done >= 64:
                if (now - began) / done > SLOW and self._options.threads > 1:
                    self._walk_side_by_side()
                done, began = 0, time.monotonic()

    def _walk_side_by_side(self) -> None:
        running: Set[Future[Result]] = set()
        with ThreadPoolExecutor(self._options.threads) as pool:
            try:
                while True:
                    task = self._next() if len(running) < 2 * self._options.threads else None
                    if task is not None:
                        running.add(pool.submit(self._reader.run, task))
                        continue
                    if not running:
                        break
                    finished, running = wait(running, return_when=FIRST_COMPLETED)
                    for future in finished:
                        self._keep(future.result())
            finally:
                for future in running:
                    future.cancel()

    def _keep(self, result: Result) -> None:
        found = [one for one in result.found if self._has_room(one.path)]
        if len(found) < len(result.found):
            self._leave_out(result, {one.path for one in found})
        self._writer.add_objects(self.tree, found)
        for path, step, message in result.errors:
            self._fail(path, step, message)
        for path, name in result.others:
            self._others.add(path, name)
        self._listed += [result.listed] if result.listed else []
        self._links += result.links
        self._tasks += result.tasks
        self._progress.tell()

    def _has_room(self, path: bytes) -> bool:
        """Whether the snapshot has room for one more path. A path of at most `PATH` bytes always has some."""
        if len(path) > self._room + PATH:
            return False
        self._room += PATH - len(path)
        return True

    def _leave_out(self, result: Result, kept: Set[bytes]) -> None:
        """Leaves out the objects of a result that are not kept, and what is below them."""
        absent = [one.path for one in result.found if one.path not in kept]
        self._left_out = self._left_out or absent[0]
        below = set(absent)
        result.tasks = [task for task in result.tasks
                        if not isinstance(task, Listing) or task.start or task.directory.path() not in below]

    def _fail(self, path: bytes, step: str, message: str) -> None:
        self.errors += 1
        if self._has_room(path):
            self._writer.add_error(self.tree, path, step, message)
        else:
            self._left_out = self._left_out or path
