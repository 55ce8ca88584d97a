"""Two snapshots joined: which trees are one tree at two times, and which objects are gone, came or stayed, and in what
states."""

from __future__ import annotations

import bisect
import os
from typing import Callable, Dict, Hashable, Iterable, Iterator, List, NamedTuple, Optional, Sequence, Tuple

from aclck_tree.output.errors import UsageError
from aclck_tree.output.text import quoted
from aclck_tree.snapshot import others
from aclck_tree.snapshot.snapshot import Snapshot, Tree


Pair = Tuple[int, int]
"""The numbers of a tree in the older and in the newer snapshot."""

_KEYS: Sequence[Callable[[Tree], Hashable]] = (lambda tree: (tree.host, tree.place), lambda tree: tree.place)
"""By what trees are paired: by host and path, and then by path."""


def pair_trees(old: Snapshot, new: Snapshot, given: Sequence[str] = ()) -> List[Pair]:
    """Returns the pairs of trees that are one tree at two times: first those that `given` names, as `OLD=NEW`, then
    those with the same host and path, then those with the same path; or the only tree of each. A host and path, or
    a path, that two trees of one snapshot have pairs none of them.

    Raises UsageError if a given pair names no tree, more than one, or one that another pair has.
    """
    pairs = [_given(old, new, words) for words in given]
    if any(len({pair[side] for pair in pairs}) < len(pairs) for side in (0, 1)):
        raise UsageError("--pair names a tree twice")
    if not pairs and len(old.trees) == len(new.trees) == 1:
        return [(next(iter(old.trees)), next(iter(new.trees)))]
    for key in _KEYS:
        olds, news = {pair[0] for pair in pairs}, {pair[1] for pair in pairs}
        before, after = (_unique((tree for number, tree in snapshot.trees.items() if number not in paired), key)
                         for snapshot, paired in ((old, olds), (new, news)))
        pairs += [(number, after[found]) for found, number in before.items() if found in after]
    return pairs


def _unique(trees: Iterable[Tree], key: Callable[[Tree], Hashable]) -> Dict[Hashable, int]:
    """Returns the numbers of the trees by their keys, without keys that several trees have."""
    found: Dict[Hashable, List[int]] = {}
    for tree in trees:
        found.setdefault(key(tree), []).append(tree.tree)
    return {one: numbers[0] for one, numbers in found.items() if len(numbers) == 1}


def _given(old: Snapshot, new: Snapshot, words: str) -> Pair:
    """Reads `OLD=NEW`. A name may have the sign `=` in it, so each way to divide the words is tried."""
    parts = words.split("=")
    found = [(one, two) for at in range(1, len(parts))
             for one in _trees(old, "=".join(parts[:at])) for two in _trees(new, "=".join(parts[at:]))]
    if len(found) != 1:
        reason = "names more than one pair of trees; write HOST:PATH" if found else "names no pair of trees"
        raise UsageError(f"--pair {quoted(words)} {reason}")
    return found[0]


def _trees(snapshot: Snapshot, word: str) -> List[int]:
    """Returns the trees that a word names: by place or as it was typed at the scan, after `HOST:` or not."""
    wanted = os.fsencode(word).rstrip(b"/") or b"/"
    return [number for number, tree in snapshot.trees.items()
            if wanted in {head + name for head in (b"", os.fsencode(tree.host) + b":")
                          for name in (tree.place, tree.root.rstrip(b"/") or b"/")}]


class State(NamedTuple):
    """What decides about an object: its face, whether it is a directory, and the special bits of its mode."""

    face: int
    is_directory: bool
    bits: int


class StateGroup(NamedTuple):
    """Objects of a tree that have the same state in the earlier and in the later snapshot, with the path of the first.
    The state is None in a snapshot that lacks them. The tree is one of the later snapshot if that has them. If the scan
    that lacks them could not read them, nobody knows whether they were there (`is_unread`)."""

    tree: int
    path: bytes
    objects: int
    old: Optional[State]
    new: Optional[State]
    is_unread: bool = False


class _Unread:
    """What the scans of a snapshot may not have read: what is at a path where something failed or below it, and
    everything that is absent from a tree that is not whole."""

    def __init__(self, snapshot: Snapshot) -> None:
        self._failed: Dict[int, List[bytes]] = {}
        failed = ((tree, path.replace(b"/", b"\0")) for tree, path, _, message in snapshot.errors()
                  if not others.is_other(message))  # of such an object the snapshot has all but another list
        for tree, path in sorted(failed):
            held = self._failed.setdefault(tree, [])
            if not held or not _is_in(path, held[-1]):
                held.append(path)
        self._partial = {number for number, tree in snapshot.trees.items() if not tree.whole}

    def has(self, tree: int, path: bytes) -> bool:
        """Whether an object may be absent from a tree only because it was not read."""
        failed = self._failed.get(tree)
        if tree in self._partial or not failed:
            return tree in self._partial
        path = path.replace(b"/", b"\0")
        at = bisect.bisect_right(failed, path)
        return at > 0 and _is_in(path, failed[at - 1])


def _is_in(path: bytes, above: bytes) -> bool:
    """Whether a path is another one or below it. Both have zero bytes between their parts: so in a sorted list, what is
    below a path comes right behind it."""
    return not above or path == above or path.startswith(above + b"\0")


Selection = Callable[[int, bytes], bool]
"""Whether an object is selected, by its tree and its path below the root."""


class Joined:
    """Two snapshots to compare. Objects with the same path are the same object if they are of the same kind, too."""

    _OLD = "o.tree AS old_tree, o.face AS old_face, o.kind = 'd' AS old_is_directory, o.mode & 3584 AS old_bits"
    _NEW = "n.tree AS new_tree, n.face AS new_face, n.kind = 'd' AS new_is_directory, n.mode & 3584 AS new_bits"
    _NO_OLD = "NULL AS old_tree, NULL AS old_face, NULL AS old_is_directory, NULL AS old_bits"
    _OTHER = (f"CREATE TEMP TABLE other AS SELECT o.path AS path, {_OLD}, {_NEW}, n.kind = o.kind AS are_same "
              "FROM main.objects o INDEXED BY objects_by_path LEFT JOIN pairs ON o.tree = pairs.old "
              "LEFT JOIN later.objects n ON n.tree = pairs.new AND n.path = o.path "
              "LEFT JOIN alike ON alike.old = o.face "
              "WHERE %s (new_face = alike.new AND are_same AND new_bits = old_bits) IS NOT TRUE")
    _GONE = "SELECT *, not_read_later(old_tree, path) AS is_unread FROM other WHERE new_tree IS NULL"
    _CAME = (f"SELECT n.path AS path, {_NO_OLD}, {_NEW}, 0 AS are_same, not_read_earlier(n.tree, n.path) AS is_unread "
             "FROM later.objects n INDEXED BY objects_by_path LEFT JOIN pairs ON n.tree = pairs.new "
             "WHERE %s NOT EXISTS (SELECT 1 FROM main.objects o WHERE o.tree = pairs.old AND o.path = n.path)")
    _BOTH = "SELECT *, 0 AS is_unread FROM other WHERE new_tree IS NOT NULL"
    _COLUMNS = ("old_tree, old_face, old_is_directory, old_bits, new_tree, new_face, new_is_directory, new_bits, "
                "are_same, is_unread")

    def __init__(self, old: Snapshot, new: Snapshot, pairs: Sequence[Pair], alike: Iterable[Tuple[int, int]],
                 selections: Optional[Tuple[Selection, Selection]] = None) -> None:
        """`pairs` are the trees of both snapshots that are one tree at two times. Objects with faces that are `alike`
        have not changed if nothing else of their states has. Their number is `unchanged`. Only the objects count that
        the selection of one of the snapshots has."""
        self._db = db = old.attach(new)
        self._add_functions(old, new, pairs, selections)
        db.execute("CREATE TEMP TABLE pairs (old INTEGER PRIMARY KEY, new INTEGER UNIQUE)")
        db.executemany("INSERT INTO pairs VALUES (?, ?)", pairs)
        db.execute("CREATE TEMP TABLE alike (old INTEGER PRIMARY KEY, new INTEGER)")
        db.executemany("INSERT INTO alike VALUES (?, ?)", alike)
        self._is_selected = ("is_old(o.tree, o.path) AND", "is_new(n.tree, n.path) AND") if selections else ("", "")
        db.execute(self._OTHER % self._is_selected[0])
        (other, in_both), = db.execute("SELECT COUNT(*), COUNT(new_tree) FROM other")
        count = old.count
        if selections:
            (count,), = db.execute("SELECT COUNT(*) FROM main.objects o WHERE is_old(o.tree, o.path)")
        self.unchanged = count - other
        self._have_come = bool(selections) or new.count > self.unchanged + in_both

    def _add_functions(self, old: Snapshot, new: Snapshot, pairs: Sequence[Pair],
                       selections: Optional[Tuple[Selection, Selection]]) -> None:
        """Gives SQL the functions of its queries: `is_old` and `is_new` say whether an object is selected, given its
        tree in the earlier or in the later snapshot, and the others whether the other snapshot may lack it only because
        it was not read."""
        later, earlier = dict(pairs), {after: before for before, after in pairs}
        unread, unread_before = _Unread(new), _Unread(old)

        def is_old(tree: int, path: bytes) -> bool:
            return not selections or selections[0](tree, path) or tree in later and selections[1](later[tree], path)

        def is_new(tree: int, path: bytes) -> bool:
            return not selections or selections[1](tree, path) or tree in earlier and selections[0](earlier[tree], path)

        def not_read_later(tree: int, path: bytes) -> bool:
            return tree in later and unread.has(later[tree], path)

        def not_read_earlier(tree: int, path: bytes) -> bool:
            return tree in earlier and unread_before.has(earlier[tree], path)
        for function in (is_old, is_new, not_read_later, not_read_earlier):
            self._db.create_function(function.__name__, 2, function)

    def changes(self, each: bool) -> Iterator[StateGroup]:
        """Yields the objects that the later snapshot lacks, those that the earlier one lacks, and those of both that
        may have changed: with `each` one by one in the order of trees and paths, and otherwise those with the same
        states together. Two objects of different kinds come as one that the later snapshot lacks and one that the
        earlier one lacks."""
        came = self._CAME % self._is_selected[1]
        for query in (self._GONE, *([came] if self._have_come else []), self._BOTH):
            if each:
                rows = self._db.execute(f"SELECT path, {self._COLUMNS}, 1 FROM ({query}) "
                                        "ORDER BY old_tree, new_tree, path")
            else:
                rows = self._db.execute(f"SELECT MIN(path), {self._COLUMNS}, COUNT(*) FROM ({query}) "
                                        f"GROUP BY {self._COLUMNS}")
            for path, *both, are_same, is_unread, objects in rows:
                old, new = (None if side[0] is None else State(side[1], bool(side[2]), side[3])
                            for side in (both[:4], both[4:]))
                if are_same:
                    yield StateGroup(both[4], path, objects, old, new)
                    continue
                if old:
                    yield StateGroup(both[0], path, objects, old, None, bool(is_unread))
                if new:
                    yield StateGroup(both[4], path, objects, None, new, bool(is_unread))
