"""Which objects of a snapshot a pattern or a path selects, and how many there are of each kind."""

from __future__ import annotations

import glob as globs
import itertools
import os
from dataclasses import replace
from typing import AnyStr, Dict, Iterable, Iterator, List, NamedTuple, Optional, Sequence, Tuple, TypeVar

from aclck_tree.output.errors import TreeError, UsageError
from aclck_tree.output.text import ObjectName, ObjectNamer, first_few, quoted, quoted_path, quoted_place
from aclck_tree.snapshot.globs import Matcher, PathPattern, judge_patterns, path_pattern
from aclck_tree.snapshot.snapshot import Snapshot, Tree


class Counted(NamedTuple):
    """How many objects have a face, and the name of the first."""

    objects: int
    first: ObjectName


_Key = TypeVar("_Key")


def count_by(snapshot: Snapshot, objects: Iterable[Tuple[_Key, int, bytes]]) -> Dict[_Key, Counted]:
    """Counts objects by a key. Each has its key, its tree and the path below the root, in the order of trees and
    paths."""
    places: Dict[_Key, int] = {}
    counts: List[int] = []
    firsts: List[ObjectName] = []
    naming = ObjectNamer(snapshot)
    for key, tree, path in objects:
        place = places.get(key)
        if place is None:
            places[key] = len(places)
            counts.append(1)
            firsts.append(naming.name(snapshot.trees[tree], path))
        else:
            counts[place] += 1
    return dict(zip(places, map(Counted, counts, firsts)))


def counted(snapshot: Snapshot, glob: Optional[str]) -> Dict[int, Counted]:
    """Counts the objects of each face. With a pattern, only objects whose whole path matches it count."""
    if glob is None:
        faces, naming = snapshot.faces(), ObjectNamer(snapshot)
        return {face: Counted(count, naming.name(snapshot.trees[faces[face].tree], first))
                for face, (count, first) in snapshot.face_counts().items()}
    return count_by(snapshot, ((face, tree, path) for tree, path, _, face in selected(snapshot, glob)))


class Paths:
    """A pattern for whole paths (globs.py), as the command line has it: it may be written as the path of a tree was
    typed for the scan, from `/`, or in the working directory. Raises UsageError if it is none."""

    def __init__(self, snapshot: Snapshot, glob: str) -> None:
        here = glob if os.path.isabs(glob) else os.path.join(globs.escape(os.getcwd()), glob)
        try:
            patterns = [_typed_pattern(one) for one in (glob, here)]
            judge_patterns(patterns)
        except ValueError as error:
            raise UsageError(f"--path {quoted(glob)}: {error}") from None
        self._matcher = Matcher(snapshot, patterns)

    def has(self, tree: int, path: bytes) -> bool:
        """Whether the pattern matches an object, which is given by its path below the root of a tree."""
        return bool(self._matcher.matched(tree, path))


def _typed_pattern(text: str) -> PathPattern:
    """Reads a pattern without its needless parts. Parts `..` in front of the others are those of a path that was typed.
    Raises ValueError, with the reason, if it is none."""
    parts = _normal(text).split("/")
    upwards = tuple(itertools.takewhile("..".__eq__, parts))
    rest = "/".join(parts[len(upwards):])
    found = PathPattern((), False) if rest in ("", ".") else path_pattern(rest)
    return found._replace(parts=upwards + found.parts)


def _normal(path: AnyStr) -> AnyStr:
    """Returns a path without needless parts. Two slashes in front are one, because here they mean nothing else."""
    found = os.path.normpath(path)
    return found[1:] if found[:2] in ("//", b"//") else found


def _whole(root: bytes, path: bytes) -> bytes:
    """Returns the path of an object, from that of the root, which begins with a slash, and the path below it."""
    return root.rstrip(b"/") + b"/" + path if path else root


def selected(snapshot: Snapshot, glob: Optional[str]) -> Iterator[Tuple[int, bytes, bool, int]]:
    """Yields of each object whose whole path matches a pattern the tree, the path below its root, whether it is a
    directory, and the face, in the order of trees and paths."""
    paths = None if glob is None else Paths(snapshot, glob)
    for tree, path, is_directory, _, face in snapshot.objects():
        if paths is None or paths.has(tree, path):
            yield tree, path, is_directory, face


def beginnings(snapshot: Snapshot) -> str:
    """Returns what the paths of a snapshot begin with, as they were typed for the scan and from `/`."""
    places = dict.fromkeys(place for tree in snapshot.trees.values() for place in (tree.root, tree.place))
    return f"the paths begin with {first_few(places, quoted_path)}"


def find(snapshot: Snapshot, path: str) -> Tuple[Tree, bytes, int]:
    """Finds an object by its path as the scan wrote it, from `/`, or below the root, after `HOST:` or not. Raises
    TreeError if there is none, or if the path names several objects, or one at several times."""
    found: List[Tuple[Tree, bytes, int]] = []
    for tree in snapshot.trees.values():
        rows = ((below, snapshot.find(tree.tree, below)) for below in _paths_below(tree, os.fsencode(path)))
        found += next(([(tree, below, row[2])] for below, row in rows if row), [])
    if not found:
        raise TreeError(f"{quoted(path)}: not in the snapshot")
    places = {(tree.host, _whole(_normal(tree.place), below)) for tree, below, _ in found}
    if len(places) > 1:
        names = first_few(sorted(places), lambda one: quoted_place(*one))
        raise TreeError(f"{quoted(path)}: this path is in several trees: {names}")
    if len({tree.place for tree, _, _ in found}) < len(found) or not _are_alike(snapshot, found):
        raise TreeError(f"{quoted(path)}: the snapshot has it at several times")
    return found[0]


def _are_alike(snapshot: Snapshot, found: Sequence[Tuple[Tree, bytes, int]]) -> bool:
    """Whether objects have the same owner, group and list."""
    faces = snapshot.faces() if len(found) > 1 else {}
    return len(found) == 1 or len({replace(faces[face], face=0, tree=0) for _, _, face in found}) == 1


def _paths_below(tree: Tree, path: bytes) -> List[bytes]:
    """Returns the paths below the root of a tree that a path may mean."""
    host = os.fsencode(tree.host) + b":"
    found: List[Optional[bytes]] = []
    for one in [path, path[len(host):]] if path.startswith(host) else [path]:
        typed = _normal(one)
        found += [_below(_normal(tree.root), typed), _below(_normal(tree.place), _normal(os.path.abspath(typed)))]
    return [below for below in found if below is not None]


def _below(root: bytes, path: bytes) -> Optional[bytes]:
    """Returns the path below a root, or None if the path is not there. Both are in normal form."""
    if path == root:
        return b""
    if root == b".":
        return path
    prefix = root.rstrip(b"/") + b"/"
    return path[len(prefix):] if path.startswith(prefix) else None
