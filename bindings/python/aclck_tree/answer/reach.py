"""Who gets past the directories above an object: each directory from `/` down must grant EXECUTE (x). A user with the
id 0 gets past each directory with a POSIX ACL or a mode, as on Linux (capabilities(7), CAP_DAC_READ_SEARCH)."""

from __future__ import annotations

import functools
from typing import Callable, Dict, Iterator, List, NamedTuple, Optional, Sequence, Tuple

from aclck import PosixAcl

from aclck_tree.answer.ask import DENIED, GRANTED, UNKNOWN, Answers, Asker
from aclck_tree.answer.lists import RefusedList
from aclck_tree.answer.reasons import Why, why
from aclck_tree.answer.wants import want_of
from aclck_tree.output.text import first_few, plural, quoted, quoted_line, quoted_path, tell
from aclck_tree.people.people import Person
from aclck_tree.snapshot.snapshot import Face, Tree

_NOT_ASKED = "the directories above the root were not asked when it was scanned"

AS_ROOT = "it gets past each directory with a POSIX ACL or a mode"
"""What is said of root."""


@functools.lru_cache(maxsize=None)
def _search() -> PosixAcl:
    """Returns a list that lets everybody pass, and grants nothing else."""
    return PosixAcl.from_mode(0o111)


class AboveRoot(NamedTuple):
    """A directory above the root of a tree: its path from `/`, and its owner, its group and its list, or the reason why
    these are not known."""

    path: bytes
    face: Optional[Face]
    message: str


def above_root(asker: Asker, tree: int) -> List[AboveRoot]:
    """Returns the directories above the root of a tree, from `/` down. If the scan did not ask them, `/` stands for all
    of them, and is not known."""
    found: List[AboveRoot] = []
    held = asker.snapshot.above(tree)
    if held is None:
        return [AboveRoot(b"/", None, _NOT_ASKED)]
    for one in held:
        number = asker.number_of(one.stored) if one.stored else 0
        face = Face(number, tree, one.uid, one.gid, number) if one.stored else None
        found.append(AboveRoot(one.path, face, one.message))
    return found


def reached(asker: Asker, is_selected: Optional[Callable[[int, bytes], bool]] = None,
            ) -> Iterator[Tuple[int, bytes, int, Answers]]:
    """Yields the tree, the path below its root and the face of each object, and who gets past the directories above,
    in the order of `Snapshot.objects`. `is_selected` takes the tree and the path, and says which objects are yielded.

    A directory that the snapshot lacks, or whose list is refused, makes the answers below it unknown. One answer is
    kept for each directory of one tree.
    """
    through: Dict[int, Answers] = {}
    below: Dict[bytes, Answers] = {}
    now: Optional[int] = None
    root = asker.everybody_granted
    for tree, path, is_directory, _, face in asker.snapshot.objects():
        if tree != now:
            now, below, root = tree, {}, _to_root(asker, tree)
        above = below.get(path.rpartition(b"/")[0], asker.nobody_known) if path else root
        if is_directory:
            if face not in through:
                through[face] = passers(asker, asker.faces[face])
            below[path] = asker.both(above, through[face])
        if is_selected is None or is_selected(tree, path):
            yield tree, path, face, above


def _to_root(asker: Asker, tree: int) -> Answers:
    """Returns who gets past the directories above the root of a tree. Of nobody it is known if the scan did not ask
    them."""
    found = asker.everybody_granted
    for one in above_root(asker, tree):
        found = asker.both(found, passers(asker, one.face) if one.face else asker.nobody_known)
    return found


def passers(asker: Asker, face: Face) -> Answers:
    """Returns whom a directory lets pass: also those whose ids are not known, if its POSIX ACL lets everybody pass."""
    asked = asker.ready(face.list)
    if isinstance(asked, RefusedList):
        return asker.nobody_known
    if asked.posix and _search().at_most(asked.posix):
        return asker.everybody_granted
    found = asker.answers(face, want_of("x"))
    assert not isinstance(found, RefusedList)
    return asker.granted_too(found, asker.roots(face.tree)) if asked.posix else found


def tell_above(asker: Asker, trees: Optional[Sequence[int]] = None) -> bool:
    """Reports on standard error which directories above the roots of some trees, or of all, are not known, and for how
    many of these trees the scan did not ask them. Returns whether there are such directories or trees."""
    found = [asker.snapshot.above(tree) for tree in trees or asker.snapshot.trees]
    unread = dict.fromkeys((one.path, one.message) for rows in found for one in rows or () if one.message)
    shown = [f"{quoted_path(path)} ({quoted_line(message)})" for path, message in unread]
    if shown:
        tell(f"{quoted(asker.snapshot.place)}: above the tree, it is not known who gets past {first_few(shown, str)}")
    if None in found:
        of_some = f" of {plural(found.count(None), 'tree')}" if len(found) > 1 else ""
        tell(f"{quoted(asker.snapshot.place)}: the directories above the root{of_some} were not asked when it was "
             "scanned")
    return bool(shown) or None in found


def stopped(asker: Asker, tree: Tree, path: bytes, person: Person) -> Tuple[Optional[Tuple[bytes, Why]], bool]:
    """Returns the first directory from `/` down that does not let the only one of the people pass, and what decides
    that there: one that denies it, or else one of which it is not known. Returns also whether the person gets past
    another one only as root."""
    unsure: Optional[Tuple[bytes, Why]] = None
    is_root = False
    for one in _directories(asker, tree, path):
        found = why(asker, one.face, person) if one.face else RefusedList(one.message)
        deciding = Why("EXECUTE", UNKNOWN, None, found.reason) if isinstance(found, RefusedList) else next(
            row for row in found if row.right in ("EXECUTE", "x"))
        if one.face and passers(asker, one.face).of(0) is GRANTED:
            is_root = is_root or deciding.answer is DENIED
        elif deciding.answer is DENIED:
            return (one.path, deciding), is_root
        elif deciding.answer is UNKNOWN and not unsure:
            unsure = one.path, deciding
    return unsure, is_root


def _directories(asker: Asker, tree: Tree, path: bytes) -> Iterator[AboveRoot]:
    """Yields the directories above an object, from `/` down."""
    yield from above_root(asker, tree.tree)
    ends = [at for at, byte in enumerate(path) if byte == ord("/")]
    for below in [path[:at] for at in [0, *ends]] if path else []:
        known = asker.snapshot.find(tree.tree, below)
        yield AboveRoot(tree.full(below), asker.faces[known[2]] if known else None,
                        "" if known else "not in the snapshot")


def root_note(asker: Asker) -> str:
    """Returns that root is counted as root, if one of the people has the id 0 in a tree with POSIX ACLs."""
    trees = {face.tree for face in asker.faces.values() if asker.stored[face.list].is_posix}
    trees.update(tree for tree in asker.snapshot.trees for one in asker.snapshot.above(tree) or ()
                 if one.stored and one.stored.is_posix)
    return f"; root is counted as root: {AS_ROOT}" if any(map(asker.roots, trees)) else ""
