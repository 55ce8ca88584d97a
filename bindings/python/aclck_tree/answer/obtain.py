"""Who could come to have what is asked: docs/reference/obtain.md has the rules, each with its source.

The library decides whom a list grants a right. This module only follows from it who could set a list, who could get
past a directory, and who could put another object at a path. Each person acts alone.
"""

from __future__ import annotations

import copy
from dataclasses import dataclass, replace
from typing import Dict, Hashable, Iterator, Optional, Tuple

from aclck import EXECUTE, READ_ACL, READ_ATTRIBUTES, READ_DATA, READ_NAMED_ATTRS, SYNCHRONIZE, WRITE_ACL

from aclck_tree.answer.ask import Answers, Asker, Outcome
from aclck_tree.answer.lists import AceType, Piece, RefusedList, joined, pieces
from aclck_tree.answer.reach import above_root, passers
from aclck_tree.answer.wants import Want, want_of
from aclck_tree.snapshot.names import Kept
from aclck_tree.snapshot.snapshot import Face, StoredForm, StoredList

USES_WHAT_IS_THERE = READ_DATA | READ_NAMED_ATTRS | EXECUTE | READ_ATTRIBUTES | READ_ACL | SYNCHRONIZE
"""The rights that somebody who puts another object at a path does not get over the object that was there."""

_STICKY = 0o1000

_OF_OBJECTS = (want_of("WRITE_ACL"), want_of("WRITE_OWNER"), want_of("WRITE_ACL|WRITE_OWNER", any_of=True),
               want_of("DELETE"))
"""What is asked of the NFSv4 list of each object."""

_OWNERS = {True: (StoredList(StoredForm.MODE, 0o200, None, None), want_of("w")),
           False: (StoredList(StoredForm.NFS4, 0, joined([Piece(0, 0, AceType.ALLOW, 0, WRITE_ACL, b"OWNER@")]), None),
                   want_of("WRITE_ACL"))}
"""A list that grants something to the owner alone, and what it grants: a POSIX ACL, and an NFSv4 list."""


@dataclass(frozen=True, eq=False)
class Place:
    """A directory, or other objects in one directory of which the same follows (`Rights.alike`).

    `above` is the directory that has them. `/` has none, and neither has an object whose directory the snapshot lacks.
    `face` is that of one of the objects. It is None if the owner, the group and the list are not known, and so is
    `is_sticky` for a directory above the root of a tree. The answers say who gets past the directories above by their
    lists (`passed`), who could get past them (`reached`), who could set the list (`controls`), and who could put
    another object at the path (`taken`). Places with the same answers have the same `number`.
    """

    above: Optional[Place]
    face: Optional[Face]
    is_directory: bool
    is_sticky: Optional[bool]
    passed: Answers
    reached: Answers
    controls: Answers
    taken: Answers
    number: int


class Rights:
    """Whom the lists of single objects let do what matters here. What a list that is not known answers is not known."""

    def __init__(self, asker: Asker) -> None:
        self._asker = asker
        self._setters: Dict[Face, Answers] = {}
        self._owners: Dict[Tuple[int, int, int, bool], Answers] = {}
        self._asked: Dict[Tuple[Face, str, bool], Answers] = {}
        self._allowed: Dict[Tuple[Face, str], Answers] = {}
        self._at_last: Dict[Tuple[int, int, int, int], Outcome] = {}
        self._roots: Dict[int, int] = {}

    def asked(self, face: Optional[Face], text: str, any_of: bool = False) -> Answers:
        """Returns whom a list grants some rights, or any of them."""
        if face is None:
            return self._asker.nobody_known
        key = face, text, any_of
        if key not in self._asked:
            self._ask(face, want_of(text, any_of))
        return self._asked[key]

    def _ask(self, face: Face, *wants: Want) -> None:
        for want, found in zip(wants, self._asker.answers_to(face, wants)):
            key = face, want.text, want.any
            self._asked[key] = found if isinstance(found, Answers) else self._asker.nobody_known

    def alike(self, face: Face) -> Hashable:
        """Returns what is equal for the faces of objects, which are no directories, if the same follows from it for all
        that are in one directory: also by which steps somebody comes to have a right. It is the face itself if its list
        is refused, or has special identifiers."""
        asked = self._asker.ready(face.list)
        if isinstance(asked, RefusedList) or asked.specials:
            return face
        if self.is_posix(face):
            return face.tree, self.owners(face)
        self._ask(face, *_OF_OBJECTS)
        return (face.tree, self.owners(face), *(self.asked(face, one.text, one.any) for one in _OF_OBJECTS),
                self._not_denied(face, "DELETE"))

    def roots(self, tree: int) -> int:
        """Returns who of the people has the id 0 in a tree."""
        if tree not in self._roots:
            self._roots[tree] = self._asker.roots(tree)
        return self._roots[tree]

    def is_posix(self, face: Face) -> bool:
        """Whether a list is a POSIX ACL or a mode."""
        return self._asker.stored[face.list].is_posix

    def owners(self, face: Face) -> Answers:
        """Returns who owns an object. The library decides that, by a list that grants its owner something."""
        key = face.tree, face.uid, face.gid, self.is_posix(face)
        if key not in self._owners:
            stored, want = _OWNERS[self.is_posix(face)]
            found = self._asker.answers(replace(face, list=self._asker.number_of(stored)), want)
            assert isinstance(found, Answers)
            self._owners[key] = found
        return self._owners[key]

    def setters(self, face: Optional[Face]) -> Answers:
        """Returns who may set a list, or may become the owner, who may set it."""
        if face is None:
            return self._asker.nobody_known
        if face not in self._setters:
            found = self.owners(face)
            if not self.is_posix(face):
                found = self._asker.either(found, self.asked(face, "WRITE_ACL|WRITE_OWNER", any_of=True))
            self._setters[face] = found
        return self._setters[face]

    def passers(self, face: Optional[Face]) -> Answers:
        """Returns whom a directory lets pass."""
        return passers(self._asker, face) if face else self._asker.nobody_known

    def makers(self, directory: Face, is_directory: bool) -> Answers:
        """Returns who may make a directory, or another object, in a directory with an NFSv4 list."""
        return self.asked(directory, "ADD_SUBDIRECTORY" if is_directory else "ADD_FILE")

    def deleters(self, face: Face) -> Answers:
        """Returns whom the list of an object lets remove it, if the directory has an NFSv4 list. A POSIX ACL has no
        such right."""
        return self._asker.nobody_granted if self.is_posix(face) else self.asked(face, "DELETE")

    def by_default(self, directory: Face, is_sticky: Optional[bool], face: Face) -> Answers:
        """Returns who may remove an object although no ACE allows or denies it: whoever may add files to the directory,
        if it does not have the sticky bit."""
        if is_sticky:
            return self._asker.nobody_granted
        found = self._asker.both(self._not_denied(directory, "DELETE_CHILD"), self._not_denied(face, "DELETE"))
        found = self._asker.both(found, self.asked(directory, "ADD_FILE"))
        return found if is_sticky is False else self._asker.both(found, self._asker.nobody_known)

    def _not_denied(self, face: Face, text: str) -> Answers:
        """Returns to whom no ACE denies a right: whom the list grants it if a last ACE allows it to everybody."""
        if self.is_posix(face):
            return self._asker.everybody_granted
        key = face, text
        if key not in self._allowed:
            self._allowed[key] = self._allowed_at_last(face, text)
        return self._allowed[key]

    def _allowed_at_last(self, face: Face, text: str) -> Answers:
        """Returns whom an NFSv4 list grants a right if a last ACE allows it to everybody. Only ACEs with the right
        decide about it (RFC 8881, section 6.2.1), and these are the same in many lists."""
        stored, want = self._asker.stored[face.list], want_of(text)
        if isinstance(self._asker.ready(face.list), RefusedList):
            return self._asker.nobody_known
        last = Piece(0, 0, AceType.ALLOW, 0, want.mask, b"EVERYONE@")
        deciding = [piece for piece in pieces(stored.access or b"") if piece.mask & want.mask]
        number = self._asker.number_of(replace(stored, access=joined([*deciding, last])))
        key = face.tree, face.uid, face.gid, number
        if key not in self._at_last:
            self._at_last[key] = self._asker.answers(replace(face, list=number), want)
        found = self._at_last[key]
        return found if isinstance(found, Answers) else self._asker.nobody_known

    def replacers(self, directory: Optional[Face], is_sticky: Optional[bool], face: Optional[Face],
                  is_directory: bool) -> Answers:
        """Returns whom the list of a directory, and that of an object in it, let put another object at its path."""
        asker = self._asker
        if directory is None:
            return asker.nobody_known
        if self.is_posix(directory):
            found = asker.nobody_granted if is_sticky else self.asked(directory, "wx")
            return found if is_sticky is not None else asker.both(found, asker.nobody_known)
        removers = self.asked(directory, "DELETE_CHILD")
        if face:
            removers = asker.either(removers, self.deleters(face))
            removers = asker.either(removers, self.by_default(directory, is_sticky, face))
        else:
            removers = asker.either(removers, asker.nobody_known)
        return asker.both(self.makers(directory, is_directory), removers)


_Key = Tuple[Optional[Place], Optional[Face], bool, Optional[bool]]


class Obtaining:
    """Follows from the lists of a snapshot who could come to have what is asked. With `is_reach`, the directories above
    an object count."""

    def __init__(self, asker: Asker, want: Want, is_reach: bool) -> None:
        self.rights = Rights(asker)
        self.is_reach = is_reach
        self.want = want
        self._asker = asker
        self._places: Dict[_Key, Place] = {}
        self._numbers: Dict[Tuple[Answers, ...], int] = {}
        self._kinds: Dict[Hashable, int] = {}
        self._alike = Kept(self._kind, len(asker.faces) + 1)
        known = asker.everybody_granted if not is_reach else asker.nobody_known
        self._lacking = Place(None, None, True, None, known, known, asker.nobody_known, asker.nobody_known, -1)

    def about(self, want: Want) -> Obtaining:
        """Returns the same about something else that is asked. Both have the same places."""
        other = copy.copy(self)
        other.want = want
        return other

    @property
    def counts_replaced(self) -> bool:
        """Whether somebody who puts another object at a path has what is asked."""
        want = self.want
        return bool(want.mask & ~USES_WHAT_IS_THERE) if want.any else not want.mask & USES_WHAT_IS_THERE

    def could(self, place: Place, own: Answers) -> Answers:
        """Returns who could come to have what is asked, of objects whose list grants it to some."""
        asker = self._asker
        found = asker.either(asker.both(place.reached, own), place.controls)
        return asker.either(found, place.taken) if self.counts_replaced else found

    def _kind(self, face: int) -> int:
        """Returns a number that is equal for the faces of objects, other than directories, that are alike."""
        return self._kinds.setdefault(self.rights.alike(self._asker.faces[face]), len(self._kinds))

    def objects(self) -> Iterator[Tuple[int, bytes, bool, int, int, Place]]:
        """Yields of each object the tree, the path below its root, whether it is a directory (1 or 0), the special bits
        of its mode, the face and the place, in the order of `Snapshot.objects`."""
        faces, alike, lacking = self._asker.faces, self._alike, self._lacking
        below: Dict[bytes, Place] = {}
        now: Optional[int] = None
        root: Optional[Place] = None
        others: Dict[Tuple[Optional[Place], int], Place] = {}
        for tree, path, is_directory, bits, face in self._asker.snapshot.objects(0o7000):
            if tree != now:
                now, below, root = tree, {}, self.above_tree(tree)
            above = below.get(path.rpartition(b"/")[0], lacking) if path else root
            if is_directory:
                place = below[path] = self._kept(above, faces[face], True, bool(bits & _STICKY))
            else:
                key = above, alike[face]
                place = others.get(key) or others.setdefault(key, self._kept(above, faces[face], False, False))
            yield tree, path, is_directory, bits, face, place

    def above_tree(self, tree: int) -> Optional[Place]:
        """Returns the directory that has the root of a tree, or None for `/`."""
        place: Optional[Place] = None
        for one in above_root(self._asker, tree):
            place = self._kept(place, one.face, True, None)
        return place

    def place_of(self, tree: int, path: bytes) -> Place:
        """Returns the place of one object of a snapshot."""
        place = self.above_tree(tree)
        ends = [at for at, byte in enumerate(path) if byte == ord("/")]
        for below in dict.fromkeys([b"", *(path[:at] for at in ends), path]):
            found = self._asker.snapshot.find(tree, below)
            place = self._kept(place, self._asker.faces[found[2]], found[0] == "d",
                               bool(found[1] & _STICKY)) if found else self._lacking
        assert place
        return place

    def _kept(self, above: Optional[Place], face: Optional[Face], is_directory: bool,
              is_sticky: Optional[bool]) -> Place:
        """Returns the place of an object in a directory. Equal places are one."""
        key = above, face, is_directory, is_sticky
        if key not in self._places:
            self._places[key] = self._made(*key)
        return self._places[key]

    def _made(self, above: Optional[Place], face: Optional[Face], is_directory: bool,
              is_sticky: Optional[bool]) -> Place:
        asker, rights = self._asker, self.rights
        passed = reached = asker.everybody_granted
        if above and self.is_reach:
            passes = rights.passers(above.face)
            passed = asker.both(above.passed, passes)
            reached = asker.both(above.reached, asker.either(passes, rights.setters(above.face)))
        taken = asker.nobody_granted
        if above:
            replacers = rights.replacers(above.face, above.is_sticky, face, is_directory)
            taken = asker.either(asker.either(above.taken, above.controls), asker.both(reached, replacers))
        controls = asker.both(reached, rights.setters(face))
        answers = passed, reached, controls, taken
        number = self._numbers.setdefault(answers, len(self._numbers))
        return Place(above, face, is_directory, is_sticky, *answers, number)
