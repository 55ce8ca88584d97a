"""What `who` and `may` ask about the objects of a snapshot, and the line that counts the answers."""

from __future__ import annotations

from collections import Counter
from typing import Dict, Hashable, Iterable, Iterator, List, NamedTuple, Optional, Set, Tuple

from aclck import mask_text

from aclck_tree.answer.ask import DENIED, GRANTED, UNKNOWN, Answer, Answers, AskOptions, Asker, Outcome
from aclck_tree.answer.bits import ones
from aclck_tree.answer.commands import Tally
from aclck_tree.answer.lists import AskableList, Kind, RefusedList
from aclck_tree.answer.obtain import Obtaining, Place
from aclck_tree.answer.reach import reached, root_note
from aclck_tree.answer.steps import Stepping
from aclck_tree.answer.wants import Want
from aclck_tree.output.text import ObjectName, ObjectNamer, plural, quoted
from aclck_tree.snapshot.names import Kept
from aclck_tree.snapshot.selecting import Counted, Paths, beginnings, count_by, counted, selected


def left_out(asker: Asker, faces: Iterable[int]) -> str:
    """Reports how many AUDIT and ALARM ACEs were left out of the lists of some faces, if there are any."""
    asked = [asker.ready(number) for number in {asker.faces[face].list for face in faces}]
    numbers = [one.left_out for one in asked if isinstance(one, AskableList) and one.left_out]
    if not numbers:
        return ""
    return f"; {plural(sum(numbers), 'AUDIT or ALARM ACE')} left out of {plural(len(numbers), 'list')}"


class Basis(NamedTuple):
    """What the answer about an object depends on: its face, with --reach who gets past the directories above, and with
    --obtain its place."""

    face: int
    above: Optional[Answers]
    place: Optional[Place] = None


class ObjectsQuestion:
    """What `who` and `may` ask about the objects of a snapshot that a pattern selects."""

    def __init__(self, asker: Asker, want: Want, glob: Optional[str], is_reach: bool, obtains: bool = False) -> None:
        self.asker = asker
        self.want = want
        self.glob = glob
        self.is_reach = is_reach
        self.obtaining = Obtaining(asker, want, is_reach) if obtains else None
        self._stepping = self.obtaining and Stepping(asker, self.obtaining)
        self.naming = ObjectNamer(asker.snapshot)
        self._own: Dict[int, Outcome] = {}
        self._answered: Dict[Hashable, int] = {}
        self.alike = Kept(self._alike, len(asker.faces) + 1)

    def _objects(self) -> Iterator[Tuple[int, bytes, int, Optional[Answers], Optional[Place]]]:
        """Returns the tree, the path below its root and the face of each object, with --reach who gets past the
        directories above, and with --obtain its place."""
        snapshot = self.asker.snapshot
        has = None if self.glob is None else Paths(snapshot, self.glob).has
        if self.obtaining:
            return ((tree, path, face, place.passed if self.is_reach else None, place)
                    for tree, path, _, _, face, place in self.obtaining.objects() if has is None or has(tree, path))
        if self.is_reach:
            return ((*one, None) for one in reached(self.asker, has))
        return ((tree, path, face, None, None) for tree, path, _, face in selected(snapshot, self.glob))

    def objects(self) -> Iterator[Tuple[ObjectName, Basis]]:
        """Yields the name of each object, and what the answer about it depends on."""
        trees = self.asker.snapshot.trees
        for tree, path, face, above, place in self._objects():
            yield self.naming.name(trees[tree], path), Basis(face, above, place)

    def counts(self) -> Dict[Basis, Counted]:
        """Counts the objects about which the answer depends on the same. With --obtain, these are all about which the
        same is answered, and have the basis of the first of them."""
        snapshot = self.asker.snapshot
        if self.obtaining:
            return self._counts_of_places(self.obtaining)
        if not self.is_reach:
            return {Basis(face, None): one for face, one in counted(snapshot, self.glob).items()}
        keys = (((face, above, place), tree, path) for tree, path, face, above, place in self._objects())
        return {Basis(*key): one for key, one in count_by(snapshot, keys).items()}

    def _counts_of_places(self, obtaining: Obtaining) -> Dict[Basis, Counted]:
        bases: Dict[Tuple[int, int], Basis] = {}
        counts = count_by(self.asker.snapshot, self._keys(obtaining, bases))
        return {bases[key]: one for key, one in counts.items()}

    def _keys(self, obtaining: Obtaining,
              bases: Dict[Tuple[int, int], Basis]) -> Iterator[Tuple[Tuple[int, int], int, bytes]]:
        """Yields of each object what is equal for all about which the same is answered, its tree and its path. Keeps
        the basis of the first object for each key."""
        alike, has = self.alike, None if self.glob is None else Paths(self.asker.snapshot, self.glob).has
        for tree, path, _, _, face, place in obtaining.objects():
            if has is None or has(tree, path):
                key = place.number, alike[face]
                if key not in bases:
                    bases[key] = Basis(face, place.passed if self.is_reach else None, place)
                yield key, tree, path

    def _alike(self, face: int) -> int:
        """Returns a number that is equal for faces about whose objects the same is answered, if their places have the
        same number."""
        own, asked = self.own(face), self.asker.ready(self.asker.faces[face].list)
        is_alone = isinstance(own, RefusedList) or isinstance(asked, RefusedList) or asked.specials
        key = face if is_alone else (self.asker.faces[face].tree, own)
        return self._answered.setdefault(key, len(self._answered))

    def _faces(self, counts: Iterable[Basis]) -> Set[int]:
        """Returns the faces of the objects that were counted."""
        return set(self.alike) if self.obtaining else {basis.face for basis in counts}

    def own(self, face: int) -> Outcome:
        """Returns whom the list of a face grants what is asked."""
        if face not in self._own:
            self._own[face] = self.asker.answers(self.asker.faces[face], self.want)
        return self._own[face]

    def found(self, basis: Basis) -> Outcome:
        """Returns whom what is asked is granted: by the list, and with --reach by the directories above too."""
        own = self.own(basis.face)
        if isinstance(own, RefusedList) or basis.above is None:
            return own
        return self.asker.both(own, basis.above)

    def shares(self, basis: Basis, found: Answers) -> List[Tuple[Answer, int]]:
        """Returns the answers about an object, each with the people whose answer it is."""
        could = self._could(basis, found)
        return [(GRANTED, found.granted), (Answer.OBTAINABLE, could.granted & ~found.granted), (DENIED, could.denied),
                (UNKNOWN, could.unknown & ~found.granted)]

    def _could(self, basis: Basis, found: Answers) -> Answers:
        """Returns who could come to have what is asked, or without --obtain who has it."""
        own = self.own(basis.face)
        if not self.obtaining or not basis.place or isinstance(own, RefusedList):
            return found
        return self.obtaining.could(basis.place, own)

    def steps(self, name: ObjectName, basis: Basis) -> List[str]:
        """Returns in words by which steps people could come to have what is asked of an object."""
        found, own = self.found(basis), self.own(basis.face)
        if not self._stepping or not basis.place or isinstance(found, RefusedList) or isinstance(own, RefusedList):
            return []
        people = self._could(basis, found).granted & ~found.granted
        return self._stepping.words(basis.place, own, people, name) if people else []

    def reason(self, basis: Basis) -> str:
        """Returns what the unknown answers about an object depend on."""
        if self.obtaining and basis.place:
            return self._obtain_reason(self.obtaining, basis, basis.place)
        found, own, asked = self.found(basis), self.own(basis.face), self.asker.ready(self._list(basis))
        if isinstance(found, RefusedList) or isinstance(own, RefusedList) or isinstance(asked, RefusedList):
            return ""
        parts = [quoted(name) for name, _ in sorted(asked.specials)] if found.unknown & own.unknown else []
        return " ".join(parts + (["directories above"] if basis.above and found.unknown & basis.above.unknown else []))

    def _obtain_reason(self, obtaining: Obtaining, basis: Basis, place: Place) -> str:
        """Returns what it depends on who could come to have what is asked."""
        own, asked = self.own(basis.face), self.asker.ready(self._list(basis))
        if isinstance(own, RefusedList) or isinstance(asked, RefusedList):
            return ""
        unknown = obtaining.could(place, own).unknown
        of_list = unknown & (own.unknown | obtaining.rights.setters(place.face).unknown)
        above = place.reached.unknown | (place.taken.unknown if obtaining.counts_replaced else 0)
        parts = [quoted(special) for special, _ in sorted(asked.specials)] if of_list else []
        return " ".join(parts + (["directories above"] if unknown & above else []))

    def lacks_ids(self, basis: Basis) -> bool:
        """Whether the list of an object is a POSIX ACL, which has ids, and no id is known for the one person who is
        asked about, or for a group."""
        face = self.asker.faces[basis.face]
        is_posix = self.asker.stored[face.list].is_posix
        return is_posix and self.asker.identity(self.asker.people[0], face, Kind.POSIX) is None

    def _list(self, basis: Basis) -> int:
        return self.asker.faces[basis.face].list

    def last_line(self, what: str, tally: Tally, counts: Dict[Basis, int]) -> str:
        """Returns the line that counts the answers, and says what else was asked or was not."""
        faces = self._faces(counts)
        has_posix = any(self.asker.stored[self.asker.faces[face].list].is_posix for face in faces)
        missing = f"; POSIX ACLs have no {mask_text(self.want.missing)}" if has_posix and self.want.missing else ""
        above = "" if not counts else (root_note(self.asker) if self.is_reach else
                                       "; directories above were not asked (--reach)")
        if self.obtaining and counts and not self.is_reach:
            above = "; who gets past the directories above was not asked (--reach)"
        where = f"; {beginnings(self.asker.snapshot)}" if self.glob is not None and not counts else ""
        return f"{what}: {tally.line()}{where}{missing}{left_out(self.asker, faces)}{self._linux(counts)}{above}"

    def _linux(self, counts: Dict[Basis, int]) -> str:
        """Reports how many answers `--linux` changes, or would change."""
        options = self.asker.options
        is_asked = options.linux and not options.is_default
        held = {face.list for face in self.asker.faces.values()}
        if not is_asked and not any(map(self.asker.is_other_on_linux, held)):
            return ""
        plain = Asker(self.asker.snapshot, self.asker.people, AskOptions(options.domain, not options.linux))
        other = ObjectsQuestion(plain, self.want, self.glob, self.is_reach)
        if self.obtaining:
            counts = {Basis(face, None): one.objects for face, one in counted(self.asker.snapshot, self.glob).items()}
        pairs = {(basis, basis): count for basis, count in counts.items()}
        if self.is_reach:
            pairs = Counter((mine, its) for (_, mine), (_, its) in zip(self.objects(), other.objects()))
        changed = 0
        for (mine, its), count in pairs.items():
            one, two = self.found(mine), other.found(its)
            if not isinstance(one, RefusedList) and not isinstance(two, RefusedList):
                changed += count * ones((one.granted ^ two.granted) | (one.denied ^ two.denied))
        if is_asked:
            return f"; --linux changes {plural(changed, 'answer')}"
        if not changed:
            return ""
        return (f"; of Linux, and not of acl(5), {'is' if changed == 1 else 'are'} {plural(changed, 'answer')} (--draft)"
                if options.linux else f"; Linux gives {plural(changed, 'other answer')} (--linux)")
