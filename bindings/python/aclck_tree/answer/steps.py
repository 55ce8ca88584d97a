"""The steps by which somebody comes to have what is asked (`obtain`), each with the directory or the object on which it
depends."""

from __future__ import annotations

from typing import Dict, List, NamedTuple, Sequence, Tuple

from aclck_tree.answer.ask import GRANTED, Answers, Asker
from aclck_tree.answer.bits import chosen
from aclck_tree.answer.obtain import Obtaining, Place
from aclck_tree.answer.reach import above_root
from aclck_tree.output.text import ObjectName, quoted
from aclck_tree.snapshot.snapshot import Face

OWNER = "owner"
"""What lets the owner of an object set its list."""

PASSES, SETS, REMOVES, REPLACES = "passes", "sets", "removes", "replaces"
"""What a step does: it lets the person pass a directory, sets the list of an object, removes an object, or puts another
object at its path."""


class Step(NamedTuple):
    """A step: what lets the person do it on which directory or object, and what it does to which one. The places are
    those of a chain of directories from `/` down."""

    means: str
    on: int
    act: str
    to: int

    def words(self, names: Sequence[str]) -> str:
        """Returns the step in words."""
        held = f"{self.means} {'of' if self.means == OWNER else 'on'} {names[self.on]}"
        what = {PASSES: ", passes it", SETS: "", REMOVES: "", REPLACES: f", replaces {names[self.to]}"}
        return held + what[self.act]


Steps = Tuple[Step, ...]


class Way(NamedTuple):
    """What the steps depend on by which somebody comes to have what is asked: the place of the object, whom its list
    grants that, and the place of the person among the people."""

    place: Place
    own: Answers
    person: int


class Stepping:
    """Says by which steps people come to have what is asked."""

    def __init__(self, asker: Asker, obtaining: Obtaining) -> None:
        self._asker = asker
        self._obtaining = obtaining
        self._rights = obtaining.rights
        self._then = f"then {obtaining.want.text}"
        self._kept: Dict[Tuple[Place, Answers, int], List[Tuple[Steps, List[str]]]] = {}

    def of_people(self, place: Place, own: Answers, people: int) -> List[Tuple[Steps, List[str]]]:
        """Returns by which steps some people, who could come to have what is asked, do so: each with their names."""
        key = place, own, people
        if key not in self._kept:
            found: Dict[Steps, List[str]] = {}
            for person in chosen(range(len(self._asker.people)), people):
                found.setdefault(self.of(place, own, person), []).append(self._asker.people[person].name)
            self._kept[key] = list(found.items())
        return self._kept[key]

    def of(self, place: Place, own: Answers, person: int) -> Steps:
        """Returns by which steps one of the people comes to have what is asked."""
        chain = chain_of(place)
        last = len(chain) - 1
        if own.of(person) is GRANTED and place.reached.of(person) is GRANTED:
            return self._passing(chain, last, person)
        if place.controls.of(person) is GRANTED:
            return (*self._passing(chain, last, person), self._setting(chain, last, person))
        while chain[last - 1].taken.of(person) is GRANTED:
            last -= 1
        if chain[last - 1].controls.of(person) is GRANTED:
            means = self._setting(chain, last - 1, person).means
            return (*self._passing(chain, last - 1, person), Step(means, last - 1, REPLACES, last))
        return (*self._passing(chain, last, person), *self._replacing(chain, last, person))

    def _passing(self, chain: Sequence[Place], end: int, person: int) -> Steps:
        """Returns how somebody passes the directories of a chain in front of a place, if they do not let them pass."""
        if not self._obtaining.is_reach:
            return ()
        return tuple(self._setting(chain, at, person)._replace(act=PASSES) for at in range(end)
                     if self._rights.passers(chain[at].face).of(person) is not GRANTED)

    def _setting(self, chain: Sequence[Place], at: int, person: int) -> Step:
        """Returns what lets somebody set a list."""
        face = chain[at].face
        assert face
        if self._rights.owners(face).of(person) is GRANTED:
            return Step(OWNER, at, SETS, at)
        means = next((right for right in ("WRITE_ACL", "WRITE_OWNER")
                      if self._rights.asked(face, right).of(person) is GRANTED), "WRITE_ACL|WRITE_OWNER")
        return Step(means, at, SETS, at)

    def _replacing(self, chain: Sequence[Place], at: int, person: int) -> Steps:
        """Returns what lets somebody put another object at a path, in a directory whose list they may not set."""
        directory, face = chain[at - 1].face, chain[at].face
        assert directory
        if self._rights.is_posix(directory):
            return (Step("wx", at - 1, REPLACES, at),)
        make = "ADD_SUBDIRECTORY" if chain[at].is_directory else "ADD_FILE"
        if self._rights.asked(directory, "DELETE_CHILD").of(person) is GRANTED:
            return (Step(f"{make}|DELETE_CHILD", at - 1, REPLACES, at),)
        by_own = (Step("DELETE", at, REMOVES, at),) if face and self._is_deleter(face, person) else ()
        means = make if by_own or make == "ADD_FILE" else f"ADD_FILE|{make}"
        return (*by_own, Step(means, at - 1, REPLACES, at))

    def _is_deleter(self, face: Face, person: int) -> bool:
        return self._rights.deleters(face).of(person) is GRANTED

    def words(self, place: Place, own: Answers, people: int, name: ObjectName) -> List[str]:
        """Returns in words by which steps some people come to have what is asked of an object, those with the same
        steps together."""
        names = self._names(place, name)
        return [f"{' '.join(map(quoted, who))}: " + ", ".join([*(step.words(names) for step in steps), self._then])
                for steps, who in self.of_people(place, own, people)]

    def told(self, way: Way, name: ObjectName) -> List[str]:
        """Returns the steps of somebody in words. There are none if the list of the object grants what is asked."""
        names = self._names(way.place, name)
        return [step.words(names) for step in self.of(*way)]

    def _names(self, place: Place, name: ObjectName) -> List[str]:
        return [name._replace(path=path).words() for path in self.paths(place, name.path)]

    def paths(self, place: Place, path: bytes) -> List[bytes]:
        """Returns the whole paths of the directories of a chain, and of the object at its end."""
        assert place.face
        tree = self._asker.snapshot.trees[place.face.tree]
        below = path[len(tree.root.rstrip(b"/")) + 1:]
        ends = [at for at, byte in enumerate(below) if byte == ord("/")]
        inside = dict.fromkeys([b"", *(below[:at] for at in ends), below])
        paths = [*(one.path for one in above_root(self._asker, tree.tree)), *map(tree.full, inside)]
        return paths[-len(chain_of(place)):]


def chain_of(place: Place) -> List[Place]:
    """Returns the directories above a place that are known, from `/` down, and the place."""
    found = [place]
    while found[-1].above:
        found.append(found[-1].above)
    return found[::-1]
