"""What changed between two objects, and for whom. Each side is asked with its own people, owners and names of ids."""

from __future__ import annotations

import enum
import itertools
from dataclasses import dataclass
from typing import Dict, Iterable, Iterator, List, NamedTuple, Optional, Sequence, Set, Tuple

from aclck_tree.answer.ask import Asker
from aclck_tree.answer.compare import Direction, directed, grant_the_same, heir_forms, named, own_form
from aclck_tree.answer.identities import Ways
from aclck_tree.answer.lists import Kind, RefusedList
from aclck_tree.answer.sides import (
    MOST_NAMES,
    Comparison,
    ObjectOnSide,
    Side,
    has_other_owner,
    heirs,
    place_of,
    renamed_ids,
    translate,
)
from aclck_tree.diff.requesters import Affected, Effect, PairedRequesters, Whom, mentioned, paired_people
from aclck_tree.output.text import quoted, special_bits
from aclck_tree.snapshot.joined import State
from aclck_tree.snapshot.snapshot import Face

MOST_ASKED = 200_000
"""How many requesters are asked about one object because a list mentions them."""


MOST_STEPS = 4_000
"""How many ACEs of special identifiers are looked at for these requesters together: each is asked about all of them."""


def _most_asked(question: Comparison) -> int:
    """Returns how many requesters are asked about because the lists of a question mention them."""
    aces = sum(len(view.asked.by_who.get((True, group), ())) for place in question.places() for view in place.views
               for _, group in view.asked.specials)
    return min(MOST_ASKED, max(_FEWEST, MOST_STEPS // aces)) if aces else MOST_ASKED


_FEWEST = 8
"""How many requesters are asked about at least."""


class ChangeKind(str, enum.Enum):
    """What happened to an object. Of those from REFUSED on, the first that applies is meant."""

    UNPAIRED = "unpaired"
    UNREAD = "unread"
    GONE = "gone"
    CAME = "came"
    REFUSED = "refused"
    MEANING = "meaning"
    INHERITS = "inherits"
    PEOPLE = "people"
    BITS = "bits"
    BYTES = "bytes"
    SAME = "same"


class Change(NamedTuple):
    """Who is treated differently in one way, on the object or on what is made in it (`on`): the rights gained, the
    rights lost, and those of which it is not known."""

    on: str
    whom: Tuple[Whom, ...]
    gained: int
    lost: int
    unclear: int
    note: str = ""


@dataclass(frozen=True)
class ObjectChange:
    """What happened to an object, and for whom that makes a difference."""

    kind: ChangeKind
    note: str = ""
    changes: Tuple[Change, ...] = ()
    is_refused: bool = False
    direction: str = ""


def _grouped(on: str, found: Iterable[Affected]) -> List[Change]:
    """Puts all who are treated differently in the same way together."""
    groups: Dict[Tuple[str, Effect], List[Whom]] = {}
    for row, difference in found:
        groups.setdefault((row.note, difference), []).append(row.whom)
    return [Change(on, tuple(whom), *difference, note) for (note, difference), whom in groups.items()]


class Compared:
    """Two snapshots of the same trees."""

    def __init__(self, old: Asker, new: Asker) -> None:
        self._old, self._new = Side(old), Side(new)
        self._known: Dict[Tuple[Optional[State], Optional[State]], ObjectChange] = {}
        self._people: Dict[Tuple[Tuple[int, str], ...], PairedRequesters] = {}
        self._unmoved: Dict[Tuple[int, int], bool] = {}
        self._otherwise: Dict[Tuple[int, int], List[Tuple[str, Ways, Ways]]] = {}

    def alike(self, pairs: Sequence[Tuple[int, int]]) -> Iterator[Tuple[int, int]]:
        """Yields the old and the new faces with which an object has not changed, if it has the same special bits. Each
        old face comes once. `pairs` are the trees that are one tree at two times."""
        earlier = {new: old for old, new in pairs}
        faces = {(earlier.get(face.tree), face.uid, face.gid, self._new.asker.stored[face.list]): face
                 for face in self._new.faces.values()}
        for old in self._old.faces.values():
            new = faces.get((old.tree, old.uid, old.gid, self._old.asker.stored[old.list]))
            if new and self._are_unmoved(old, new):
                yield old.face, new.face

    def change(self, old: Optional[State], new: Optional[State]) -> ObjectChange:
        """Returns what happened to objects in these states. None is the state of an object that is not there."""
        key = (old, new)
        if key not in self._known:
            if old and new:
                self._known[key] = self._kept(old, new)
            elif new:
                self._known[key] = self._single(self._new, new, ChangeKind.CAME)
            elif old:
                self._known[key] = self._single(self._old, old, ChangeKind.GONE)
        return self._known[key]

    def _single(self, side: Side, state: State, kind: ChangeKind) -> ObjectChange:
        """Returns who may do what on an object that only one side has."""
        face, has_come = side.faces[state.face], kind is ChangeKind.CAME
        asked = side.asker.ready(face.list)
        notes = [f"{'has' if has_come else 'had'} {', '.join(special_bits(state.bits))}"] if state.bits else []
        if isinstance(asked, RefusedList):
            return ObjectChange(kind, "; ".join([f"refused {asked.reason}", *notes]), (), True)
        place = place_of(side, face, asked)
        question = Comparison(None, place) if has_come else Comparison(place, None)
        changes = self._changes(question, notes)
        if has_come and state.is_directory and set(heir_forms(asked)) - {own_form(asked), b""}:
            changes += self._of_heirs(question, notes)
        return ObjectChange(kind, "; ".join(notes), tuple(changes))

    def _kept(self, old: State, new: State) -> ObjectChange:
        """Returns what changed about an object that both sides have."""
        one, two = self._old.faces[old.face], self._new.faces[new.face]
        was, now = self._old.asker.stored[one.list], self._new.asker.stored[two.list]
        is_equal = (was, one.uid, one.gid) == (now, two.uid, two.gid)
        moved, renamed = self._owners(one, two)
        notes = [*moved, *renamed]
        if old.bits != new.bits:
            words = [", ".join(special_bits(bits)) or "no special bit" for bits in (old.bits, new.bits)]
            notes.append(f"had {words[0]}, has {words[1]}")
        least = ChangeKind.BITS if old.bits != new.bits else ChangeKind.SAME if is_equal else ChangeKind.BYTES
        if is_equal and self._are_unmoved(one, two):
            return ObjectChange(least, "; ".join(notes))
        before, after = self._old.asker.ready(one.list), self._new.asker.ready(two.list)
        if isinstance(before, RefusedList) or isinstance(after, RefusedList):
            reasons = [ready.reason if isinstance(ready, RefusedList) else "accepted" for ready in (before, after)]
            notes.insert(0, f"{reasons[0]}, then {reasons[1]}")
            return ObjectChange(ChangeKind.REFUSED, "; ".join(notes), (), True)
        question = Comparison(place_of(self._old, one, before), place_of(self._new, two, after))
        if is_equal:
            return self._equal(question, old.is_directory, least, notes, renamed)
        return self._unlike(question, old.is_directory, least, notes, bool(renamed))

    def _are_unmoved(self, old: Face, new: Face) -> bool:
        """Whether the people, and the accounts of the hosts of two faces, are the same on both sides."""
        key = (old.tree, new.tree)
        if key not in self._unmoved:
            self._unmoved[key] = (self._old.asker.people == self._new.asker.people
                                  and self._old.asker.accounts[old.tree] == self._new.asker.accounts[new.tree])
        return self._unmoved[key]

    def _owners(self, old: Face, new: Face) -> Tuple[List[str], List[str]]:
        """Returns the notes about owners and groups that are others now, and about those whose name is another one."""
        moved, renamed = [], []
        accounts, later = self._old.asker.accounts[old.tree], self._new.asker.accounts[new.tree]
        for word, is_group, was, now in (("owner", False, old.uid, new.uid), ("group", True, old.gid, new.gid)):
            names = (accounts.name(is_group, was), later.name(is_group, now))
            line = f"{word} {quoted(names[0])}, then {quoted(names[1])}"
            if was == now and names[0] != names[1]:
                renamed.append(line)
            elif was != now:
                moved.append(line if names[0] != names[1] else f"{word} {quoted(names[0])} had id {was}, has id {now}")
        return moved, renamed

    def _equal(self, question: Comparison, is_directory: bool, least: ChangeKind, notes: List[str],
               renamed: List[str]) -> ObjectChange:
        """Returns what changed although the list, the owner and the group are the same: the people, and the names of
        ids."""
        assert question.old and question.new
        ids = [*renamed_ids(question), *self._named_otherwise(question)]
        notes = [*notes, *ids]
        people = self._people_of(question)
        owners = [[place.owner(is_group) for is_group in (False, True)] for place in question.places()]
        if not people.have_moved and not renamed and owners[0] == owners[1]:
            return ObjectChange(ChangeKind.PEOPLE if ids else least, "; ".join(notes))
        changes = _grouped("", people.differences(question, has_known_list=True))
        if is_directory:
            changes += _without_repeats([_grouped(heir.on, people.differences(heir, has_known_list=True))
                                         for heir in heirs(question, notes)])
        return ObjectChange(ChangeKind.PEOPLE if changes or renamed or ids else least, "; ".join(notes), tuple(changes))

    def _named_otherwise(self, question: Comparison) -> List[str]:
        """Returns the note about people whom names that NFSv4 lists have on both sides may mean on one side alone,
        since an id is that of another account. The rows of people ask about the first way in which a list names
        them."""
        old, new = question.old, question.new
        assert old and new
        if old.kind is not Kind.NFS4:
            return []
        key = old.face.tree, new.face.tree
        if key not in self._otherwise:
            before, after = ({one.name: side.asker.ways(one, tree) for one in reversed(side.asker.people)}
                             for side, tree in zip((self._old, self._new), key))
            self._otherwise[key] = [(name, ways, after[name]) for name, ways in before.items()
                                    if ways != after.get(name, ways)]
        if not self._otherwise[key]:
            return []
        named = _names_in(old) & _names_in(new)
        found = sorted(quoted(name) for name, was, now in self._otherwise[key] if was.among(named) != now.among(named))
        more = f" and {len(found) - MOST_NAMES:,} more" if len(found) > MOST_NAMES else ""
        return [f"it may name {', '.join(found[:MOST_NAMES])}{more} in another way now"] if found else []

    def _unlike(self, question: Comparison, is_directory: bool, least: ChangeKind, notes: List[str],
                are_renamed: bool) -> ObjectChange:
        """Returns what changed if the list, the owner or the group is another one."""
        old, new = question.old, question.new
        assert old and new
        before = old.views[0].asked
        if old.kind != new.kind:
            notes.insert(0, f"a list of kind {old.kind}, then {new.kind}")
            changes = self._changes(question, notes) + (self._of_heirs(question, notes) if is_directory else [])
            return ObjectChange(ChangeKind.MEANING, "; ".join(notes), tuple(changes), False, Direction.OTHER.value)
        otherwise = self._named_otherwise(question)
        notes += otherwise
        translated, names = translate(question)
        is_own = not grant_the_same(before, translated)
        of_heirs = is_directory and heir_forms(before) != heir_forms(translated)
        direction = ""
        if is_own or has_other_owner(question):
            changes = self._changes(question, notes)
            kind = ChangeKind.MEANING
            found = before.acl.compare(translated.acl) if is_own else None
            words = named(found, before, translated, name=names) if found else ""
            if found and words not in {one for change in changes for whom in change.whom for one in whom.alone()}:
                changes.append(_compared("", not found.first_grants, found.right, words))
            way = directed(question, translated)
            direction = way.direction.value
            for is_more, witness in way.witnesses.items():
                if not any(change.gained if is_more else change.lost for change in changes):
                    words = named(witness, before, translated, name=names)
                    changes.append(_compared("", is_more, witness.right, words))
            if is_own and not found:
                notes.append("a group and a special identifier changed places")
            if of_heirs:
                notes.append("what new objects get changes too")
        else:
            changes = _grouped("", self._people_of(question).differences(question, has_known_list=True))
            kind = (ChangeKind.INHERITS if of_heirs else
                    ChangeKind.PEOPLE if changes or are_renamed or otherwise else least)
        if of_heirs:
            changes += self._of_heirs(question, notes) or _compared_heirs(question, notes)
        return ObjectChange(kind, "; ".join(notes), tuple(changes), False, direction)

    def _people_of(self, question: Comparison) -> PairedRequesters:
        key = tuple((place.face.tree, place.kind) if place else (0, "") for place in (question.old, question.new))
        if key not in self._people:
            self._people[key] = paired_people(self._old, self._new, question)
        return self._people[key]

    def _changes(self, question: Comparison, notes: List[str]) -> List[Change]:
        """Returns who is treated differently: first the people, then the owner, the group and those whom a list
        mentions, apart from those who are among the people already, and then anybody else."""
        found = list(self._people_of(question).differences(question))
        known = {one for row, _ in found for one in row.users()}
        rows = [row for row in mentioned(question) if not known.intersection(row.users())]
        most = _most_asked(question)
        if len(rows) > most:
            notes.append(f"{len(rows) - most:,} more names of the list were not asked about")
            rows = [*rows[:most - 1], rows[-1]]
        return _grouped(question.on, itertools.chain(found, PairedRequesters(rows).differences(question)))

    def _of_heirs(self, question: Comparison, notes: List[str]) -> List[Change]:
        """Returns who is treated differently on what is made in a directory."""
        return _without_repeats([self._changes(heir, notes) for heir in heirs(question, notes)])


def _names_in(place: ObjectOnSide) -> Set[Tuple[bool, str]]:
    """Returns the names of which the NFSv4 list of a place says something, and whether they are those of groups."""
    aces = place.views[0].asked.acl
    whos = {ace.who for ace in aces}
    named = {(ace.is_group, ace.who) for ace in aces}
    return named | {(is_group, place.owner(is_group)) for who, is_group in (("OWNER@", False), ("GROUP@", True))
                    if who in whos}


def _compared(on: str, is_more: bool, right: int, words: str) -> Change:
    """Returns the change for somebody whom a comparison of the lists names, who gains or loses a right."""
    gained, lost = (right, 0) if is_more else (0, right)
    return Change(on, (Whom(f"compare: {words}"),), gained, lost, 0)


def _compared_heirs(question: Comparison, notes: List[str]) -> List[Change]:
    """Returns whom `compare` names where what is made in a directory differs only for members of several groups."""
    changes: List[List[Change]] = []
    for heir in heirs(question, []):
        assert heir.old and heir.new
        lists = heir.old.views[0].asked, heir.new.views[0].asked
        found = lists[0].acl.compare(lists[1].acl) if heir.new.kind is Kind.NFS4 else None
        changes.append([_compared(heir.on, not found.first_grants, found.right, named(found, *lists))] if found else [])
    if not any(changes):
        notes.append("what new objects get differs only where their mode has fewer permissions")
    return _without_repeats(changes)


def _without_repeats(found: Sequence[List[Change]]) -> List[Change]:
    """Joins the changes of each of HEIRS. What is made deeper is left out if it differs as what is made in the
    directory itself does."""
    alike = [{change._replace(on="") for change in changes} for changes in found]
    return [change for place, changes in enumerate(found) if place < 2 or alike[place] != alike[place - 2]
            for change in changes]
