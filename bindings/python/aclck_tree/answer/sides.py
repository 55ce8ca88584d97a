"""The two sides of a comparison: where an object is on each of them, the questions about it and about what is made in
it, and who is who on the other side: owners, groups and ids in POSIX ACLs, whose names each host knows for itself."""

from __future__ import annotations

from typing import Callable, Dict, Iterator, List, NamedTuple, Optional, Sequence, Tuple

from aclck import PosixAcl, Refused

from aclck_tree.answer.ask import Asker
from aclck_tree.answer.crowd import IdentityOrMissing, Missing, View
from aclck_tree.answer.identities import Identity
from aclck_tree.answer.lists import AskableList, Kind
from aclck_tree.output.text import quoted
from aclck_tree.people.people import Accounts, Person, fresh_ids, stranger_of
from aclck_tree.snapshot.snapshot import Face

HEIRS = ("new files", "new directories", "files in new directories", "directories in new directories")
"""What is made in a directory, in the order of `NfsAcl.inherited`."""

MOST_NAMES = 3
"""How many names of ids a note has; it counts the others."""


class Side:
    """One of the two snapshots: its people, and three strangers whom nothing in it names. `names` has these by the tree
    and the kind of a list, and by their place."""

    def __init__(self, asker: Asker) -> None:
        self.asker = asker
        self.faces = asker.faces
        self.names: Dict[Tuple[int, str, int], str] = {}
        self.strangers: List[Person] = []
        lists = [asker.stored[number] for number in asker.snapshot.lists()]
        for _ in range(3):
            self.strangers.append(stranger_of(asker.snapshot, lists, [*asker.people, *self.strangers]))

    def identity(self, person: Optional[Person], face: Face, kind: Kind) -> IdentityOrMissing:
        """Returns the user and the groups of a person for lists of a kind."""
        if not person:
            return Missing.PERSON
        found = self.asker.identity(person, face, kind)
        return Identity(found.user, tuple(sorted(set(found.groups)))) if found else Missing.ID


class ObjectOnSide(NamedTuple):
    """Where an object is: its side, its face, and its list; or the lists that it may have, if that is not known."""

    side: Side
    face: Face
    views: Tuple[View, ...]

    @property
    def kind(self) -> Kind:
        """The kind of its list."""
        return self.views[0].asked.kind

    def accounts(self) -> Accounts:
        """Returns the accounts of its host."""
        return self.side.asker.accounts[self.face.tree]

    def stranger(self, number: int = 0) -> str:
        """Returns a stranger of its side, as a user or as a group that lists of its kind name."""
        key = (self.face.tree, self.kind, number)
        if key not in self.side.names:
            found = self.side.identity(self.side.strangers[number], self.face, self.kind)
            assert isinstance(found, Identity)
            self.side.names[key] = found.user
        return self.side.names[key]

    def owner(self, is_group: bool) -> str:
        """Returns the name of its group, or of its owner."""
        return self.views[0].group if is_group else self.views[0].owner

    def name(self, is_group: bool, who: str) -> str:
        """Returns the name that people know for a who: for an id in a POSIX ACL, the name of the account."""
        return self.accounts().name(is_group, int(who)) if self.kind is Kind.POSIX else who


class Comparison(NamedTuple):
    """A question about an object at two times. A place is None if the object was not there. `on` says what the object
    is if it is made in the object that the output names."""

    old: Optional[ObjectOnSide]
    new: Optional[ObjectOnSide]
    on: str = ""

    def places(self) -> List[ObjectOnSide]:
        """Returns the old and the new place, without one at which the object was not there."""
        return [place for place in (self.old, self.new) if place]

    def cases(self) -> List[Comparison]:
        """Returns the question for each umask on which the list of a new object depends, if it does so on both sides:
        the process that makes the object has one umask. Otherwise it is the question itself."""
        old, new = self.old, self.new
        if not old or not new or len(old.views) != len(new.views):
            return [self]
        return [self._replace(old=old._replace(views=(one,)), new=new._replace(views=(two,)))
                for one, two in zip(old.views, new.views)]

    def each(self, is_group: bool, who: Callable[[ObjectOnSide], str]) -> Tuple[IdentityOrMissing, IdentityOrMissing]:
        """Returns a user on each side, or a stranger in a group there. `who` names the user or the group."""
        sides: List[IdentityOrMissing] = [
            Missing.PERSON if not place else Identity(place.stranger(), (who(place),)) if is_group
            else Identity(who(place)) for place in (self.old, self.new)]
        return sides[0], sides[1]


def place_of(side: Side, face: Face, asked: AskableList) -> ObjectOnSide:
    """Returns the place of an object whose list is known."""
    return ObjectOnSide(side, face, (View(asked, *side.asker.owner_and_group(face, asked.kind)),))


def heirs(question: Comparison, notes: List[str]) -> Iterator[Comparison]:
    """Yields the questions about what is made in a directory."""
    try:
        sides: List[Sequence[Optional[ObjectOnSide]]] = [
            [place._replace(views=views) for views in _heir_views(place)] if place else [None] * len(HEIRS)
            for place in (question.old, question.new)]
    except Refused as refused:
        notes.append(f"nobody was asked about what is made in it: {refused}")
        return
    for on, old, new in zip(HEIRS, *sides):
        if old and new and on in HEIRS[:2]:
            has_aces = [any(len(view.asked.acl) for view in place.views) for place in (old, new)]
            if has_aces[0] != has_aces[1]:
                notes.append(f"{on} {'inherit' if has_aces[0] else 'inherited'} nothing")
        yield Comparison(old, new, on)


def _heir_views(place: ObjectOnSide) -> Iterator[Tuple[View, ...]]:
    """Yields the lists of what strangers make in a directory. Without a default ACL the umask of the process that makes
    the object decides, so that every permission of the mode or none may be left."""
    asked = place.views[0].asked
    names = [place.stranger(number) for number in (1, 2)]
    if not asked.posix:
        for form in asked.acl.inherited()[1:]:
            yield (View(AskableList(form, None, asked.specials), *names),)
        return
    umasks = (0,) if any(entry.default for entry in asked.posix) else (0, 0o777)
    for mode, is_directory in ((0o666, False), (0o777, True)):
        made = [asked.posix.create(mode=mode, umask=umask, directory=is_directory) for umask in umasks]
        yield tuple(View(AskableList(acl.bridge(), acl), *names) for acl in made)


def who_at(place: ObjectOnSide, other: ObjectOnSide, is_group: bool, who: str) -> str:
    """Returns how the list of the other side names a who, which is a stranger if the other host has no such account."""
    if place.kind is not Kind.POSIX or other is place:
        return who
    number = _counterpart(is_group, int(who), place.accounts(), other.accounts())
    return other.stranger() if number is None else str(number)


def is_same_owner(question: Comparison, is_group: bool) -> bool:
    """Whether the owner or the group is the same on both sides: by its id and name if the lists are of two kinds."""
    old, new = question.old, question.new
    assert old and new
    if old.kind == new.kind:
        return who_at(new, old, is_group, new.owner(is_group)) == old.owner(is_group)
    ids = [place.face.gid if is_group else place.face.uid for place in (old, new)]
    return ids[0] == ids[1] and old.accounts().name(is_group, ids[0]) == new.accounts().name(is_group, ids[1])


def has_other_owner(question: Comparison) -> bool:
    """Whether an owner or a group changed about which the list says something."""
    assert question.old
    whos = {ace.who for ace in question.old.views[0].asked.acl.normal()}
    return any(who in whos and not is_same_owner(question, is_group)
               for who, is_group in (("OWNER@", False), ("GROUP@", True)))


def _counterpart(is_group: bool, number: int, here: Accounts, there: Accounts) -> Optional[int]:
    """Returns the id on another host of the account that has an id here: the id of the same name, or else the same id
    unless it has the name of another account of this host. Returns None if there is no such id."""
    name = _label(is_group, number, here)
    same_name = there.ids.get((is_group, name)) if name else None
    if same_name is not None and _label(is_group, same_name, there) == name:
        return same_name
    other = _label(is_group, number, there)
    known = here.ids.get((is_group, other)) if other else None
    return number if known is None or _label(is_group, known, here) != other else None


def _label(is_group: bool, number: int, accounts: Accounts) -> Optional[str]:
    """Returns the name of an id if it is the name of no other id."""
    name = accounts.own_name(is_group, number)
    return name if name is not None and accounts.ids.get((is_group, name)) == number else None


def renamed_ids(question: Comparison) -> List[str]:
    """Returns the note about ids in equal POSIX ACLs that have other names now."""
    old, new = question.old, question.new
    assert old and new
    found = []
    for is_group, number in old.views[0].asked.ids():
        names = old.accounts().name(is_group, number), new.accounts().name(is_group, number)
        if names[0] != names[1]:
            word = "group" if is_group else "user"
            found.append(f"{word} id {number} was {quoted(names[0])}, is {quoted(names[1])}")
    return found[:MOST_NAMES] + ([f"{len(found) - MOST_NAMES:,} more ids have other names"]
                                 if len(found) > MOST_NAMES else [])


def translate(question: Comparison) -> Tuple[AskableList, Callable[[bool, str], str]]:
    """Returns the new list with the ids that the old host has for the accounts of the new one, and what makes a name of
    a who in it. The names in NFSv4 lists are those of all hosts."""
    assert question.old and question.new
    here, there = question.new, question.old
    asked = here.views[0].asked
    if not asked.posix:
        return asked, lambda is_group, who: who
    ids = {key: _counterpart(*key, here.accounts(), there.accounts()) for key in asked.ids()}
    unused = fresh_ids([*(number for _, number in there.views[0].asked.ids()),
                        *(number for number in ids.values() if number is not None)])
    numbers = {key: next(unused) if number is None else number for key, number in ids.items()}
    names = {(is_group, str(numbers[is_group, number])): here.name(is_group, str(number)) for is_group, number in ids}

    def name(is_group: bool, who: str) -> str:
        return names.get((is_group, who)) or there.name(is_group, who)

    if all(key[1] == number for key, number in numbers.items()):
        return asked, name
    acl = PosixAcl.from_entries(
        entry if entry.id is None else entry._replace(id=numbers[entry.tag == "group", entry.id])
        for entry in asked.posix)
    return AskableList(acl.bridge(), acl), name
