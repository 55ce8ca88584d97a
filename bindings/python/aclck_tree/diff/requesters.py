"""Who is asked about an object at two times, people and those whom a list mentions, and what differs for them."""

from __future__ import annotations

import functools
import itertools
import operator
from typing import Dict, Iterator, List, NamedTuple, Optional, Sequence, Tuple

from aclck import ALL

from aclck_tree.answer.crowd import AT_ONCE, NOTHING, Crowd, Granted, IdentityOrMissing, ListPair, Missing
from aclck_tree.answer.identities import Identity
from aclck_tree.answer.lists import POSIX_MASKS, Kind
from aclck_tree.answer.sides import Comparison, ObjectOnSide, Side, is_same_owner, who_at
from aclck_tree.output.text import quoted
from aclck_tree.people.people import Person

_SPECIAL = {"OWNER@", "GROUP@", "EVERYONE@"}


class Whom(NamedTuple):
    """Who is treated differently: a name, after words that say what has this name."""

    words: str
    name: str = ""

    def __str__(self) -> str:
        return " ".join(filter(None, self))

    def quoted(self) -> str:
        """Returns the same with a name as text output has it."""
        return " ".join(filter(None, (self.words, self.name and quoted(self.name))))

    def alone(self) -> Sequence[str]:
        """Returns how `compare` names the same requester: a user in no group, or anybody else."""
        return [quoted(self.name)] if self.name and self.words in ("", "user") else [] if self.name else [self.words]


class ComparedRequester(NamedTuple):
    """Who is asked about, with the identity on each side."""

    whom: Whom
    old: IdentityOrMissing
    new: IdentityOrMissing
    note: str = ""

    def users(self) -> List[Tuple[bool, str]]:
        """Returns the user on each side, with whether this is the new side."""
        sides = ((False, self.old), (True, self.new))
        return [(is_new, one.user) for is_new, one in sides if isinstance(one, Identity)]


Effect = Tuple[int, int, int]
"""The rights gained, the rights lost, and those of which it is not known."""

Affected = Tuple[ComparedRequester, Effect]
"""A requester for whom something differs."""

_NO_EFFECT: Effect = (0, 0, 0)

_Part = List[Optional[Granted]]

_ID_NOT_KNOWN = Granted(0, sum(POSIX_MASKS.values()))
"""What somebody may be granted whose id is not known, which only matters for POSIX ACLs."""


def _granted_at(place: Optional[ObjectOnSide], crowd: Crowd) -> Iterator[_Part]:
    """Yields what each of a crowd is granted, in parts. On an object that is not there nothing is granted."""
    if not place:
        return ([NOTHING] * min(AT_ONCE, len(crowd) - start) for start in range(0, len(crowd), AT_ONCE))
    return (found[0] if len(found) == 1 else [_in_each(ones) for ones in zip(*found)]
            for found in zip(*(crowd.granted(view) for view in place.views)))


def _in_each(found: Sequence[Optional[Granted]]) -> Optional[Granted]:
    """Returns what somebody is granted by a list that is one of several."""
    sure, maybe = ALL, 0
    for one in found:
        if one is None:
            return None
        sure, maybe = sure & one.sure, maybe | one.maybe
    return Granted(sure, maybe)


def _effect(question: Comparison, row: ComparedRequester, one: Granted, other: Granted,
            alike: Optional[ListPair]) -> Effect:
    """Returns what differs for a row. A right is known only if it is granted in all cases of a side or in none. Of
    rights that depend on special identifiers on both sides, it is asked whether they do so alike."""
    gained, lost = other.sure & ~one.maybe, one.sure & ~other.maybe
    unclear = ((one.sure ^ other.sure) | one.unknown | other.unknown) & ~gained & ~lost
    on_both = one.unknown & other.unknown
    if on_both and alike and isinstance(row.old, Identity) and isinstance(row.new, Identity):
        if all(len(place.views) == 1 for place in question.places()):
            unclear &= ~alike.rights(row.old, row.new, on_both)
    return gained, lost, unclear


class PairedRequesters:
    """Requesters who are asked about many objects: two crowds, or one if both sides name all of them alike."""

    def __init__(self, rows: Sequence[ComparedRequester]) -> None:
        self._rows = rows
        old, new = [row.old for row in rows], [row.new for row in rows]
        self.have_moved = old != new
        self._old = Crowd(old)
        self._new = Crowd(new) if self.have_moved else self._old

    def differences(self, question: Comparison, has_known_list: bool = False) -> Iterator[Affected]:
        """Yields those for whom something differs. If the list grants the same on both sides, nothing is unclear about
        somebody who has an id on neither side. Where a list depends on a umask, both sides have the same one."""
        cases = [dict(self._effects(case)) for case in question.cases()]
        for place in sorted(set().union(*cases)):
            row = self._rows[place]
            found = _in_each_case([case.get(place, _NO_EFFECT) for case in cases])
            if not (has_known_list and row.old is row.new is Missing.ID):
                yield row, found

    def _effects(self, question: Comparison) -> Iterator[Tuple[int, Effect]]:
        """Yields the places of those for whom something differs. Usually whole parts of the rows are equal."""
        is_sure = all(len(place.views) == 1 and not place.views[0].asked.specials for place in question.places())
        alike = ListPair(question.old.views[0], question.new.views[0]) if question.old and question.new else None
        start = 0
        for before, after in zip(_granted_at(question.old, self._old), _granted_at(question.new, self._new)):
            if not is_sure or before != after or None in before:
                for place, (one, other) in enumerate(zip(before, after), start):
                    found = _effect(question, self._rows[place], one or _ID_NOT_KNOWN, other or _ID_NOT_KNOWN, alike)
                    if any(found):
                        yield place, found
            start += len(before)


def _in_each_case(effects: Sequence[Effect]) -> Effect:
    """Returns what differs for somebody, given what does in each of some cases of which one is so."""
    gained = functools.reduce(operator.and_, (effect[0] for effect in effects))
    lost = functools.reduce(operator.and_, (effect[1] for effect in effects))
    some = functools.reduce(operator.or_, itertools.chain.from_iterable(effects))
    return gained, lost, some & ~gained & ~lost


def paired_people(old: Side, new: Side, question: Comparison) -> PairedRequesters:
    """Pairs the people of both sides by their names, in the names of one host and of one kind of list on each side."""
    before = {person.name: person for person in reversed(old.asker.people)}
    after = {person.name: person for person in reversed(new.asker.people)}
    rows = []
    for name in dict.fromkeys(one.name for one in itertools.chain(new.asker.people, old.asker.people)):
        sides = [place.side.identity(people.get(name), place.face, place.kind) if place else Missing.PERSON
                 for people, place in ((before, question.old), (after, question.new))]
        if sides[0] is sides[1] is Missing.ID:
            if _known(question.old, before[name]) != _known(question.new, after[name]):
                sides[0] = Missing.OTHER_ID
        note = "is new" if name not in before else "is gone" if name not in after else ""
        rows.append(ComparedRequester(Whom("", name), sides[0], sides[1], note))
    return PairedRequesters(rows)


def _known(place: Optional[ObjectOnSide], person: Person) -> object:
    """Returns what is known of a person at a place: the ids, and the names without one."""
    if not place:
        return None
    groups = person.groups_in(place.face.tree)
    names = ((person.name, False), *((group, True) for group in groups or ()))
    return groups is None, frozenset((is_group, one) for name, is_group in names for one in (
        place.side.asker.ids(person, name, is_group, place.face.tree) or (name,)))


def mentioned(question: Comparison) -> List[ComparedRequester]:
    """Returns a row for the owner, the group, and each user and group that a list mentions, with those first about whom
    the lists differ, and one for anybody else at the end. Lists of two kinds have no names in common.

    In a normal form no right can be taken from an ACE. So its ACEs about one user or group, and those for everyone,
    decide about a right in whatever order they are. If these ACEs are the same in both lists, that user or group is not
    asked about.
    """
    places = question.places()
    forms = [[ace for view in place.views for ace in view.asked.acl.normal()] for place in places]
    whos = {ace.who for form in forms for ace in form}
    rows = [row for who, is_group in (("OWNER@", False), ("GROUP@", True)) if who in whos
            for row in _owners(question, is_group)]
    if len({place.kind for place in places}) == 1:
        unlike = set(forms[0]) ^ set(forms[-1])
        has_specials = any(view.asked.specials for place in places for view in place.views)
        is_enough = (len(forms) == 2 and places[0].kind is Kind.NFS4 and not has_specials
                     and not any(ace.who == "EVERYONE@" for ace in unlike))
        for are_unlike in (True,) if is_enough else (True, False):
            for place, form in zip(places, forms):
                others = {group for view in place.views for _, group in view.asked.specials} | _SPECIAL
                for is_group, who in dict.fromkeys((ace.is_group, ace.who) for ace in form
                                                   if (ace in unlike) == are_unlike and ace.who not in others):
                    rows.append(_row(question, place, "member of" if is_group else "user", is_group, who))
    rows.append(ComparedRequester(Whom("anybody else"), *question.each(False, lambda place: place.stranger())))
    found: Dict[Tuple[IdentityOrMissing, IdentityOrMissing], ComparedRequester] = {}
    for row in rows:
        found.setdefault((row.old, row.new), row)
    return list(found.values())


def _owners(question: Comparison, is_group: bool) -> Iterator[ComparedRequester]:
    """Yields a row for the owner or for a member of the group, or two if these changed."""
    if question.on or len(question.places()) == 1 or is_same_owner(question, is_group):
        yield ComparedRequester(Whom("a member of its group" if is_group else "its owner"),
                                *question.each(is_group, lambda place: place.owner(is_group)))
    elif len({place.kind for place in question.places()}) == 1:
        for place in question.places():
            yield _row(question, place, "member of group" if is_group else "owner", is_group, place.owner(is_group))


def _row(question: Comparison, place: ObjectOnSide, words: str, is_group: bool, who: str) -> ComparedRequester:
    """Makes the row for a who of the list of one side."""
    sides = question.each(is_group, lambda other: who_at(place, other, is_group, who))
    return ComparedRequester(Whom(words, place.name(is_group, who)), *sides)
