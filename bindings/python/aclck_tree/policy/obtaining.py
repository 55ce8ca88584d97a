"""Judges the bound `at_most_obtainable` of a rule: who has its rights, and who could come to have them
(docs/reference/obtain.md), must be within the bound. The people are judged, and anybody else, whom nothing names."""

from __future__ import annotations

import functools
import operator
from dataclasses import replace
from typing import Dict, Iterable, Iterator, List, NamedTuple, Sequence, Tuple

from aclck import mask_text

from aclck_tree.answer.ask import Answers, Asker
from aclck_tree.answer.bits import bits_of
from aclck_tree.answer.lists import AskableList, Kind, RefusedList
from aclck_tree.answer.obtain import Obtaining, Place
from aclck_tree.answer.steps import Stepping, Way
from aclck_tree.answer.wants import want_of
from aclck_tree.output.text import ObjectName, quoted
from aclck_tree.people.people import Person
from aclck_tree.policy.judging import Breach, Verdict
from aclck_tree.policy.limits import Limit, Limits, Unjudged, lacks, no_ids
from aclck_tree.policy.policies import Rule
from aclck_tree.snapshot.snapshot import Face

OBTAINABLE = "at_most_obtainable"
"""The key of the bound."""


class _Within(NamedTuple):
    """Whom a bound grants a right, and of whom it is known whether it does."""

    right: int
    people: int
    known: int


class _Beyond(NamedTuple):
    """Who of the people has, or could come to have, a right that a bound does not grant them, and of whom that is not
    known. `own` says whom the list of the object grants the right."""

    right: int
    own: Answers
    people: int
    unsure: int


class ObtainingJudge:
    """Judges faces and places by the bounds `at_most_obtainable` of rules."""

    def __init__(self, asker: Asker, stranger: Person) -> None:
        """`stranger` is somebody whom nothing in the snapshot names."""
        self._asker = Asker(asker.snapshot, [*asker.people, stranger], asker.options)
        self._limits = Limits(asker)
        self._obtaining = Obtaining(self._asker, want_of("w"), False)
        self._stepping = Stepping(self._asker, self._obtaining)
        self._own: Dict[Tuple[int, int], Answers] = {}
        self._within: Dict[Tuple[int, Kind, int, int, int], List[_Within]] = {}

    def places(self) -> Iterator[Place]:
        """Yields the place of each object, in the order of `Snapshot.objects`."""
        return (place for *_, place in self._obtaining.objects())

    def breaches(self, rule: Rule, number: int, place: Place) -> Iterator[Breach]:
        """Yields how the objects of a face at a place break the bound of a rule, or why that is not known."""
        assert rule.at_most_obtainable
        face = self._asker.faces[number]
        asked = self._asker.ready(face.list)
        if isinstance(asked, RefusedList):
            yield _unknown(f"refused {asked.reason}")
            return
        limit = self._limits.of(replace(rule, at_most=rule.at_most_obtainable), True, asked.kind, face.tree)
        if isinstance(limit, Unjudged):
            yield _unknown(limit.reason)
            return
        try:
            within = self._granted(face, asked, limit, rule.at_most_obtainable.rights & ~limit.lacking)
        except ValueError as error:  # a name of the owner or the group cannot be in a list
            owner, group = self._asker.owner_and_group(face, asked.kind)
            yield _unknown(f"owner {quoted(owner)}, group {quoted(group)}: {error}")
            return
        yield from self._judged(face, place, limit, within)
        if limit.lacking:
            yield _unknown(lacks(limit.lacking))

    def _granted(self, face: Face, asked: AskableList, limit: Limit, rights: int) -> List[_Within]:
        """Returns whom a bound grants each of some rights on the objects of a face. Raises ValueError if a name of the
        owner or the group cannot be in a list."""
        key = (id(limit), asked.kind, face.tree, face.uid, face.gid)  # `Limits` keeps the limit
        if key not in self._within:
            owner, group = self._asker.owner_and_group(face, asked.kind)
            bound = limit.acl.resolved(owner=owner, group=group)
            found = self._asker.granted_by(bound, face, asked.kind, owner, group)
            known = bits_of(one is not None for one in found)
            self._within[key] = [_Within(1 << at, bits_of((one or 0) >> at & 1 for one in found), known)
                                 for at in range(rights.bit_length()) if rights >> at & 1]
        return self._within[key]

    def _judged(self, face: Face, place: Place, limit: Limit, within: Sequence[_Within]) -> Iterator[Breach]:
        """Yields the breach of the first of the people who breaks the bound, or else why that is not known of one."""
        rows = [self._beyond(face, place, one) for one in within]
        people, unsure = _union(row.people for row in rows), _union(row.unsure for row in rows)
        if people and limit.without_ids:
            yield _unknown(no_ids(limit.without_ids))
        elif people:
            person = _first(people)
            mine = [row for row in rows if row.people >> person & 1]
            yield Breach(Verdict.BROKEN, OBTAINABLE, who=self._name(person), is_known=self._is_known(person),
                         rights=mask_text(_union(row.right for row in mine)), way=Way(place, mine[0].own, person))
        elif unsure:
            person = _first(unsure)
            rights = mask_text(_union(row.right for row in rows if row.unsure >> person & 1))
            who = quoted(self._name(person)) if self._is_known(person) else self._name(person)
            yield _unknown(f"it is not known whether {who} could come to have {rights}")

    def _beyond(self, face: Face, place: Place, within: _Within) -> _Beyond:
        """Returns who has, or could come to have, a right that the bound does not grant. Root, who could come to have
        everything, is not judged."""
        want = want_of(mask_text(within.right))
        if (face.face, want.mask) not in self._own:
            found = self._asker.answers(face, want)
            assert isinstance(found, Answers)
            self._own[face.face, want.mask] = found
        own = self._own[face.face, want.mask]
        could = self._obtaining.about(want).could(place, own)
        others = ~(within.people | self._obtaining.rights.roots(face.tree))
        unsure = could.unknown | could.granted & ~within.known
        return _Beyond(want.mask, own, could.granted & within.known & others, unsure & others)

    def _is_known(self, person: int) -> bool:
        """Whether somebody is one of the people."""
        return person < len(self._asker.people) - 1

    def _name(self, person: int) -> str:
        return self._asker.people[person].name if self._is_known(person) else "anybody else"

    def steps(self, way: Way, name: ObjectName) -> str:
        """Returns in words by which steps somebody comes to have the rights of a breach of an object."""
        return ", ".join(self._stepping.told(way, name)) or "has it now"


def _unknown(reason: str) -> Breach:
    return Breach(Verdict.UNKNOWN, OBTAINABLE, reason=reason)


def _union(sets: Iterable[int]) -> int:
    return functools.reduce(operator.or_, sets, 0)


def _first(people: int) -> int:
    """Returns the place of the first of some people."""
    return (people & -people).bit_length() - 1
