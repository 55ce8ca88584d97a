"""Which rules of a policy apply to which objects of a snapshot, and how objects break them. Rules that say the same are
judged together, however many they are."""

from __future__ import annotations

import functools
import itertools
from dataclasses import dataclass
from typing import Collection, Dict, Iterator, List, NamedTuple, Optional, Set, Tuple

from aclck_tree.answer.ask import Asker
from aclck_tree.answer.obtain import Place
from aclck_tree.output.errors import TreeError
from aclck_tree.output.text import ObjectName, plural, quoted
from aclck_tree.people.people import stranger_of
from aclck_tree.policy.judging import Breach, Judge
from aclck_tree.policy.obtaining import ObtainingJudge
from aclck_tree.policy.policies import Rule
from aclck_tree.snapshot.globs import Matcher

_MOST_KNOWN = 1_000_000
"""How many answers are kept about faces and rules."""

MOST_WAYS = 1_000_000
"""In how many ways objects may break rules if the objects of each are counted."""

MOST_MATCHES = 4_000_000
"""How many patterns the different sets of patterns that match an object may have together."""

_Question = Tuple[int, int, bool, Optional[Place]]
"""What the answer about an object depends on: the rule, the face, whether new objects are asked about, and the place."""


class Applied(NamedTuple):
    """A rule that applies to an object, and the exception that says that it does not hold there, by their numbers."""

    rule: int
    exemption: Optional[int]


@dataclass(frozen=True, eq=False)
class Alike:
    """Rules that apply to the same objects, and say the same about them. `first` is the first rule of the policy that
    says so, which may apply to other objects."""

    first: int
    rules: Tuple[Applied, ...]

    @functools.cached_property
    def holding(self) -> int:
        """How many of the rules have no exception for the objects."""
        return sum(one.exemption is None for one in self.rules)


class Broken(NamedTuple):
    """Rules that objects break, which say the same, and how they do, or why that is not known."""

    alike: Alike
    breaches: Tuple[Breach, ...]


@dataclass(frozen=True, eq=False)
class Applying:
    """All rules that apply to an object. A policy has one for all objects that the same patterns match."""

    rules: Tuple[Applied, ...]
    alike: Tuple[Alike, ...]
    has_place: bool


class Key(NamedTuple):
    """How an object breaks rules depends on its face, whether it is a directory, the rules that apply to it, and its
    place if one of them asks for it."""

    face: int
    is_directory: bool
    applied: Applying
    place: Optional[Place]


class Policy:
    """The rules of a policy over a snapshot. Every rule whose pattern matches an object applies to it."""

    def __init__(self, place: str, asker: Asker, rules: List[Rule], most: int) -> None:
        """`place` is the file that has the rules, and `most` says how many judgements may be made."""
        self._place = place
        self._most = most
        self.rules = rules
        self._snapshot = snapshot = asker.snapshot
        lists = [asker.stored[number] for number in snapshot.lists()]
        stranger = stranger_of(snapshot, lists, asker.people)
        self._judge = Judge(asker, stranger)
        self.is_about_obtaining = any(rule.at_most_obtainable for rule in rules)
        self._obtaining = ObtainingJudge(asker, stranger) if self.is_about_obtaining else None
        firsts: Dict[Tuple[object, ...], int] = {}
        self._firsts = [firsts.setdefault(rule.bounds, number) for number, rule in enumerate(rules)]
        patterns = [(Applied(number, place), path) for number, rule in enumerate(rules)
                    for place, path in [(None, rule.path), *enumerate(one.path for one in rule.exemptions)]]
        self._meant = [meant for meant, _ in patterns]
        self._matcher = Matcher(snapshot, [path for _, path in patterns])
        self._applied: Dict[Tuple[int, ...], Applying] = {}
        self._last: Optional[Tuple[Tuple[int, ...], Applying]] = None
        self._matches = 0  # how many patterns match in the different combinations
        self._each: Dict[Applied, Applied] = {}  # one of each, because objects share them
        self._known: Dict[_Question, Tuple[Breach, ...]] = {}
        self._same: Dict[Tuple[Breach, ...], Tuple[Breach, ...]] = {}

    def applied(self, tree: int, path: bytes) -> Applying:
        """Returns the rules that apply to an object, each with the first exception that matches it. Objects come in the
        order of trees and paths."""
        matched = self._matcher.matched(tree, path)
        if self._last is None or matched is not self._last[0]:
            found = self._applied.get(matched)
            if found is None:
                found = self._applied[matched] = self._applying(matched)
            self._last = matched, found
        return self._last[1]

    def _applying(self, matched: Tuple[int, ...]) -> Applying:
        """Returns the rules that apply where some patterns match. Raises TreeError if the different sets of patterns
        have so many together that there is no room for them."""
        self._matches += len(matched)
        if self._matches > MOST_MATCHES:
            raise TreeError(f"{quoted(self._place)}: the different sets of patterns that match an object have more "
                            f"than {MOST_MATCHES:,} patterns together")
        rules: Dict[int, Optional[int]] = {}
        exempt: Dict[int, int] = {}
        for rule, place in map(self._meant.__getitem__, matched):
            if place is None:
                rules[rule] = None
            else:
                exempt.setdefault(rule, place)
        each = (Applied(rule, exempt.get(rule)) for rule in rules)
        applied = tuple(self._each.setdefault(one, one) for one in each)
        alike: Dict[int, List[Applied]] = {}
        for one in applied:
            alike.setdefault(self._firsts[one.rule], []).append(one)
        return Applying(applied, tuple(Alike(first, tuple(some)) for first, some in alike.items()),
                        any(self.rules[first].at_most_obtainable for first in alike))

    def places(self) -> Iterator[Optional[Place]]:
        """Yields the place of each object, in the order of `Snapshot.objects`, or None if no rule asks for it."""
        if self._obtaining:
            return self._obtaining.places()
        return itertools.repeat(None)

    def keys(self) -> Iterator[Tuple[Key, int, bytes]]:
        """Yields the key of each object, its tree and its path."""
        for (tree, path, is_directory, _, face), place in zip(self._snapshot.objects(), self.places()):
            applied = self.applied(tree, path)
            yield Key(face, bool(is_directory), applied, place if applied.has_place else None), tree, path

    def may_refuse(self, classes: int) -> bool:
        """Whether too many judgements may be made about so many classes of objects, to which any rules apply."""
        return classes * len(set(self._firsts)) > self._most

    def refuse_many(self, keys: Collection[Key]) -> None:
        """Raises TreeError if too many judgements about different objects are to be made. They are counted one by one
        only if there may be too many."""
        if sum(len(key.applied.alike) for key in keys) <= self._most:
            return
        questions: Set[_Question] = set()
        for key in keys:
            questions.update(self._question(alike.first, key.face, key.is_directory, key.place)
                             for alike in key.applied.alike)
            if len(questions) > self._most:
                raise TreeError(f"{quoted(self._place)}: more than {plural(self._most, 'judgement')} of lists by "
                                "bounds would be made: see --judgements")

    def refuse_ways(self, ways: int) -> None:
        """Raises TreeError if objects break rules in too many ways to count the objects of each."""
        if ways > MOST_WAYS:
            raise TreeError(f"{quoted(self._place)}: objects break the rules in more than {MOST_WAYS:,} ways: policy "
                            "--each, --json and --csv write one object after another")

    def broken(self, key: Key) -> Iterator[Broken]:
        """Yields the rules that the objects of a key break, those together that say the same."""
        for alike in key.applied.alike:
            found = self._breaches(alike.first, key.face, key.is_directory, key.place)
            if found:
                yield Broken(alike, found)

    def _question(self, rule: int, face: int, is_directory: bool, place: Optional[Place]) -> _Question:
        """Returns what it depends on how an object breaks a rule."""
        one = self.rules[rule]
        return rule, face, is_directory and one.children, place if one.at_most_obtainable else None

    def _breaches(self, rule: int, face: int, is_directory: bool, place: Optional[Place]) -> Tuple[Breach, ...]:
        """Returns how objects break a rule."""
        one, question = self.rules[rule], self._question(rule, face, is_directory, place)
        known = self._known.get(question)
        if known is None:
            if len(self._known) > _MOST_KNOWN:
                self._known.clear()
                self._same.clear()
            found = self._judge.breaches(one, face, is_directory)
            if self._obtaining and one.at_most_obtainable and place:
                found += tuple(self._obtaining.breaches(one, face, place))
            known = self._known[question] = self._same.setdefault(found, found)
        return known

    def decided_by(self, one: Breach, name: ObjectName) -> str:
        """Returns what decides about a breach of an object: an ACE or an entry, or the steps."""
        return self._obtaining.steps(one.way, name) if self._obtaining and one.way else one.decided_by

    def unmatched(self) -> Iterator[Tuple[Rule, Optional[str]]]:
        """Yields the rules that apply to none of the objects, and the exceptions of others that are about none, with
        their patterns."""
        met: Set[Applied] = set()
        for found in self._applied.values():
            met.update(found.rules)
        met.update([one._replace(exemption=None) for one in met])
        for number, rule in enumerate(self.rules):
            if Applied(number, None) not in met:
                yield rule, None
                continue
            for place, one in enumerate(rule.exemptions):
                if Applied(number, place) not in met:
                    yield rule, one.text
