"""The classes of objects that break the same rules in the same way, which share lines in the output of `policy`."""

from __future__ import annotations

from typing import Dict, Iterable, Iterator, List, NamedTuple, Tuple, TypeVar

from aclck_tree.policy.applying import MOST_WAYS, Applied, Broken, Policy
from aclck_tree.policy.judging import Breach, Verdict
from aclck_tree.snapshot.selecting import Counted

EXCEPTED, KEPT = "excepted", "kept"
ORDER = [Verdict.BROKEN.value, Verdict.UNKNOWN.value, EXCEPTED, KEPT]
"""The words for what is found about an object and a rule, in the order of the output."""

_What = TypeVar("_What")


class Found(NamedTuple):
    """How an object breaks a rule, or why that is not known."""

    verdict: str
    applied: Applied
    breaches: Tuple[Breach, ...]

    @classmethod
    def each(cls, broken: Broken) -> Iterator[Found]:
        """Yields what is found about each of some rules."""
        verdict = verdict_of(broken.breaches).value
        for one in broken.alike.rules:
            yield cls(verdict if one.exemption is None else EXCEPTED, one, broken.breaches)


def verdict_of(breaches: Tuple[Breach, ...]) -> Verdict:
    """Returns what several breaches are together: broken if one of them is."""
    return Verdict.BROKEN if any(one.verdict is Verdict.BROKEN for one in breaches) else Verdict.UNKNOWN


def in_order(broken: Iterable[Broken]) -> List[Found]:
    """Returns what is found about each rule, in the order of the rules."""
    return sorted((found for one in broken for found in Found.each(one)), key=lambda found: found.applied.rule)


class Classes:
    """Counts the objects of each class. What is found about rules that say the same is counted once, and at the end for
    each of them."""

    def __init__(self, policy: Policy) -> None:
        self._policy = policy
        self._broken: Dict[Broken, Counted] = {}
        self._found: Dict[Found, Counted] = {}

    def add(self, broken: Broken, one: Counted) -> None:
        """Counts objects that break rules that say the same. Raises TreeError if there are too many classes."""
        _count(self._broken, broken, one)
        if len(self._broken) > MOST_WAYS:
            self._count_rules()

    def _count_rules(self) -> None:
        for broken, one in self._broken.items():
            for found in Found.each(broken):
                _count(self._found, found, one)
            self._policy.refuse_ways(len(self._found))
        self._broken.clear()

    def each(self) -> List[Tuple[Found, Counted]]:
        """Returns the classes in the order of the output. Raises TreeError if there are too many."""
        self._count_rules()
        return sorted(self._found.items(), key=lambda item: (
            ORDER.index(item[0].verdict), item[0].applied.rule, -item[1].objects, item[1].first))


def _count(counts: Dict[_What, Counted], what: _What, one: Counted) -> None:
    """Counts further objects of which the same is found."""
    known = counts.get(what)
    counts[what] = one if known is None else Counted(known.objects + one.objects, min(known.first, one.first))
