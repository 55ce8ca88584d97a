"""People in classes: a list cannot treat the people of one class differently, so one of them is asked for all.

What a list grants somebody depends on which of its ACEs match: those of the user, of the groups of the user, of the
owner, of the owning group, and of everyone (RFC 8881, section 6.2.1; acl(5), "ACCESS CHECK ALGORITHM"). So two people
are alike if the list, the owner and the owning group mention neither of them, and mention the same groups of both.
"""

from __future__ import annotations

import functools
from typing import Dict, Iterable, List, NamedTuple, Optional, Sequence, Tuple

from aclck_tree.answer.bits import bits_of, chosen
from aclck_tree.answer.identities import Identity

_SHARE = 16
"""How many people there must be for each class, so that it is quicker to ask about the classes. It does not count for
lists with special identifiers, because a question about these takes much longer."""

_MOST_KEPT = 1024
"""Of how many groups the members are kept as bits."""


class Class(NamedTuple):
    """People who are alike: one of them, and a bit for each."""

    first: Identity
    people: int


class Classes:
    """People in the names of one kind of list, by these names. Some have none."""

    def __init__(self, identities: Sequence[Optional[Identity]]) -> None:
        self._identities = identities
        self._kept: Dict[str, int] = {}

    @functools.cached_property
    def _places(self) -> Dict[Tuple[bool, str], List[int]]:
        """The places of the people whom a name means, by the name and by whether it is that of a group."""
        found: Dict[Tuple[bool, str], List[int]] = {}
        for place, one in enumerate(self._identities):
            if one:
                for key in ((False, one.user), *((True, group) for group in one.groups)):
                    found.setdefault(key, []).append(place)
        return found

    def _at(self, places: Iterable[int]) -> int:
        flags = bytearray(len(self._identities))
        for place in places:
            flags[place] = 1
        return bits_of(flags)

    def _members(self, group: str) -> int:
        if group not in self._kept:
            if len(self._kept) == _MOST_KEPT:
                self._kept.clear()
            self._kept[group] = self._at(self._places[True, group])
        return self._kept[group]

    def of(self, known: int, named: Iterable[Tuple[bool, str]], has_specials: bool) -> Optional[List[Class]]:
        """Returns the classes of some people for the names that a list, an owner and an owning group have. Returns None
        if there are too many classes."""
        most = len(self._identities) // (1 if has_specials else _SHARE)
        if not known:
            return []
        if not most:
            return None
        alone: Dict[int, None] = {}
        parts = [known]
        for is_group, name in named:
            places = self._places.get((is_group, name), ())
            if places and is_group:
                members = self._members(name)
                parts = [part for one in parts for part in (one & members, one & ~members) if part]
            elif places:
                alone.update(dict.fromkeys(places))
            if len(parts) + len(alone) > most + 1:
                return None
        others = ~self._at(alone) if alone else ~0
        parts = [part & others for part in parts] + [known & 1 << place for place in alone]
        found = []
        for part in filter(None, parts):
            first = self._identities[(part & -part).bit_length() - 1]
            assert first
            found.append(Class(first, part))
        return found


def everybody(classes: Iterable[Class], firsts: int) -> int:
    """Returns the people of the classes at the places where a bit is set."""
    people = 0
    for one in chosen(classes, firsts):
        people |= one.people
    return people
