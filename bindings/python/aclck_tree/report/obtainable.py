"""Who could come to write to an object and may not write to it now, in words for `report`. It is what
`who --may w --obtain` answers."""

from __future__ import annotations

from typing import Dict, Iterator, NamedTuple, Optional, Tuple

from aclck_tree.answer.ask import UNKNOWN, Answer, Answers, Asker
from aclck_tree.answer.bits import chosen
from aclck_tree.answer.lists import RefusedList
from aclck_tree.answer.objects import Basis, ObjectsQuestion
from aclck_tree.answer.obtain import Place
from aclck_tree.answer.wants import want_of
from aclck_tree.output.text import quoted

_SHOWN = 10
"""How many people a line names; it counts the others."""


class Changers(NamedTuple):
    """Who could come to write to an object and may not write to it now, in words, which are empty if there is nobody;
    and whether that is not known of somebody. Of a refused list, nothing is said."""

    words: str
    is_unknown: bool


NO_CHANGERS = Changers("", False)
"""Of objects to which nobody else could come to write."""


class Obtainable:
    """Says who could come to write to the objects of a snapshot. With `is_reach`, the directories above count."""

    def __init__(self, asker: Asker, count: int, is_reach: bool) -> None:
        """The first `count` people of the asker are named. The last one is anybody else, whom nothing names."""
        self._asker = asker
        self._people = asker.people[:count]
        self._is_reach = is_reach
        self._question = ObjectsQuestion(asker, want_of("w"), None, is_reach, obtains=True)
        assert self._question.obtaining
        self._obtaining = self._question.obtaining
        self._known: Dict[Tuple[int, int], Changers] = {}
        self._words: Dict[int, str] = {}

    def objects(self) -> Iterator[Tuple[int, bytes, Changers, Tuple[bool, int, int, Optional[Answers]]]]:
        """Yields of each object, in the order of `Snapshot.objects`, the tree, the path below its root, who could come
        to write to it, and whether it is a directory (1 or 0), the special bits of its mode, its face, and who gets
        past the directories above by their lists, if that is asked."""
        alike, is_reach = self._question.alike, self._is_reach
        for tree, path, is_directory, bits, face, place in self._obtaining.objects():
            key = place.number, alike[face]
            found = self._known.get(key)
            if found is None:
                found = self._known[key] = self._changers(face, place)
            yield tree, path, found, (is_directory, bits, face, place.passed if is_reach else None)

    def _changers(self, face: int, place: Place) -> Changers:
        basis = Basis(face, place.passed if self._is_reach else None, place)
        found = self._question.found(basis)
        if isinstance(found, RefusedList):
            return NO_CHANGERS
        shares = dict(self._question.shares(basis, found))
        tree = self._asker.faces[face].tree
        roots = self._obtaining.rights.roots(tree)  # that root could do everything is no finding
        return Changers(self._names(shares[Answer.OBTAINABLE] & ~roots), bool(shares[UNKNOWN] & ~roots))

    def _names(self, people: int) -> str:
        """Returns some of the people in words."""
        if people not in self._words:
            names = [quoted(one.name) for one in chosen(self._people, people)]
            words = names[:_SHOWN] + ([f"{len(names) - _SHOWN:,} more"] if len(names) > _SHOWN else [])
            is_anybody = people >> len(self._asker.people) - 1 & 1
            self._words[people] = ", ".join(words + (["anybody else"] if is_anybody else []))
        return self._words[people]
