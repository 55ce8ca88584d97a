"""NFSv4 lists that were read once, and are asked many times."""

from __future__ import annotations

import ctypes
from typing import Iterable, List

from . import _library as c
from ._library import Name
from .questions import Decided, Requesters, decided, requester
from .rights import ALL


class _Made:
    """Bytes that the library made of a list. Equality and hash are those of the bytes."""

    __slots__ = ("_bytes", "_list")

    def __init__(self, data: bytes) -> None:
        """Takes the bytes of a prepared list, such as those of a cache. It does not judge them: a question raises
        ValueError, or has some answer, if they are other bytes. Raises TypeError if they are not bytes."""
        self._bytes = memoryview(data).tobytes()
        self._list = c.in_c(self._bytes)

    def __bytes__(self) -> bytes:
        return self._bytes

    def __eq__(self, other: object) -> bool:
        if not isinstance(other, _Made) or type(other) is not type(self):
            return NotImplemented
        return self._bytes == other._bytes

    def __hash__(self) -> int:
        return hash(self._bytes)


class Prepared(_Made):
    """What `NfsAcl.prepare` makes of a list. It answers as the list does."""

    __slots__ = ()

    def decide(self, *, user: Name, groups: Iterable[Name] = (), owner: Name, group: Name, mask: int = ALL) -> Decided:
        """Returns which rights of the mask are allowed, denied, and undecided, as `NfsAcl.decide` does. Raises
        ValueError also if the bytes are not those of a prepared list."""
        found = c.Decided()
        c.judge(c.calls["decide_prepared"](self._list, c.owned(owner, group), requester(user, groups),
                                           c.Question(c.word(mask), c.GROUPS_IN_ORDER), ctypes.byref(found)), c.Fault())
        return decided(found, mask)

    def decide_many(self, requesters: Requesters, *, owner: Name, group: Name, mask: int = ALL) -> List[Decided]:
        """Returns the answers of `decide` for each of the requesters. Raises ValueError as `decide` does, and TypeError
        if the requesters are not `Requesters`."""
        if not isinstance(requesters, Requesters):
            raise TypeError("decide_many takes Requesters")
        found = (c.Decided * len(requesters.array))()
        c.judge(c.calls["decide_prepared_many"](self._list, c.owned(owner, group),
                                                c.Requesters(requesters.array, len(found)),
                                                c.Question(c.word(mask), c.GROUPS_IN_ORDER),
                                                c.DecidedList(found, len(found))), c.Fault())
        return [decided(one, mask) for one in found]


class PreparedIds(_Made):
    """What `NfsAcl.prepare_ids` makes of a list. It is asked with ids in place of names."""

    __slots__ = ()

    def decide(self, *, user: int, groups: Iterable[int] = (), owner: int, group: int, mask: int = ALL) -> Decided:
        """Returns which rights of the mask are allowed, denied, and undecided.

        Raises ValueError if an id is outside 32 bits, the mask has a bit that is not a right, or the bytes are not
        those of such a list, and TypeError if `groups` is a text.
        """
        members = sorted({c.word(number) for number in c.several(groups)})
        who = c.IdRequester(c.word(user), (c.Word * len(members))(*members), len(members))
        found = c.Decided()
        c.judge(c.calls["decide_ids"](self._list, c.IdObject(c.word(owner), c.word(group)), who,
                                      c.Question(c.word(mask), 0), ctypes.byref(found)), c.Fault())
        return decided(found, mask)
