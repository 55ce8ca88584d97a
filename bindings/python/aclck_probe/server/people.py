"""The ids that the lists of a probe mention, which are those of no account of this system."""

from __future__ import annotations

from typing import List, NamedTuple, Tuple

from aclck import ALLOW, READ_DATA, Ace, AceFlag, NfsAcl

from ..requesters import Strangers


class Owned(NamedTuple):
    """The owner and the owning group of an object."""

    st_uid: int
    st_gid: int


class People(NamedTuple):
    """The owner and the owning group of what is made, two users and two groups."""

    owner: int
    group: int
    users: Tuple[int, int]
    groups: Tuple[int, int]

    @classmethod
    def free(cls) -> People:
        """Returns people whom this system does not know, with six different ids, because a server may take the id of a
        user for that of a group. Raises TreeError if too few ids are free."""
        found: List[Strangers] = []
        for _ in range(6):
            taken = [number for one in found for number in (one.user, one.group)]
            aces = [Ace(ALLOW, AceFlag(0), READ_DATA, str(number)) for number in taken]
            found.append(Strangers.to(NfsAcl.from_aces(aces), Owned(0, 0)))
        return cls(found[0].user, found[1].group, (found[2].user, found[3].user), (found[4].group, found[5].group))
