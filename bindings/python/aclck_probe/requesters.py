"""Who asks the system: the user and the groups of a question as ids."""

from __future__ import annotations

from typing import AbstractSet, NamedTuple, Protocol, Tuple

from aclck import NfsAcl, Question
from aclck_tree.output.errors import TreeError
from aclck_tree.people.accounts import known_name
from aclck_tree.people.people import read_id

_FREE = range(59999, 999, -1)
"""Where free ids are looked for. Below are those of the system, and above those that are kept for other uses."""


class Requester(NamedTuple):
    """A process that asks: its user, its own group, which no list mentions, and its other groups."""

    user: int
    own: int
    groups: Tuple[int, ...]


class Owned(Protocol):
    """What has an owner and an owning group, such as a status of os.stat."""

    @property
    def st_uid(self) -> int: ...

    @property
    def st_gid(self) -> int: ...


class Strangers(NamedTuple):
    """A user and a group of whom a list says nothing, who are not those of the object, and who are no accounts of this
    system."""

    user: int
    group: int

    @classmethod
    def to(cls, acl: NfsAcl, status: Owned) -> Strangers:
        """Returns strangers to a list by ids and to its object. Raises TreeError if no id is free."""
        taken = {number for number in (read_id(ace.who) for ace in acl) if number is not None}
        taken |= {status.st_uid, status.st_gid}
        return cls(_free_id(False, taken), _free_id(True, taken))

    def requester(self, question: Question) -> Requester:
        """Returns the requester of a question about a list by ids. A name that is no id is that of a stranger."""
        numbers = [read_id(group) for group in question.groups]
        user = read_id(question.user)
        return Requester(self.user if user is None else user, self.group,
                         tuple(number for number in numbers if number is not None))


def _free_id(is_group: bool, taken: AbstractSet[int]) -> int:
    found = next((number for number in _FREE if number not in taken and known_name(is_group, number) is None), None)
    if found is None:
        raise TreeError(f"no id of a {'group' if is_group else 'user'} is free from {_FREE[-1]} to {_FREE[0]}")
    return found
