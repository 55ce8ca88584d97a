"""Compares what the list of an object says with what the system answers, in each question of the list."""

from __future__ import annotations

import os
from contextlib import closing
from typing import Callable, List, NamedTuple, Optional, Sequence

from aclck import APPEND_DATA, DELETE_CHILD, EXECUTE, READ_DATA, WRITE_DATA, Requesters
from aclck.entries import letters_of
from aclck_tree.output.errors import TreeError

from .asking import DENIED, GRANTED, Ask, access, answers
from .objects import Probed
from .questions import questions
from .requesters import Requester, Strangers
from .rules import Mismatch, Rule, rule_of

_FILE_WRITE = WRITE_DATA | APPEND_DATA
_DIRECTORY_WRITE = _FILE_WRITE | DELETE_CHILD


class Request(NamedTuple):
    """What is asked for: its word, the permissions of a POSIX ACL that it needs, the rights of an NFSv4 list that it
    may need, those of them that it needs on each system, and whether it removes a child of a directory."""

    word: str
    want: int
    mask: int
    needed: int = 0
    removes: bool = False

    def granted_by(self, granted: int) -> Optional[bool]:
        """Whether an NFSv4 list grants this to a requester to whom it grants some rights, or None if that depends on
        what the system needs."""
        if granted & self.mask == self.mask:
            return True
        is_possible = granted & self.mask and granted & self.needed == self.needed
        return None if is_possible else False


def accesses(probed: Probed) -> List[Request]:
    """Returns what access(2) is asked about an object: of a POSIX ACL each set of permissions, because the entry of one
    group must have all of them (acl(5)), and of an NFSv4 list each permission."""
    write = _DIRECTORY_WRITE if probed.is_directory else _FILE_WRITE
    masks = {4: READ_DATA, 2: write, 1: EXECUTE}
    wants = (4, 2, 1) if probed.resolved.posix is None else (4, 2, 1, 6, 5, 3, 7)
    return [Request(letters_of(want, absent=""), want, masks.get(want, 0)) for want in wants]


class Difference(NamedTuple):
    """An answer of the system that is not that of the list, and the known rule that explains it, or None."""

    owner: int
    group: int
    requester: Requester
    word: str
    is_granted: bool
    rule: Optional[Rule]


class Examined(NamedTuple):
    """How many questions the list has, in how many of them the system answers by the list, how many requests the list
    leaves to the system, and the first difference that no known rule explains, or else the first one."""

    questions: int
    answered: int
    left_out: int
    difference: Optional[Difference]


class Limits(NamedTuple):
    """How many questions one list may have, and how many seconds one question may take."""

    questions: int
    seconds: float


class Examination:
    """The questions of the list of one object, each with its requester."""

    def __init__(self, probed: Probed, limits: Limits) -> None:
        """Raises TreeError if there are too many questions, or no id is free for a stranger."""
        self._probed, self._limits = probed, limits
        acl = probed.resolved.acl
        asked = questions(acl, limits.questions)
        strangers = Strangers.to(acl, probed.status)
        self._requesters = [strangers.requester(question) for question in asked]

    def by_access(self) -> Examined:
        """Asks the system by access(2). Raises TreeError if an answer is not known, and OSError."""
        handle, requests = self._probed.handle, accesses(self._probed)
        return self.by(requests, lambda: [access(handle, request.want) for request in requests])

    def by(self, requests: Sequence[Request], ask: Ask, prepare: Callable[[], None] = lambda: None) -> Examined:
        """Asks the system for some requests by a call. Raises TreeError if an answer is not known, and OSError."""
        said = self._said(requests)
        count = answered = left_out = 0
        first: Optional[Difference] = None
        with closing(answers(self._requesters, ask, len(requests), self._limits.seconds, prepare)) as rows:
            for requester, of_list, of_system in zip(self._requesters, said, rows):
                found = [self._compared(requester, *one) for one in zip(requests, of_list, of_system)]
                differences = [one for one in found if one is not None]
                count, answered = count + 1, answered + (not differences)
                left_out += of_list.count(None)
                for one in differences:
                    first = one if first is None or (first.rule and not one.rule) else first
        return Examined(count, answered, left_out, first)

    def _said(self, requests: Sequence[Request]) -> List[List[Optional[bool]]]:
        """Returns for each requester whether the list grants each request, or None if this depends on the system."""
        status, acl = self._probed.status, self._probed.resolved.posix
        owner, group = status.st_uid, status.st_gid
        if acl is not None:
            return [[acl.check(user=one.user, groups=one.groups, owner=owner, group=group, want=request.want)
                     for request in requests] for one in self._requesters]
        people = Requesters((str(one.user), [*map(str, one.groups)]) for one in self._requesters)
        masks = self._probed.resolved.acl.granted_many(people, owner=str(owner), group=str(group))
        return [[request.granted_by(granted) for request in requests] for granted in masks]

    def _compared(self, requester: Requester, request: Request, said: Optional[bool],
                  answer: int) -> Optional[Difference]:
        """Returns a difference, or None if the answers are the same or the list leaves the answer to the system. Raises
        TreeError if the system neither grants nor denies."""
        if answer != GRANTED and answer not in DENIED:
            raise TreeError(f"the system fails at {request.word}: {os.strerror(answer)}")
        if said is None or said == (answer == GRANTED):
            return None
        status = self._probed.status
        rule = rule_of(Mismatch(self._probed, requester, request.want, request.removes, answer))
        return Difference(status.st_uid, status.st_gid, requester, request.word, answer == GRANTED, rule)
