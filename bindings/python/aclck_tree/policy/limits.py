"""What the bounds of a policy mean for the lists of one kind in one tree, as lists."""

from __future__ import annotations

import functools
import operator
from typing import Dict, Iterable, List, NamedTuple, Optional, Set, Tuple, Union

from aclck import ALL, ALLOW, APPEND_DATA, EXECUTE, READ_DATA, WRITE_DATA, Ace, AceFlag, NfsAcl, PosixAcl, mask_text

from aclck_tree.answer.ask import Asker
from aclck_tree.answer.lists import Kind
from aclck_tree.output.text import first_few, quoted
from aclck_tree.policy.policies import Bound, PosixBound, Principal, Rule, Words

_OF_POSIX = READ_DATA | WRITE_DATA | APPEND_DATA | EXECUTE

_Name = Union[str, bytes]

SPECIAL = ("OWNER@", "GROUP@", "EVERYONE@")
"""The names that are those of no user and no group."""


class Limit(NamedTuple):
    """The list of a bound, and the POSIX ACL of which it is the bridge if it is one. `without_ids` are the names that
    the bound has and the list has not, because no id is known for them. `lacking` are the rights of the bound that
    lists of this kind do not have."""

    acl: NfsAcl
    posix: Optional[PosixAcl] = None
    without_ids: Tuple[str, ...] = ()
    lacking: int = 0


class Unjudged(NamedTuple):
    """Why nothing is known."""

    reason: str


class Limits:
    """The lists of the bounds of rules. Names in lists of one kind get the domain, and in the others they are ids of
    the host of a tree."""

    def __init__(self, asker: Asker) -> None:
        self._asker = asker
        self._given: Dict[Tuple[bool, str], Set[int]] = {}
        for person in asker.people:
            for (name, is_group), number in person.ids.items():
                self._given.setdefault((is_group, name), set()).update(
                    (number, *person.more.get((name, is_group), ())))
        self._known: Dict[Tuple[str, bool, Kind, int], Union[Limit, Unjudged]] = {}
        self._equal: Dict[Limit, Limit] = {}

    def of(self, rule: Rule, is_most: bool, kind: Kind, tree: int) -> Union[Limit, Unjudged]:
        """Returns the list of a bound of a rule, or why there is none. Equal lists are one object."""
        key = (rule.name, is_most, kind, 0 if kind is Kind.NFS4 else tree)
        if key not in self._known:
            bound = rule.at_most if is_most else rule.at_least
            assert bound is not None
            try:
                found = self._made(bound, is_most, kind, tree)
            except ValueError as error:
                found = Unjudged(f"the rule cannot be written as a list: {error}")
            self._known[key] = self._equal.setdefault(found, found) if isinstance(found, Limit) else found
        return self._known[key]

    def _made(self, bound: Bound, is_most: bool, kind: Kind, tree: int) -> Union[Limit, Unjudged]:
        if isinstance(bound, Words):
            return self._of_words(bound, is_most, kind, tree)
        if isinstance(bound, NfsAcl):
            return Limit(bound) if kind is Kind.NFS4 else self._with_ids(bound, is_most, tree)
        if kind is Kind.NFS4:
            return Unjudged("the rule has a POSIX ACL, and the object has an NFSv4 list")
        return self._of_posix(bound, tree)

    def _of_words(self, words: Words, is_most: bool, kind: Kind, tree: int) -> Union[Limit, Unjudged]:
        """Makes the list that words mean. What `at_most` does not name, everybody may have. Rights that POSIX ACLs do
        not have are left out for these, and the other words are judged."""
        lacking = words.rights & ~_OF_POSIX if kind is Kind.POSIX else 0
        if lacking == words.rights:
            return Unjudged(lacks(lacking))
        aces: List[Ace] = []
        without_ids: List[str] = []
        for mask, names in words.rows:
            mask &= ~lacking
            for whom in names if mask else ():
                whos = list(self._whos(whom, kind, tree))
                aces += [Ace(ALLOW, AceFlag.IDENTIFIER_GROUP if is_group else AceFlag(0), mask, who)
                         for is_group, who in whos]
                without_ids += [] if whos else [whom.name]
        if is_most:
            aces.append(Ace(ALLOW, AceFlag(0), ALL & ~words.rights, "EVERYONE@"))
        return Limit(NfsAcl.from_aces(aces), None, tuple(dict.fromkeys(without_ids)), lacking)

    def _whos(self, whom: Principal, kind: Kind, tree: int) -> List[Tuple[bool, str]]:
        """Returns how lists name somebody: as a user, as a group, as both, or not at all if no id is known."""
        if not whom.kinds:
            return [(False, whom.name)]
        if kind is Kind.NFS4:
            return [(is_group, self._asker.full_name(whom.name)) for is_group in whom.kinds]
        ids = [(is_group, self._id(is_group, whom.name, tree)) for is_group in whom.kinds]
        return [(is_group, str(number)) for is_group, number in ids if number is not None]

    def _id(self, is_group: bool, name: str, tree: int) -> Optional[int]:
        """Returns the id of a name, or None if it is not known: also if the people are given with several."""
        given = self._given.get((is_group, name))
        if given:
            return min(given) if len(given) == 1 else None
        return self._asker.id_of(name, is_group, tree)

    def _with_ids(self, acl: NfsAcl, is_most: bool, tree: int) -> Union[Limit, Unjudged]:
        """Makes the list that a list with names means where lists have ids. No POSIX ACL grants further rights."""
        lacking = functools.reduce(operator.or_, (ace.mask & ~_OF_POSIX for ace in acl if ace.kind == ALLOW), 0)
        users: Dict[_Name, _Name] = {}
        groups: Dict[_Name, _Name] = {}
        missing = []
        for ace in acl:
            if ace.who not in SPECIAL:
                number = self._id(ace.is_group, ace.who, tree)
                (groups if ace.is_group else users)[ace.who] = str(number)
                missing += [ace.who] if number is None else []
        if missing:
            return Unjudged(no_ids(missing))
        renamed = acl.renamed(users, groups, may_merge=True)
        made = NfsAcl.from_aces(ace._replace(mask=ace.mask & _OF_POSIX) for ace in renamed)
        return Limit(made, lacking=0 if is_most else lacking)

    def _of_posix(self, bound: PosixBound, tree: int) -> Union[Limit, Unjudged]:
        found: List[Dict[str, int]] = []
        missing: List[str] = []
        for is_group, names in ((False, bound.users), (True, bound.groups)):
            ids = {name: self._id(is_group, name, tree) for name in names}
            missing += [name for name, number in ids.items() if number is None]
            found.append({name: number for name, number in ids.items() if number is not None})
        if missing:
            return Unjudged(no_ids(sorted(missing)))
        acl = PosixAcl.from_text(bound.text, *found)
        return Limit(acl.bridge(), acl)


def lacks(rights: int) -> str:
    """Returns the line about rights that POSIX ACLs do not have."""
    return f"a POSIX ACL has no {mask_text(rights)}"


def no_ids(given: Iterable[str]) -> str:
    """Returns the line about names without ids."""
    return f"no id is known for {first_few(dict.fromkeys(given), quoted)}"
