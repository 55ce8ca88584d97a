"""The question `who`: which of some people have a right by a list."""

from __future__ import annotations

import argparse
import os
from typing import FrozenSet, List, NamedTuple, Optional, Sequence, Tuple, Union

from aclck import NfsAcl, PosixAcl, Requesters, mask_text
from aclck.entries import PERMISSIONS, perm_of
from aclck_form.accounts import SystemIds
from aclck_form.values import POSIX
from aclck_tree.answer.commands import read_people
from aclck_tree.answer.identities import account_name, full_name
from aclck_tree.output.errors import NO, REFUSED, YES, TreeError, UsageError
from aclck_tree.output.text import quoted
from aclck_tree.people.people import Accounts, Person, read_id

from .answer import Reply
from .describing import mask_of
from .lists import SPECIAL, Given, is_digits, read_lists

_WORDS = {True: "granted", False: "denied", None: "unknown"}


class _Identity(NamedTuple):
    """A user and groups, as a list names them."""

    user: str
    groups: Tuple[str, ...]


class _Naming(NamedTuple):
    """How a list names people: by ids or by names, the domain of names, and the accounts that have both. `others` are
    names that the list has in the other way, with a domain or without one, and whether they are those of groups."""

    by_ids: bool
    domain: str
    accounts: Optional[SystemIds]
    others: FrozenSet[Tuple[bool, str]] = frozenset()

    @classmethod
    def of(cls, given: Given, domain: str, accounts: Optional[SystemIds]) -> _Naming:
        """Returns how a list names people."""
        named = {(ace.is_group, ace.who.partition("@")) for ace in given.acl
                 if ace.who not in SPECIAL} if isinstance(given.acl, NfsAcl) else set()
        others = frozenset((is_group, name) for is_group, (name, at, _) in named if bool(at) != bool(domain))
        return cls(given.has_ids, domain, accounts, others)

    def identity(self, person: Person) -> Optional[_Identity]:
        """Returns how the list names a person, or None if that is not known of the user or of a group."""
        users = self._words(person, person.name, False)
        groups = [self._words(person, group, True) for group in person.groups]
        if len(users) != 1 or not all(groups):
            return None
        return _Identity(users[0], tuple(word for words in groups for word in words))

    def one(self, name: str, is_group: bool) -> str:
        """Returns how the list names the owner or the group of the object. Raises TreeError if that is not known."""
        words = self._words(Person(name), name, is_group)
        if not words:
            raise TreeError(f"nothing says how the list names the {'group' if is_group else 'owner'} {quoted(name)}")
        return words[0]

    def _words(self, person: Person, name: str, is_group: bool) -> Sequence[str]:
        """Returns the words of the list for a person or a group of the person, or none if they are not known."""
        numbers = Accounts().ids_of(person, name, is_group)
        if self.by_ids:
            return [str(number) for number in numbers or self._ids(name, is_group)]
        known = [self.accounts.name_of(is_group, number) for number in numbers] if self.accounts else []
        if is_digits(name):
            return [full_name(os.fsdecode(account), self.domain) for account in known if account is not None]
        is_other = any(account not in (None, self._account(name)) for account in known)
        return [] if is_other or (is_group, name) in self.others else [full_name(name, self.domain)]

    def _ids(self, name: str, is_group: bool) -> Sequence[int]:
        """Returns the only id that the accounts have for a name, or none."""
        number = self.accounts.number_of(is_group, self._account(name)) if self.accounts else None
        if self.accounts is None or number is None:
            return []
        return [number] if self.accounts.name_of(is_group, number) == self._account(name) else []

    def _account(self, name: str) -> bytes:
        return os.fsencode(account_name(name, self.domain))


def who(args: argparse.Namespace, accounts: Optional[SystemIds]) -> Reply:
    """Answers which of the people have all of some rights on an object. Raises UsageError if these are no rights, and
    TreeError if the list or the people are refused, or it is not known how the list names the owner or the group."""
    is_posix = args.forms[0] in POSIX
    rights = _letters(args.right) if is_posix else mask_of(args.right)
    [given] = read_lists(args, accounts)
    if given.has_ids:
        given.require_ids()
    else:
        given.require_names()
    people = read_people(args.people)
    if not people:
        raise TreeError(f"{quoted(args.people)}: nobody is in it")
    naming = _Naming.of(given, args.domain or "", accounts)
    of = _Identity(naming.one(args.owner, False), (naming.one(args.group, True),))
    found = _asked(given.acl, [naming.identity(person) for person in people], of, rights)
    return _answer(args.right if is_posix else mask_text(rights), people, found)


def _answer(right: str, people: Sequence[Person], found: Sequence[Optional[bool]]) -> Reply:
    """Returns the answer about each of the people: granted or not, or None for not known."""
    named = {word: [person.name for person, one in zip(people, found) if one is answer]
             for answer, word in _WORDS.items()}
    lines = [f"{_WORDS[answer]} {quoted(person.name)}" for person, answer in zip(people, found)]
    status = REFUSED if named["unknown"] else NO if named["denied"] else YES
    note = "unknown: nothing says how the list names the user, or a group of the user" if named["unknown"] else ""
    return Reply(status, {"right": right, **named}, lines, note)


def _letters(text: str) -> int:
    """Returns the permissions that letters name. Raises UsageError if they are none of `rwx`."""
    if not text or not set(text) <= set(PERMISSIONS):
        raise UsageError(f"a POSIX ACL has letters of rwx, and not {text!r}")
    return perm_of(text)


def _asked(acl: Union[NfsAcl, PosixAcl], identities: Sequence[Optional[_Identity]], of: _Identity,
           rights: int) -> List[Optional[bool]]:
    """Returns for each identity whether all of some rights are granted on an object of a user and a group, or None for
    one that is not known."""
    owner, group = of.user, of.groups[0]
    if isinstance(acl, PosixAcl):
        return [None if one is None else acl.check(
            user=int(one.user), groups=map(int, one.groups), owner=int(owner), group=int(group), want=rights)
            for one in identities]
    known = Requesters(one for one in identities if one is not None)
    masks = iter(acl.granted_many(known, owner=owner, group=group, mask=rights))
    return [None if one is None else next(masks) == rights for one in identities]
