"""How lists name the people who are asked about: by ids in POSIX ACLs, and by names in NFSv4 lists.

A person whose id is known can be meant by an NFSv4 list in other ways than by name: by the name of the account that has
this id, and by the id in digits. Each way is asked, and an answer is known only if all ways give it.
"""

from __future__ import annotations

import functools
import itertools
import re
from typing import AbstractSet, Dict, FrozenSet, Iterable, Iterator, List, NamedTuple, Optional, Sequence, Set, Tuple

from aclck_tree.answer.lists import decoded, pieces
from aclck_tree.people.people import Person, accounts_of, read_id
from aclck_tree.snapshot.snapshot import Snapshot


class Identity(NamedTuple):
    """A user and the groups of the user, as lists of one kind name them."""

    user: str
    groups: Tuple[str, ...] = ()


class Ways(NamedTuple):
    """The ways in which NFSv4 lists may name a person, the one by the given names first; and further ways, which count
    only for lists that have a name that only they have."""

    always: Tuple[Identity, ...]
    if_named: Tuple[Tuple[Identity, FrozenSet[Tuple[bool, str]]], ...] = ()

    def among(self, named: AbstractSet[Tuple[bool, str]]) -> FrozenSet[FrozenSet[Tuple[bool, str]]]:
        """Returns the ways that count for a list, each as those of its names that the list has. `named` are the names
        in the list, and whether they are those of groups."""
        ways = (*self.always, *(one for one, names in self.if_named if not names.isdisjoint(named)))
        return frozenset(frozenset(name for name in ((False, one.user), *((True, group) for group in one.groups))
                                   if name in named) for one in ways)


class _Words(NamedTuple):
    """The names in NFSv4 lists for a user or a group: those that mean it, those that do if the given name does, those
    that do if the id does, and those that count only for lists that have them."""

    sure: List[str]
    by_name: List[str]
    by_id: List[str]
    if_named: List[str]


def full_name(name: str, domain: str) -> str:
    """Returns a name, with a domain added if it has none."""
    return name if "@" in name or not domain else f"{name}@{domain}"


def account_name(name: str, domain: str) -> str:
    """Returns the name of the account for a name: without the domain, if it has just that one."""
    bare, _, other = name.partition("@")
    return bare if bare and other and other == domain else name


class Identities:
    """The accounts of the trees of a snapshot, and how the lists in them name people."""

    def __init__(self, snapshot: Snapshot, people: Sequence[Person], domain: str) -> None:
        self.accounts = accounts_of(snapshot)
        self._snapshot = snapshot
        self._domain = domain
        self._given: Dict[Tuple[bool, int], Set[str]] = {}
        for person in people:
            for (name, is_group), number in person.ids.items():
                for one in (number, *person.more.get((name, is_group), ())):
                    self._given.setdefault((is_group, one), set()).add(name)

    def ids(self, person: Person, name: str, is_group: bool, tree: int) -> Tuple[int, ...]:
        """Returns the ids that a person or a group of the person has in a tree, or none if they are not known. A name
        with the domain is an account without it."""
        accounts = self.accounts[tree]
        return (accounts.ids_of(person, name, is_group)
                or accounts.ids_of(person, account_name(name, self._domain), is_group))

    def word(self, is_group: bool, number: int, tree: int) -> str:
        """Returns how NFSv4 lists name an id: by the account that has it, if the name of the account means no other id;
        by the name that is given with it, if the system of the tree knows neither; and otherwise in digits."""
        accounts = self.accounts[tree]
        name = accounts.own_name(is_group, number)
        if name is None and (is_group, number) not in accounts.names:
            given = self._given.get((is_group, number), set())
            if len(given) == 1 and (is_group, account_name(min(given), self._domain)) not in accounts.ids:
                name = min(given)
        return full_name(str(number) if name is None else name, self._domain)

    def by_ids(self, person: Person, tree: int) -> Optional[Identity]:
        """Returns how POSIX ACLs name a person, or None if an id is not known."""
        listed = person.groups_in(tree)
        users = self.ids(person, person.name, False, tree)
        groups = [self.ids(person, group, True, tree) for group in listed or ()]
        if len(users) != 1 or listed is None or not all(groups):
            return None
        return Identity(str(users[0]), tuple(str(number) for numbers in groups for number in numbers))

    def by_names(self, person: Person, tree: int) -> Ways:
        """Returns the ways in which NFSv4 lists may name a person."""
        user = self._words(person, person.name, False, tree)
        groups = [self._words(person, group, True, tree) for group in person.groups]
        sure, by_name, by_id, if_named = (tuple(dict.fromkeys(itertools.chain.from_iterable(parts))) for parts in
                                          (zip(*groups) if groups else [()] * 4))
        users = [*user.sure, *user.by_name, *user.by_id]
        always = tuple(dict.fromkeys(Identity(one, some) for some in ((*sure, *by_name), (*sure, *by_id), sure)
                                     for one in users))
        others: Dict[Identity, FrozenSet[Tuple[bool, str]]] = {}
        for known in always:
            for more in _parts(if_named):
                some = (*known.groups, *more)
                others.update((Identity(one, some), frozenset([(False, one)])) for one in user.if_named)
                if more:
                    others[Identity(known.user, some)] = frozenset((True, one) for one in more)
        return Ways(always, tuple(others.items()))

    def _words(self, person: Person, name: str, is_group: bool, tree: int) -> _Words:
        """Returns the names for a user or a group of a person."""
        accounts, account = self.accounts[tree], account_name(name, self._domain)
        numbers, shared = self.ids(person, name, is_group, tree), accounts.shared.get((is_group, account), ())
        full, words = full_name(name, self._domain), [self.word(is_group, number, tree) for number in numbers]
        digits = [form for number in numbers or shared for form in (str(number), full_name(str(number), self._domain))]
        is_id = (name, is_group) not in person.ids and read_id(name) is not None and (is_group, name) not in accounts.ids
        if not numbers:
            return _Words([], [full], digits, []) if shared else _Words([full], [], [], [])
        if is_id:
            names = [full_name(accounts.name(is_group, number), self._domain) for number in numbers]
            return _Words(words, [], [], self._named(is_group, [*names, *digits], words))
        if shared:  # the ids are known, and the name may mean another account
            sure = [*words, full] if set(shared) <= set(numbers) else words
            return _Words(sure, [], [], self._named(is_group, [full, *digits], sure))
        by_name, by_id = ([full], words) if set(words) != {full} else ([], [])
        return _Words([] if by_name else words, by_name, by_id, self._named(is_group, digits, words))

    def _named(self, is_group: bool, names: Iterable[str], known: Sequence[str]) -> List[str]:
        """Returns those of some names that lists have, without some that are known."""
        return [name for name in dict.fromkeys(names) if name not in known
                and (self._has_digits or not name[:1].isdigit()) and (is_group, name) in self._in_lists]

    @functools.cached_property
    def _in_lists(self) -> FrozenSet[Tuple[bool, str]]:
        """The names in NFSv4 lists, as they are and with the domain, and whether they are those of groups."""
        held = {(piece.is_group, piece.who) for stored in self._snapshot.nfs_lists()
                for piece in pieces(stored.access or b"")}
        return frozenset((is_group, full_name(decoded(who), domain)) for is_group, who in held
                         for domain in ("", self._domain))

    @functools.cached_property
    def _has_digits(self) -> bool:
        """Whether an NFSv4 list may have a name that begins with a digit."""
        return any(_DIGIT_FIRST.search(stored.access or b"") for stored in self._snapshot.nfs_lists())


def _parts(if_named: Tuple[str, ...]) -> Iterator[Tuple[str, ...]]:
    """Yields which of the names of groups that count only for lists that have them may count together: none, all, the
    ids in digits, and the others. A server takes all digits for ids, or none."""
    digits = tuple(name for name in if_named if name[:1].isdigit())
    others = tuple(name for name in if_named if not name[:1].isdigit())
    return iter(dict.fromkeys(((), if_named, digits, others)))


_DIGIT_FIRST = re.compile(rb"\0\0..[0-9]", re.DOTALL)
"""What a list has where a who begins with a digit: the length of the who, and the digit (RFC 4506, section 4.11)."""
