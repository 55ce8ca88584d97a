"""The people who are asked about, with their groups, and the names and ids of accounts."""

from __future__ import annotations

import itertools
import os
import pwd
import re
import struct
from dataclasses import dataclass, field
from typing import Callable, Dict, Iterable, Iterator, List, Mapping, Optional, Sequence, Set, Tuple, Union

from aclck_tree.output.errors import TreeError, UsageError
from aclck_tree.output.text import first_few, quoted, tell
from aclck_tree.people.accounts import group_name, groups_of, least_id
from aclck_tree.snapshot.snapshot import Snapshot, StoredList

HIGHEST_ID = 0xFFFFFFFE
"""The highest id of a user or a group. The next number means that there is no id."""

MOST_IDS = 16
"""How many ids of a host may have one name: each of them is asked about."""


@dataclass(frozen=True)
class Person:
    """A user with all groups of the user. `ids` has the ids that are given, by the name and by whether it is a group.
    If hosts listed different groups, `listed` has the groups for each tree. `more` has the other ids of a name that is
    given with several, such as those of two groups of one name that the user is in."""

    name: str
    groups: Tuple[str, ...] = ()
    ids: Mapping[Tuple[str, bool], int] = field(default_factory=dict)
    listed: Mapping[int, Tuple[str, ...]] = field(default_factory=dict)
    more: Mapping[Tuple[str, bool], Tuple[int, ...]] = field(default_factory=dict)

    def groups_in(self, tree: int) -> Optional[Tuple[str, ...]]:
        """Returns the groups on the host of a tree, or None if that host does not list the user and another does."""
        return self.listed.get(tree) if self.listed else self.groups


def read_id(text: str) -> Optional[int]:
    """Returns the id of a user or a group that a text is in digits, or None if it is not an id."""
    if not re.fullmatch("[0-9]{1,10}", text) or int(text) > HIGHEST_ID:
        return None
    return int(text)


def fresh_name(names: Iterable[Union[str, bytes]], word: str = "?stranger") -> str:
    """Returns a name that begins with a word, and that is neither one of some names nor one of them without its domain,
    in capitals or in small letters. A name counts wherever it is in `names`, so these can be whole lists as bytes."""
    held = (name if isinstance(name, bytes) else name.encode("utf-8", "surrogateescape") for name in names)
    pattern = re.compile(re.escape(word.encode()) + rb"\d+")
    taken = {found for name in held for found in pattern.findall(name.lower())}
    numbered = (f"{word}{number}" for number in itertools.count(1))
    return next(name for name in numbered if name.encode() not in taken)


def fresh_ids(ids: Iterable[int]) -> Iterator[int]:
    """Yields ids that are not among some ids."""
    taken = set(ids)
    return (number for number in range(HIGHEST_ID, 0, -1) if number not in taken)


@dataclass
class Accounts:
    """The accounts of one tree: names by ids, and ids by names. If an id is listed with two names, the first counts.
    `shared` has all ids of each name that several ids have."""

    names: Dict[Tuple[bool, int], str] = field(default_factory=dict)
    ids: Dict[Tuple[bool, str], int] = field(default_factory=dict)
    shared: Dict[Tuple[bool, str], Dict[int, None]] = field(default_factory=dict)

    def add(self, is_group: bool, number: int, name: str) -> None:
        """Adds an account."""
        self.names.setdefault((is_group, number), name)
        first = self.ids.setdefault((is_group, name), number)
        if first != number:
            self.shared.setdefault((is_group, name), {first: None})[number] = None

    def name(self, is_group: bool, number: int) -> str:
        """Returns the name of an id, or the id in digits if there is no account."""
        return self.names.get((is_group, number), str(number))

    def named(self, is_group: bool, number: int) -> str:
        """Returns an id in digits, followed by its name if there is an account."""
        name = self.names.get((is_group, number))
        return str(number) if name is None else f"{number} ({quoted(name)})"

    def own_name(self, is_group: bool, number: int) -> Optional[str]:
        """Returns the name of an id, or None if there is no account or if the name means another id too."""
        name = self.names.get((is_group, number))
        return None if name is None or (is_group, name) in self.shared else name

    def ids_of(self, person: Person, name: str, is_group: bool) -> Tuple[int, ...]:
        """Returns the ids of a person or of one of their groups. There are several only if they are given, and none if
        the id is not known: also if several accounts have the name, or if the name is an id in digits and the account
        of this name has another id, and nothing says which of them is meant."""
        given = person.ids.get((name, is_group))
        if given is not None:
            return (given, *person.more.get((name, is_group), ()))
        if (is_group, name) in self.shared:
            return ()
        named, number = self.ids.get((is_group, name)), read_id(name)
        if named is not None and number not in (None, named):
            return ()
        found = number if named is None else named
        return () if found is None else (found,)


def accounts_of(snapshot: Snapshot) -> Dict[int, Accounts]:
    """Returns the accounts of each tree of a snapshot."""
    found = {tree: Accounts() for tree in snapshot.trees}
    for tree, is_group, number, name in snapshot.names():
        found[tree].add(is_group, number, os.fsdecode(name))
    if any(len(ids) > MOST_IDS for accounts in found.values() for ids in accounts.shared.values()):
        raise TreeError(f"{snapshot.place}: damaged: a name has more than {MOST_IDS} ids")
    return found


def system_accounts(snapshot: Snapshot) -> Callable[[Person], bool]:
    """Returns what says whether a person is an account of the system: all known ids are below UID_MIN."""
    accounts, least = accounts_of(snapshot), least_id()

    def is_of_system(person: Person) -> bool:
        ids = [number for host in accounts.values() for number in host.ids_of(person, person.name, False)]
        return bool(ids) and max(ids) < least
    return is_of_system


def stranger_of(snapshot: Snapshot, lists: Iterable[StoredList], people: Iterable[Person]) -> Person:
    """Returns a user in no group whom no list, face or account of a snapshot names, and who is none of the people."""
    names: List[bytes] = []
    ids: List[int] = []
    for stored in lists:
        if stored.is_nfs:
            names += [stored.access or b""]
        elif stored.is_posix:
            ids += ids_in(stored.access or b"")
            ids += ids_in(stored.default or b"")
    for face in snapshot.faces().values():
        ids += [face.uid, face.gid]
    for _, _, number, name in snapshot.names():
        ids.append(number)
        names.append(name)
    for _, user, group in snapshot.members():
        names += [user, group]
    words = [word for person in people for word in (person.name, *person.groups)]
    ids += [number for person in people for number in itertools.chain(person.ids.values(), *person.more.values())]
    ids += [number for number in map(read_id, words) if number is not None]
    stranger = fresh_name(itertools.chain(names, words))
    return Person(stranger, (), {(stranger, False): next(fresh_ids(ids))})


def ids_in(attribute: bytes) -> Iterator[int]:
    """Yields the id of each entry of an attribute (linux/posix_acl_xattr.h), also where the entry's tag has none."""
    end = 4 + (len(attribute) - 4) // 8 * 8
    return (number for number, in struct.iter_unpack("<4xI", attribute[4:end]))


def required_id(text: str) -> int:
    """Returns the id that a text is in digits. Raises ValueError, with the reason, if it is not an id."""
    number = read_id(text)
    if number is None:
        raise ValueError(f"{quoted(text)} is not an id from 0 to {HIGHEST_ID}")
    return number


def name_with_id(word: str) -> Tuple[str, Optional[int]]:
    """Returns the name and the id of a word `NAME` or `NAME=ID`.

    Raises ValueError, with the reason, if the name is empty, or if the end looks like an id and is none.
    """
    name, equals, end = word.rpartition("=")
    number = None
    if not equals or not (end == "" or end.lstrip("+-").isnumeric()):
        name = word
    else:
        number = required_id(end)
    if not name:
        raise ValueError("a name is empty")
    return name, number


def made_person(user: Tuple[str, Optional[int]], groups: Sequence[Tuple[str, Optional[int]]]) -> Person:
    """Makes a person from names, each with its id if that is given. A group may come with several ids: the person is
    in each of these groups."""
    found: Dict[Tuple[str, bool], Dict[int, None]] = {}
    for is_group, names in ((False, [user]), (True, groups)):
        for name, number in names:
            if number is not None and 0 <= number <= HIGHEST_ID:
                found.setdefault((name, is_group), {})[number] = None
    ids = {key: next(iter(numbers)) for key, numbers in found.items()}
    more = {key: tuple(numbers)[1:] for key, numbers in found.items() if len(numbers) > 1}
    return Person(user[0], tuple(dict.fromkeys(name for name, _ in groups)), ids, {}, more)


def one_person(user: str, groups: Sequence[str]) -> Person:
    """Makes a person from command line words. Raises UsageError if a name is empty or an id is not one."""
    try:
        return made_person(name_with_id(user), list(map(name_with_id, groups)))
    except ValueError as error:
        raise UsageError(str(error)) from None


def system_people() -> List[Person]:
    """Returns the accounts that this system lists, as `getent passwd` does, each with the groups of its processes. A
    name that has several ids is left out, and reported."""
    users = pwd.getpwall()
    shared = tell_shared("this system", ((user.pw_name, user.pw_uid) for user in users))
    asked = [user for user in users if user.pw_name not in shared]
    return first_of_each_name(_system_person(user.pw_name, user.pw_uid, user.pw_gid) for user in asked)


def first_of_each_name(people: Iterable[Person]) -> List[Person]:
    """Returns the people in their order, without those who have the name of an earlier one."""
    found: Dict[str, Person] = {}
    for one in people:
        found.setdefault(one.name, one)
    return list(found.values())


def tell_shared(place: str, users: Iterable[Tuple[str, int]]) -> Set[str]:
    """Returns the names that several of some users have, and reports them: the groups of such a name are those of
    several accounts, and nobody is asked about by it."""
    ids: Dict[str, Set[int]] = {}
    for name, number in users:
        ids.setdefault(name, set()).add(number)
    shared = sorted(name for name, numbers in ids.items() if len(numbers) > 1)
    if shared:
        tell(f"{place}: several accounts have one name, by which nobody is asked about: "
             f"{first_few(shared, quoted)}")
    return set(shared)


def system_person(name: str) -> Person:
    """Returns a user of this system, who need not be one whom it lists. Raises TreeError if it has no such user."""
    try:
        user = pwd.getpwnam(name)
    except (KeyError, ValueError):
        raise TreeError(f"this system has no user {quoted(name)}") from None
    return _system_person(user.pw_name, user.pw_uid, user.pw_gid)


def _system_person(name: str, number: int, own: int) -> Person:
    return made_person((name, number), [(group_name(group) or str(group), group) for group in groups_of(name, own)])


def snapshot_people(snapshot: Snapshot, only: Optional[str] = None) -> List[Person]:
    """Returns the accounts that the scanning hosts listed, or only those of one name. Accounts with the same name are
    one person."""
    wanted = None if only is None else os.fsencode(only)
    members: Dict[str, List[Tuple[int, str]]] = {}
    for tree, user, group in snapshot.members():
        if wanted in (None, user):
            members.setdefault(os.fsdecode(user), []).append((tree, os.fsdecode(group)))
    people = []
    for name, groups in members.items():
        by_tree: Dict[int, Dict[str, None]] = {}
        for tree, word in groups:
            by_tree.setdefault(tree, {})[word] = None
        listed = {tree: tuple(words) for tree, words in by_tree.items()}
        are_alike = len(set(listed.values())) == 1 and len(listed) == len(snapshot.trees)
        people.append(Person(name, tuple(dict.fromkeys(word for _, word in groups)), {}, {} if are_alike else listed))
    return people


def listed_person(snapshot: Snapshot, user: str) -> Person:
    """Returns a user with the groups in which the scanning hosts listed the user, which are none if no host did, or if
    one listed several users of this name."""
    shared = shared_users(snapshot, user)
    return next(iter(snapshot_people(snapshot, user) if not shared else ()), Person(user))


def shared_users(snapshot: Snapshot, only: Optional[str] = None) -> Set[str]:
    """Returns the names that several users of one host of a snapshot have, all or only one, and reports them."""
    users: Dict[int, List[Tuple[str, int]]] = {}
    for tree, is_group, number, name in snapshot.names():
        if not is_group and (only is None or os.fsdecode(name) == only):
            users.setdefault(tree, []).append((os.fsdecode(name), number))
    return set().union(*(tell_shared(quoted(snapshot.place), held) for held in users.values()))
