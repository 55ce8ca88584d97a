"""The accounts of the scanned system."""

from __future__ import annotations

import contextlib
import functools
import grp
import os
import pwd
import re
import struct
import threading
from collections import Counter
from typing import Dict, Iterable, Iterator, List, Optional, Set, Tuple

from aclck_tree.snapshot.snapshot import Account
from aclck_tree.snapshot.writer import Writer

_NO_NAME = re.compile(rb"[0-9]*|.*@|.*\0.*", re.DOTALL)
"""What is no name for an id in a list: digits would be an id, and an @ at the end makes a name special."""


def is_name(name: bytes) -> bool:
    """Whether a name can stand for an id."""
    return not _NO_NAME.fullmatch(name)


class System:
    """The accounts of this system. It is asked once about each name and id. Any number of threads can use it."""

    def __init__(self) -> None:
        self._names: Dict[Tuple[bool, int], Optional[bytes]] = {}
        self._numbers: Dict[Tuple[bool, bytes], Optional[int]] = {}
        self._shared: Optional[Set[Tuple[bool, str]]] = None
        self._lock = threading.Lock()

    def name_of(self, is_group: bool, number: int) -> Optional[bytes]:
        """Returns the name of an id, or None if it has none that a list can have, or one that means another id."""
        key = is_group, number
        with self._lock:
            if key not in self._names:
                name = known_name(is_group, number)
                is_its_own = (name is not None and is_name(name) and known_id(is_group, name) == number
                              and not self._is_shared(is_group, name))
                self._names[key] = name if is_its_own else None
            return self._names[key]

    def _is_shared(self, is_group: bool, name: bytes) -> bool:
        """Whether this system lists several ids with a name."""
        if self._shared is None:
            accounts = [*((False, user.pw_name, user.pw_uid) for user in pwd.getpwall()),
                        *((True, group.gr_name, group.gr_gid) for group in grp.getgrall())]
            counts = Counter((one[0], one[1]) for one in set(accounts))
            self._shared = {account for account, count in counts.items() if count > 1}
        return (is_group, os.fsdecode(name)) in self._shared

    def number_of(self, is_group: bool, name: bytes) -> Optional[int]:
        """Returns the id of a name, or None if this system does not know the name."""
        key = is_group, name
        with self._lock:
            if key not in self._numbers:
                self._numbers[key] = known_id(is_group, name)
            return self._numbers[key]


def known_name(is_group: bool, number: int) -> Optional[bytes]:
    """Returns the name that this system has for an id (getpwuid(3), getgrgid(3)), or None."""
    with contextlib.suppress(KeyError, OverflowError):
        return os.fsencode(grp.getgrgid(number).gr_name if is_group else pwd.getpwuid(number).pw_name)
    return None


def known_id(is_group: bool, name: bytes) -> Optional[int]:
    """Returns the id that this system has for a name (getpwnam(3), getgrnam(3)), or None."""
    with contextlib.suppress(KeyError, ValueError):  # a name with a zero byte is no name
        spelled = os.fsdecode(name)
        return grp.getgrnam(spelled).gr_gid if is_group else pwd.getpwnam(spelled).pw_uid
    return None


LOGIN_DEFS = "/etc/login.defs"
"""Where UID_MIN is (login.defs(5))."""

_UID_MIN = re.compile(r"\s*UID_MIN\s+(\d{1,10})\s*")


def least_id() -> int:
    """Returns UID_MIN, the least id of an account that is not one of the system, or 1000 if nothing sets it."""
    with contextlib.suppress(OSError), open(LOGIN_DEFS, encoding="utf-8", errors="surrogateescape") as file:
        return next((int(found[1]) for found in map(_UID_MIN.fullmatch, file) if found), 1000)
    return 1000


@functools.lru_cache(maxsize=None)
def groups_of(user: str, own: int) -> Tuple[int, ...]:
    """Returns the groups of the processes of a user, who has the group `own` (initgroups(3)). A directory service can
    know groups of a user whose members it does not list."""
    return tuple(dict.fromkeys([own, *os.getgrouplist(user, own)]))


@functools.lru_cache(maxsize=None)
def group_name(number: int) -> Optional[str]:
    """Returns the name of a group, or None if it has none."""
    with contextlib.suppress(KeyError, OverflowError):
        return grp.getgrgid(number).gr_name
    return None


def names(writer: Writer, tree: int) -> Iterator[Account]:
    """Yields the users and the groups that this host lists; then, in the order of their ids, users of ids in the tree
    whom it knows but does not list; and then such groups, and those of all these users."""
    owners, groups = writer.seen_ids(tree)
    users_in_lists, groups_in_lists = ids_in_lists(writer.posix_acls())
    known: Set[int] = set()
    wanted = {*groups, *groups_in_lists}
    listed = list(_listed_users())
    further = _further_users({*owners, *users_in_lists} - {user.pw_uid for user in listed})
    for user in listed:
        yield tree, False, user.pw_uid, os.fsencode(user.pw_name)
    for group in grp.getgrall():
        known.add(group.gr_gid)
        yield tree, True, group.gr_gid, os.fsencode(group.gr_name)
    for user in further:
        yield tree, False, user.pw_uid, os.fsencode(user.pw_name)
    for user in (*listed, *further):
        wanted.update(groups_of(user.pw_name, user.pw_gid))
    for number in sorted(wanted - known):
        name = group_name(number)
        if name is not None:
            yield tree, True, number, os.fsencode(name)


def _listed_users() -> Iterator[pwd.struct_passwd]:
    """Yields the users whom this host lists, and the members of its groups whom it does not list: a directory service
    need not list anybody."""
    names: Set[str] = set()
    for user in pwd.getpwall():
        names.add(user.pw_name)
        yield user
    for name in sorted({name for group in grp.getgrall() for name in group.gr_mem} - names):
        with contextlib.suppress(KeyError, ValueError):
            yield pwd.getpwnam(name)


def _further_users(ids: Set[int]) -> List[pwd.struct_passwd]:
    """Returns the users whom this host knows by some ids, in the order of these."""
    found = []
    for number in sorted(ids):
        with contextlib.suppress(KeyError, OverflowError):
            found.append(pwd.getpwuid(number))
    return found


def ids_in_lists(attributes: Iterable[Optional[bytes]]) -> Tuple[Set[int], Set[int]]:
    """Returns the ids of the users and of the groups that the attributes of POSIX ACLs have."""
    users: Set[int] = set()
    groups: Set[int] = set()
    for data in attributes:
        if data and len(data) % 8 == 4:
            for tag, _, number in struct.iter_unpack("<HHI", data[4:]):
                if tag in (2, 8):
                    (users if tag == 2 else groups).add(number)
    return users, groups


def memberships(writer: Writer, tree: int) -> Iterator[Tuple[bytes, bytes]]:
    """Yields the users whom this host lists, each with the groups of its processes; then the members of groups who are
    no users; and then the further users of `names` with their groups. A group whose name is that of several groups is
    written as its id."""
    owners, _ = writer.seen_ids(tree)
    in_lists, _ = ids_in_lists(writer.posix_acls())
    ids: Dict[str, Set[int]] = {}
    for group in grp.getgrall():
        ids.setdefault(group.gr_name, set()).add(group.gr_gid)

    def word(number: int) -> bytes:
        name = group_name(number)
        return os.fsencode(str(number) if name is None or ids.get(name, {number}) != {number} else name)
    listed = list(_listed_users())
    users = {user.pw_name for user in listed}
    for user in listed:
        for number in groups_of(user.pw_name, user.pw_gid):
            yield os.fsencode(user.pw_name), word(number)
    for group in grp.getgrall():
        for name in group.gr_mem:
            if name not in users:
                yield os.fsencode(name), word(group.gr_gid)
    for user in _further_users({*owners, *in_lists} - {user.pw_uid for user in listed}):
        for number in groups_of(user.pw_name, user.pw_gid):
            yield os.fsencode(user.pw_name), word(number)
