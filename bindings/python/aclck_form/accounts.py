"""Names exchanged for ids, and ids for names."""

from __future__ import annotations

import argparse
import os
import re
from typing import Dict, Iterable, Iterator, Optional, Tuple, Union

from aclck import ALLOW, Ace, AceFlag, Entry, NfsAcl, PosixAcl, Refused, TarStyle
from aclck.tar_texts import unspelled
from aclck_tree.output.errors import TreeError
from aclck_tree.people.accounts import known_id, known_name
from aclck_tree.scan.headers import accounts_in

from .streams import read_file, short
from .values import WITH_NAMES, NamedId, read_posix, style_of

_ID = re.compile(rb"[0-9]+")
_NO_ACCOUNT = re.compile(rb"[0-9]+|.*@", re.DOTALL)  # an id, or a special identifier
_ROW = re.compile(rb"([ug]):(.+)=([0-9]{1,10})")
_LARGEST = 4294967294

Name = Union[str, bytes]


class SystemIds:
    """The names and ids of users and groups that this system knows, by getpwnam(3) and getgrnam(3). It is asked about
    one at a time, because a directory service may not list them."""

    def number_of(self, is_group: bool, name: bytes) -> Optional[int]:
        """Returns the id of a name, or None."""
        return known_id(is_group, name)

    def name_of(self, is_group: bool, number: int) -> Optional[bytes]:
        """Returns the name of an id, or None."""
        return known_name(is_group, number)


class Table(SystemIds):
    """The names and the ids of a file: a line `u:NAME=ID` for a user, and `g:NAME=ID` for a group."""

    def __init__(self, data: bytes) -> None:
        """Raises TreeError if a line is none of these, or has a name or an id that an earlier line has."""
        self._numbers: Dict[Tuple[bool, bytes], int] = {}
        self._names: Dict[Tuple[bool, int], bytes] = {}
        for place, line in enumerate(data.split(b"\n"), 1):
            row = _ROW.fullmatch(line)
            if row and int(row[3]) <= _LARGEST:
                name, number = (row[1] == b"g", row[2]), (row[1] == b"g", int(row[3]))
                if name in self._numbers or number in self._names:
                    raise TreeError(f"line {place} of the names has a name or an id that an earlier line has")
                self._numbers[name], self._names[number] = number[1], name[1]
            elif line and not line.startswith(b"#"):
                raise TreeError(f"line {place} of the names is neither u:NAME=ID nor g:NAME=ID")

    def number_of(self, is_group: bool, name: bytes) -> Optional[int]:
        return self._numbers.get((is_group, name))

    def name_of(self, is_group: bool, number: int) -> Optional[bytes]:
        return self._names.get((is_group, number))


def accounts_of(args: argparse.Namespace) -> Optional[SystemIds]:
    """Returns the accounts of `--names` or `--system`, or None without these. Raises TreeError if the file of names is
    refused, and OSError if it cannot be read."""
    if args.system:
        return SystemIds()
    return None if args.names is None else Table(short(read_file(args.names, "the names are")))


def suffix_of(args: argparse.Namespace) -> bytes:
    """Returns what the names of a list have behind the names of accounts: `--domain`, with its `@`."""
    return b"" if args.domain is None else b"@" + os.fsencode(args.domain)


def exchanged(acl: NfsAcl, accounts: SystemIds, to_ids: bool, suffix: bytes) -> NfsAcl:
    """Returns the list with ids in place of the names that end with the suffix, or with such names in place of ids.
    What the accounts do not have stays, and so does a name of digits alone, which is an id.

    Raises Refused with the place of the ACE if two names would become one, or a new name is none that a list can have,
    and TreeError if a name and an id are not each other's only one.
    """
    tables: Tuple[Dict[Name, Name], ...] = ({}, {})
    for place, ace in enumerate(acl):
        who, table = ace.who.encode("utf-8", "surrogateescape"), tables[ace.is_group]
        if who in table or bool(_ID.fullmatch(who)) == to_ids or to_ids and not who.endswith(suffix):
            continue
        name = who[:len(who) - len(suffix)] if to_ids else accounts.name_of(ace.is_group, int(who))
        number = None if name is None else accounts.number_of(ace.is_group, name)
        if name is None or number is None or _NO_ACCOUNT.fullmatch(name + suffix):
            continue
        if accounts.name_of(ace.is_group, number) != name or not to_ids and number != int(who):
            raise TreeError(f"the id {number} has two names at ACE {place}")
        table[who] = b"%d" % number if to_ids else _judged(name + suffix, place)
    return acl.renamed(*tables)


class _Spelled(SystemIds):
    """Accounts by their names as a text has them."""

    def __init__(self, accounts: SystemIds, style: TarStyle) -> None:
        self._accounts, self._style = accounts, style

    def number_of(self, is_group: bool, name: bytes) -> Optional[int]:
        return self._accounts.number_of(is_group, os.fsencode(unspelled(os.fsdecode(name), self._style)))


def ids_of_names(text: bytes, accounts: SystemIds, style: TarStyle) -> Iterator[NamedId]:
    """Yields the names that a text of a POSIX ACL has and the accounts know. Raises TreeError if a name and an id are
    not each other's only one."""
    for word, number, is_group in accounts_in(text, _Spelled(accounts, style)):
        name = unspelled(word, style)
        if accounts.name_of(is_group, number) != os.fsencode(name):
            raise TreeError(f"the id {number} has two names")
        yield name, number, is_group


def posix_with_names(form: str, data: bytes, mode: Optional[int], accounts: Optional[SystemIds]) -> PosixAcl:
    """Returns the POSIX ACL of a value, whose names are those of the accounts if it may have names. Raises Refused,
    and TreeError if the value is too long, or a name and an id are not each other's only one."""
    value = short(data)
    names = ids_of_names(value, accounts, style_of(form)) if accounts and form in WITH_NAMES else ()
    return read_posix(form, value, mode, names)


def names_of_ids(entries: Iterable[Entry], accounts: SystemIds) -> Iterator[NamedId]:
    """Yields the names that the accounts have for the ids of entries, but for those of digits alone. Raises TreeError
    if a name and an id are not each other's only one."""
    for is_group, number in sorted({(entry.tag == "group", entry.id) for entry in entries if entry.id is not None}):
        name = accounts.name_of(is_group, number)
        if name is None or _ID.fullmatch(name):
            continue
        if accounts.number_of(is_group, name) != number:
            raise TreeError(f"the id {number} has two names")
        yield os.fsdecode(name), number, is_group


def _judged(name: bytes, place: int) -> bytes:
    """Returns a name for the ACE at this place. Raises Refused if no list can have the name."""
    try:
        NfsAcl.from_aces([Ace(ALLOW, AceFlag(0), 0, name.decode("utf-8", "surrogateescape"))])
    except Refused as refused:
        raise Refused(refused.reason, ace=place) from None
    return name
