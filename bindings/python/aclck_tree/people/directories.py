"""People from the files that directory services write: LDIF (RFC 2849), and CSV. Groups can be members of groups, and
whoever is in a group is in all groups that it is in."""

from __future__ import annotations

import base64
import csv
import graphlib
import io
from dataclasses import dataclass, field
from typing import Dict, Iterable, Iterator, List, NoReturn, Optional, Sequence, Set, Tuple

from aclck_tree.output.errors import TreeError
from aclck_tree.output.files import opened_file
from aclck_tree.output.text import first_few, plural, quoted, tell
from aclck_tree.people.people import Person, made_person, read_id

_USERS = {"posixaccount", "account", "person", "user", "inetorgperson"}
_GROUPS = {"posixgroup", "group", "groupofnames", "groupofuniquenames", "groupofmembers"}
"""The object classes of users and of groups (RFC 2307, RFC 4519, and Active Directory), in small letters."""

_MEMBERS = ("member", "uniquemember")
"""The attributes with the distinguished names of members."""

_OF_SEARCHES = ("version", "search", "result", "ref", "control", "pagedresults")
"""What ldapsearch(1) writes beside entries."""

_BLANKS = " \t"
"""What may be around a name in CSV. Other characters that look like a blank are letters of the name."""

MEMBERSHIPS = 1_000_000
"""How many memberships the users of a file may have, all in all. One more is allowed for each letter of the file: one
line can put all users of a group into another one, so that a small file would have more than there is memory for."""

STEPS = 10
"""How many steps from a group to one that it is in may be made for each membership that is allowed: groups that are all
in each other take as many steps for each user as the file has letters."""

_COLUMNS = ("kind", "name", "id", "groups")
"""The columns of CSV. `kind` is `user` or `group`; `groups` has names with `;` between them."""


@dataclass
class _Account:
    """A user or a group of a file, with the groups that the file says it is in itself."""

    name: str
    number: Optional[int]
    groups: Dict[str, None] = field(default_factory=dict)


@dataclass
class _Accounts:
    """The users and the groups of a file by their names. `loose` are ids of groups that the file does not name. `most`
    is how many memberships the users may have."""

    place: str
    most: int
    users: Dict[str, _Account] = field(default_factory=dict)
    groups: Dict[str, _Account] = field(default_factory=dict)
    loose: Dict[str, int] = field(default_factory=dict)

    def add(self, is_group: bool, name: str, number: Optional[int], line: int) -> _Account:
        """Adds an account. Raises TreeError if its name is empty or that of an earlier account."""
        known = self.groups if is_group else self.users
        if not name:
            refuse(self.place, line, "a name is empty")
        if name in known:
            refuse(self.place, line, f"the {'group' if is_group else 'user'} {quoted(name)} is there already")
        known[name] = _Account(name, number)
        return known[name]

    def people(self) -> List[Person]:
        """Returns the users with all groups that they are in. Reports groups that are in each other."""
        try:
            graphlib.TopologicalSorter({name: one.groups for name, one in self.groups.items()}).prepare()
        except graphlib.CycleError as error:
            names = list(dict.fromkeys(error.args[1]))
            tell(f"{quoted(self.place)}: these groups are in each other, and have the same members: "
                 f"{first_few(names, quoted)}")
        return [made_person((one.name, one.number), [(group, self._id(group)) for group in groups])
                for one, groups in self._users()]

    def _users(self) -> Iterator[Tuple[_Account, List[str]]]:
        """Yields the users, each with all its groups. Raises TreeError if they have more memberships than are read, or
        if it takes too many steps to find them."""
        left, steps = self.most, STEPS * self.most
        for one in self.users.values():
            groups = self._all(one.groups)
            steps -= sum(len(self.groups[group].groups) for group in groups if group in self.groups)
            if steps < 0:
                raise TreeError(f"{quoted(self.place)}: its groups are in each other in more ways than are followed in "
                                "a file of its size")
            left -= len(groups)
            if left < 0:
                raise TreeError(f"{quoted(self.place)}: its users are in more than {self.most:,} groups, all in all, "
                                "which is more than is read of a file of its size")
            yield one, groups

    def _id(self, group: str) -> Optional[int]:
        return self.groups[group].number if group in self.groups else self.loose.get(group)

    def _all(self, direct: Iterable[str]) -> List[str]:
        """Returns some groups and all groups that they are in."""
        found = dict.fromkeys(direct)
        left = list(found)
        while left:
            known = self.groups.get(left.pop())
            for group in known.groups if known else ():
                if group not in found:
                    found[group] = None
                    left.append(group)
        return list(found)


def refuse(place: str, line: int, reason: str) -> NoReturn:
    """Raises TreeError about a line of a file."""
    raise TreeError(f"{quoted(place)}: line {line}: {reason}")


def _id_in(place: str, line: int, text: str) -> Optional[int]:
    number = read_id(text) if text else None
    if text and number is None:
        refuse(place, line, f"{quoted(text)} is not an id")
    return number


def _text(place: str) -> str:
    try:
        with opened_file(place) as file:
            return file.read().decode("utf-8-sig", "surrogateescape")
    except OSError as error:
        raise TreeError(f"{quoted(place)}: {error.strerror}") from None


def people_of_csv(place: str) -> List[Person]:
    """Reads people from CSV (RFC 4180) with the columns `name` and `groups`, and perhaps `kind` and `id`. Raises
    TreeError, with the line, if it has other columns, or if a row names no account, or one of an earlier row."""
    text = _text(place)
    reader = csv.DictReader(io.StringIO(text, newline=""), strict=True)
    accounts = _Accounts(place, MEMBERSHIPS + len(text))
    try:
        columns = reader.fieldnames or []
        if not {"name", "groups"} <= set(columns) <= set(_COLUMNS) or len(set(columns)) < len(columns):
            refuse(place, 1, "the columns are not name and groups, with kind and id if they are known")
        for row in reader:
            line = reader.line_num
            if None in row or None in row.values():
                refuse(place, line, "it has not one cell per column")
            kind = row.get("kind") or "user"
            if kind not in ("user", "group"):
                refuse(place, line, f"the kind is {quoted(kind)}, and not user or group")
            number = _id_in(place, line, row.get("id", "").strip(_BLANKS))
            one = accounts.add(kind == "group", row["name"].strip(_BLANKS), number, line)
            groups = (name.strip(_BLANKS) for name in row["groups"].split(";"))
            one.groups.update(dict.fromkeys(filter(None, groups)))
    except csv.Error as error:
        refuse(place, reader.line_num, str(error))
    return accounts.people()


@dataclass
class _Entry:
    """An entry of LDIF: its line, its name, and the values of its attributes by their names in small letters."""

    line: int
    name: str
    values: Dict[str, List[bytes]] = field(default_factory=dict)

    def first_bytes(self, *attributes: str) -> bytes:
        """Returns the first value of the first attribute that the entry has, or nothing."""
        return next((self.values[one][0] for one in attributes if one in self.values), b"")

    def first(self, *attributes: str) -> str:
        """Returns the same as text."""
        return self.first_bytes(*attributes).decode("utf-8", "surrogateescape")

    def all(self, *attributes: str) -> List[str]:
        """Returns all values of some attributes."""
        return [value.decode("utf-8", "surrogateescape") for one in attributes for value in self.values.get(one, ())]

    def is_user(self) -> bool:
        """Whether an object class says that it is a user. Whoever may add the class of a group to an entry of such a
        user could hide the user otherwise."""
        return not {one.lower() for one in self.all("objectclass")}.isdisjoint(_USERS)

    def is_group(self) -> Optional[bool]:
        """Whether it is a group, or None if it is no account. An entry without an object class that has members is a
        group, and one that has the name of a user is a user."""
        classes = {one.lower() for one in self.all("objectclass")}
        if classes & _GROUPS or not classes and self.values.keys() & {*_MEMBERS, "memberuid"}:
            return True
        if classes & _USERS or not classes and self.values.keys() & {"uid", "samaccountname"}:
            return False
        return None


def _lines(text: str) -> Iterator[Tuple[int, str]]:
    """Yields the lines of LDIF with their numbers. A line that begins with a blank continues the one before, if that is
    not empty."""
    held: Optional[Tuple[int, List[str]]] = None
    for number, line in enumerate(text.split("\n"), 1):
        line = line[:-1] if line.endswith("\r") else line
        if line.startswith(" ") and held and held[1][0]:
            held[1].append(line[1:])
            continue
        if held:
            yield held[0], "".join(held[1])
        held = number, [line]
    if held:
        yield held[0], "".join(held[1])
    yield 0, ""


def _value(place: str, number: int, text: str) -> bytes:
    """Returns the value of an attribute, after the first colon behind its name."""
    if text.startswith("<"):
        refuse(place, number, "the value is in another file")
    if text.startswith(":"):
        try:
            return base64.b64decode(text[1:].strip(" "), validate=True)
        except ValueError:
            refuse(place, number, "the value is not base64")
    return text.lstrip(" ").encode("utf-8", "surrogateescape")


def _entries(place: str, whole: str) -> Iterator[_Entry]:
    """Yields the entries of LDIF, of which this is the text."""
    entry: Optional[_Entry] = None
    for number, line in _lines(whole):
        if line.startswith("#"):
            continue
        if not line.strip(" "):
            if entry:
                yield entry
            entry = None
            continue
        attribute, colon, text = line.partition(":")
        attribute, *options = attribute.lower().split(";")
        if any(one.startswith("range=") and one != "range=0-*" for one in options):
            refuse(place, number, "it has only some of the values")
        if not colon or not attribute or attribute.startswith(" "):
            refuse(place, number, "it is no line of LDIF")
        value = _value(place, number, text)
        if any(one.startswith("lang-") for one in options):  # the name in another language (RFC 3866)
            continue
        if attribute == "dn" and entry:
            refuse(place, number, "no empty line is in front of the entry")
        elif attribute == "dn":
            entry = _Entry(number, value.decode("utf-8", "surrogateescape"))
        elif attribute == "changetype":
            if value.strip().lower() != b"add":  # ldifde writes this about each entry
                refuse(place, number, "it is a change, and no entry")
        elif entry:
            entry.values.setdefault(attribute, []).append(value)
        elif attribute == "result" and value.split(b" ")[0] != b"0":
            refuse(place, number, "the search did not end well, and entries may be missing")
        elif attribute not in _OF_SEARCHES:
            refuse(place, number, "an entry does not begin with dn")


def _folded(name: str) -> str:
    """Returns a distinguished name in the form in which two are compared: without case, and without blanks around `,`
    and `=`."""
    return ",".join("=".join(side.strip() for side in part.split("=", 1)) for part in name.casefold().split(","))


def people_of_ldif(place: str) -> List[Person]:
    """Reads people from LDIF: users with `uid` or `sAMAccountName`, and groups with `member`, `uniqueMember` or
    `memberUid`, or `memberOf` of the members. The own groups of a user are those of `gidNumber` and `primaryGroupID`.

    Raises TreeError, with the line, if the file has another form, has a name twice, or does not have a group that an
    entry is in. Reports members that the file does not have.
    """
    text = _text(place)
    accounts = _Accounts(place, MEMBERSHIPS + len(text))
    of_names: Dict[str, _Account] = {}
    found: List[Tuple[_Entry, _Account, bool]] = []
    for entry in _entries(place, text):
        is_group = entry.is_group()
        if is_group is None:
            continue
        if is_group and entry.is_user():
            refuse(place, entry.line, f"{quoted(entry.name)} is a user and a group")
        name = entry.first("samaccountname", *(("cn",) if is_group else ("uid", "cn")))
        number = _id_in(place, entry.line, entry.first("gidnumber" if is_group else "uidnumber"))
        if _folded(entry.name) in of_names:
            refuse(place, entry.line, f"the entry {quoted(entry.name)} is there already")
        account = of_names[_folded(entry.name)] = accounts.add(is_group, name, number, entry.line)
        found.append((entry, account, is_group))
    absent = _joined(accounts, found, of_names)
    if absent:
        tell(f"{quoted(place)}: {plural(len(absent), 'name')} of members not in the file: "
             f"{first_few(sorted(absent), quoted)}")
    return accounts.people()


def _joined(accounts: _Accounts, found: Sequence[Tuple[_Entry, _Account, bool]],
            of_names: Dict[str, _Account]) -> Set[str]:
    """Puts each account into its groups, and returns the members that are no accounts of the file."""
    absent: Set[str] = set()
    groups = {id(one): one.name for one in accounts.groups.values()}
    by_number = {one.number: one.name for one in accounts.groups.values() if one.number is not None}
    by_sid = {entry.values["objectsid"][0]: one.name for entry, one, is_group in found
              if is_group and "objectsid" in entry.values}
    for entry, one, is_group in found:
        for member in entry.all(*_MEMBERS) if is_group else ():
            known = of_names.get(_folded(member))
            if known:
                known.groups[one.name] = None
            else:
                absent.add(member)
        for member in entry.all("memberuid") if is_group else ():
            if member in accounts.users:
                accounts.users[member].groups[one.name] = None
            else:
                absent.add(member)
        for group in entry.all("memberof"):
            known = of_names.get(_folded(group))
            if not known or id(known) not in groups:
                refuse(accounts.place, entry.line,
                       f"{quoted(one.name)} is in {quoted(group)}, and the file does not have this group")
            one.groups[known.name] = None
        if not is_group:
            _put_own(accounts, entry, one, by_number, by_sid)
    return absent


def _sibling(sid: bytes, relative: int) -> bytes:
    """Returns the SID that differs from another one in its last number, in bytes or as text as the other one is."""
    if sid.startswith(b"S-"):
        return sid.rpartition(b"-")[0] + b"-%d" % relative
    return sid[:-4] + relative.to_bytes(4, "little")


def _put_own(accounts: _Accounts, entry: _Entry, user: _Account, by_number: Dict[int, str],
             by_sid: Dict[bytes, str]) -> None:
    """Puts a user into its own groups, in front of the others."""
    number = _id_in(accounts.place, entry.line, entry.first("gidnumber"))
    relative = _id_in(accounts.place, entry.line, entry.first("primarygroupid"))
    own: List[str] = []
    if number is not None:
        own.append(by_number.get(number, str(number)))
        if number not in by_number:
            accounts.loose[str(number)] = number
    if relative is not None:
        name = by_sid.get(_sibling(entry.first_bytes("objectsid"), relative))
        if name is None:
            refuse(accounts.place, entry.line,
                   f"the file does not have the group with the number {relative} that is the own one of "
                   f"{quoted(user.name)}")
        own.append(name)
    user.groups = {**dict.fromkeys(own), **user.groups}
