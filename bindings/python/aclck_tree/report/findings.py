"""What an auditor looks for first in a snapshot."""

from __future__ import annotations

import functools
import re
import stat
import struct
from dataclasses import dataclass, field
from typing import Dict, FrozenSet, Iterator, List, NamedTuple, Optional, Sequence, Set, Tuple

from aclck import (
    ALLOW,
    APPEND_DATA,
    DELETE,
    DELETE_CHILD,
    READ_DATA,
    WRITE_ACL,
    WRITE_DATA,
    WRITE_OWNER,
    Ace,
    AceFlag,
    Entry,
    NfsAcl,
    PosixAcl,
    mask_text,
)

from aclck_tree.answer.ask import Asker
from aclck_tree.answer.compare import named
from aclck_tree.answer.lists import AskableList, RefusedList, pieces, ready
from aclck_tree.output.text import quoted, special_bits
from aclck_tree.people.people import Accounts, Person, read_id
from aclck_tree.snapshot.snapshot import Face

CHANGES = WRITE_DATA | APPEND_DATA | DELETE_CHILD | DELETE | WRITE_ACL | WRITE_OWNER
"""The rights with which somebody changes an object, its list or its owner."""

INHERITED = AceFlag.FILE_INHERIT | AceFlag.DIRECTORY_INHERIT
"""The flags of an ACE that new files or directories inherit."""


@dataclass
class Finding:
    """One kind of finding: which faces it was found for, with the words for each, and whether only directories
    count. In `sentence`, `{}` is for the objects, such as `14 folders and 1 file`."""

    key: str
    title: str
    sentence: str
    about: str
    directories_only: bool = False
    faces: Dict[int, str] = field(default_factory=dict)


def _kinds() -> List[Finding]:
    """Returns all kinds of finding in the order of the page, without faces."""
    return [
        Finding("refused", "refused lists", "The lists of {} are refused.",
                "No question about these objects has an answer."),
        Finding("everyone", "writable by everybody", "{} can be changed by everybody.",
                "Somebody who is not the owner, whom no entry names, and who is in no group, has these rights."),
        Finding("readable", "readable by everybody", "{} can be read by everybody.",
                "Somebody who is not the owner, whom no entry names, and who is in no group, may read these."),
        Finding("obtainable", "objects that others could change",
                "{} could be changed by somebody who may not do so now.",
                "Each of these people alone could come to write there, by setting a list, or by putting another object "
                "at the path. Root is not named. aclck-tree who --may w --obtain says by which steps."),
        Finding("write-acl", "somebody who may change a list but not read the object",
                "Somebody may change the lists of {}, but not read these objects.",
                "Whoever may change the list of an object can have every right on it."),
        Finding("bits", "setuid, setgid and sticky bits", "A setuid, setgid or sticky bit is set on {}.",
                "These bits of the mode are beside the list. A program with setuid or setgid runs as its owner or "
                "group, and new files in a folder with setgid get its group. In a folder with the sticky bit, only "
                "the owner of a file and the owner of the folder may remove or rename it."),
        Finding("no-account", "ids without an account", "Ids without an account own or may use {}.",
                "A list or the ownership names an id that the scanned system had no account for."),
        Finding("children", "folders that pass on something else",
                "New folders or new files in {} get other access than the folder itself.",
                "The list of a new directory or of a new file in these directories grants something else.", True),
        Finding("special", "special identifiers", "The lists of {} have special identifiers.",
                "Some answers depend on whom the server takes for these."),
        Finding("idle", "entries that change nothing", "The lists of {} have entries or rights that change nothing.",
                "Without all that is named here the list grants everybody the same. What new files and folders in a "
                "folder inherit is named only if they get the same without it."),
    ]


def findings(asker: Asker, directories: Set[int], stranger: Person) -> List[Finding]:
    """Returns all findings; `directories` are the faces that directories have, and `stranger` is somebody whom nothing
    names."""
    faces = asker.faces
    kinds = _kinds()
    refused, everyone, readable, _, write_acl, _, no_account, children, special, idle = kinds
    of_directories = {faces[number].list for number in directories}
    lists: Dict[int, _OfList] = {}
    for number, face in faces.items():
        asked = asker.ready(face.list)
        if isinstance(asked, RefusedList):
            refused.faces[number] = asked.reason
            continue
        if face.list not in lists:
            lists[face.list] = _of_list(asker, face.list, asked, face.list in of_directories)
        found = lists[face.list]
        granted = asker.granted(face, asked, stranger)
        for finding, words in ((everyone, mask_text(granted & CHANGES) if granted & CHANGES else ""),
                               (readable, mask_text(READ_DATA) if granted & READ_DATA else ""),
                               (write_acl, found.write_acl),
                               (no_account, _without_account(asker.accounts[face.tree], face, found.numbers)),
                               (special, " ".join(quoted(name) for name, _ in asked.specials)),
                               (idle, found.idle),
                               (children, found.children if number in directories else "")):
            if words:
                finding.faces[number] = words
    return kinds


def everyone_words(words: str, is_folder: bool, mode: int) -> str:
    """Returns what everybody may do to an object with this mode, given what its list grants everybody."""
    return f"{words}, with the sticky bit" if is_folder and mode & stat.S_ISVTX else words


def special_bits_words(accounts: Accounts, face: Face, mode: int) -> str:
    """Returns the special bits of a mode, with the account that setuid or setgid gives to a program."""
    account = {"setuid": ", owner " + accounts.named(False, face.uid),
               "setgid": ", group " + accounts.named(True, face.gid)}
    return "; ".join(bit + account.get(bit, "") for bit in special_bits(mode))


def _without_account(accounts: Accounts, face: Face, numbers: Sequence[Tuple[bool, str]]) -> str:
    found = [f"{word} {number}" for word, is_group, number in
             (("owner", False, face.uid), ("group", True, face.gid)) if (is_group, number) not in accounts.names]
    for is_group, name in numbers:
        if (is_group, read_id(_bare(name))) not in accounts.names:
            found.append(f"{'group' if is_group else 'user'} {quoted(name)}")
    return ", ".join(found)


def _bare(name: str) -> str:
    return name.partition("@")[0]


class _OfList(NamedTuple):
    """What was found about a list: the names in digits to which it allows something, what of it changes nothing, what
    new objects in a directory with it get, and who may change it but not read the object."""

    numbers: List[Tuple[bool, str]]
    idle: str
    children: str
    write_acl: str


def _of_list(asker: Asker, number: int, asked: AskableList, is_directory: bool) -> _OfList:
    """Returns what was found about the list with a number. A list of a directory is also asked what new objects get."""
    aces = list(asked.acl)
    idle = "; ".join(_idle_entries(asked.posix) if asked.posix else _idle(asked, aces, is_directory))
    # --linux changes what a list grants; a new directory gets the entries as they are.
    passes_on = ready(asker.stored[number]) if asked.posix else asked
    children = _child(passes_on) if is_directory and isinstance(passes_on, AskableList) else ""
    return _OfList(_granted_numbers(aces), idle, children, _only_sets(asked))


def _only_sets(asked: AskableList) -> str:
    """Returns in words whom an NFSv4 list lets change it but not read the object, or nothing if there is nobody. POSIX
    ACLs have no right to change them."""
    found = None if asked.posix else asked.acl.implies(WRITE_ACL, READ_DATA)
    return f"{named(found, asked)} may {mask_text(WRITE_ACL)} but not {mask_text(found.right)}" if found else ""


_NUMBER = re.compile("[0-9]+(?:@|\\Z)")
"""The beginning of a name in digits, with or without a domain."""


def _granted_numbers(aces: Sequence[Ace]) -> List[Tuple[bool, str]]:
    """Returns the names in digits, with or without a domain, to which an ACE allows something."""
    return sorted({(ace.is_group, ace.who) for ace in aces
                   if _NUMBER.match(ace.who) and ace.kind is ALLOW and ace.mask})


def _child(asked: AskableList) -> str:
    """Returns in words how the lists of a new directory and of a new file differ, or nothing if they grant the same.
    For a POSIX ACL without a default part, the mode and the umask of the process that makes the object decide."""
    if asked.posix:
        default = [line[8:] for line in str(asked.posix).splitlines() if line.startswith("default:")]
        access = [line for line in str(asked.posix).splitlines() if not line.startswith("default:")]
        return "the default entries differ from the access entries" if default and default != access else ""
    folder, file = (_changed(asked, asked.acl.child(directory=directory)) for directory in (True, False))
    return folder if file in ("", folder) else "; ".join(filter(None, (folder, f"in new files {file}")))


def _changed(asked: AskableList, child: NfsAcl) -> str:
    """Returns in words whom `compare` names for a list and the list of a new object, or nothing if they grant the
    same."""
    other = asked.acl.compare(child)
    if other is None:
        return ""
    verb = "loses" if other.first_grants else "gains"
    return f"{named(other, asked)} {verb} {mask_text(other.right)}"


def _idle(asked: AskableList, aces: Sequence[Ace], is_directory: bool) -> Iterator[str]:
    """Yields the ACEs, and the rights of other ACEs, that can be removed all at once without any change. For a
    directory, what new objects below it get does not change either."""
    idle = [ace.mask & ~needed for ace, needed in zip(aces, asked.acl.needed())]
    if is_directory:
        idle = _idle_for_children(asked.acl, aces, idle)
    lines: List[str] = []
    for place, (ace, mask) in enumerate(zip(aces, idle)):
        if mask or not ace.mask:
            lines = lines or asked.lines()
            rights = "" if mask == ace.mask else f": {mask_text(mask)}"
            yield f"{asked.places[place]}: {lines[place]}{rights} changes nothing"


def _idle_for_children(acl: NfsAcl, aces: Sequence[Ace], idle: Sequence[int]) -> List[int]:
    """Returns which of the rights that change nothing on a directory also change nothing for new objects below it.

    If new objects would get something else, all that they inherit stays. A right that changes nothing together with an
    ACE that stays may change something by itself. Then it stays too, in all ACEs: about each right, the ACEs that have
    it decide, whatever other rights they have.
    """
    rest = [0 if ace.flags & INHERITED and ace.flags & AceFlag.INHERIT_ONLY else mask for ace, mask in zip(aces, idle)]
    if _without(acl, rest).inherited() == acl.inherited():
        return rest
    rest = [0 if ace.flags & INHERITED else mask for ace, mask in zip(aces, idle)]
    while True:
        difference = acl.compare(_without(acl, rest))
        if difference is None:
            return rest
        rest = [mask & ~difference.right for mask in rest]


def _without(acl: NfsAcl, idle: Sequence[int]) -> NfsAcl:
    """Returns a list without some rights of each ACE."""
    data = bytearray(bytes(acl))
    for piece, mask in zip(pieces(bytes(acl)), idle):
        struct.pack_into(">I", data, piece.start + 8, piece.mask & ~mask)
    return NfsAcl(bytes(data))


def _idle_entries(acl: PosixAcl) -> Iterator[str]:
    """Yields the named entries of the access part without which everybody has the same."""
    perms: Dict[Tuple[str, Optional[int]], int] = {(entry.tag, entry.id): entry.perm for entry in acl
                                                   if not entry.default}
    named_perms = {tag: frozenset(perm for (one, number), perm in perms.items() if one == tag and number is not None)
                   for tag in ("user", "group")}
    rest = _Rest(perms["group", None], perms.get(("mask", None)), perms["other", None])
    idle = _idle_classes(rest, named_perms["user"], named_perms["group"])
    for (tag, number), perm in perms.items():
        if number is not None and (tag, perm) in idle:
            yield f"{_entry(tag, number, perm)} changes nothing"


class _Rest(NamedTuple):
    """The permissions of the entries of the owning group, the mask and all others."""

    group: int
    mask: Optional[int]
    other: int


_OWNER, _OWNING_GROUP, _STRANGER, _USERS, _GROUPS = 1, 2, 3, 10, 20
"""Ids in the lists that `_idle_classes` makes: a user or a group with the permissions 5 is 15 or 25."""


@functools.lru_cache(maxsize=4096)
def _idle_classes(rest: _Rest, users: FrozenSet[int], groups: FrozenSet[int]) -> FrozenSet[Tuple[str, int]]:
    """Returns for which permissions a named user and a named group change nothing. A list has such users and groups.

    One user and one group for each permissions stand for all. Two entries of users match no requester both, and all
    that decides about a request is the set of permissions that the matching entries of groups have (acl(5), "ACCESS
    CHECK ALGORITHM"). So a list has one answer for a situation, and its entries are in at most sixteen classes.

    These situations suffice. A set of matching entries of groups grants a request if and only if one of them does. For
    the entry of a user, what decides without it is thus the same as the entry for all sets of groups, if it is the
    same for no group and for each single group. The entry of a group matters to strangers in that group. If it is the
    only one that matches, the entry of all others decides without it. Otherwise it adds to a set of groups if and only
    if it grants a request that none of the set grants, and then it adds to each single group of the set too.

    All such entries can go together: each grants what the entry of all others grants, and no more than each entry of a
    group.
    """
    entries = {("user", _USERS + perm): perm for perm in users}
    entries.update({("group", _GROUPS + perm): perm for perm in groups})
    whole = _small_list(rest, entries)
    members = [_OWNING_GROUP, *(_GROUPS + perm for perm in groups)]
    found = set()
    for (tag, number), perm in entries.items():
        without = _small_list(rest, {key: held for key, held in entries.items() if key != (tag, number)})
        user, own = (number, []) if tag == "user" else (_STRANGER, [number])
        situations = [own, *([*own, group] for group in members if group not in own)]
        if all(_asked(whole, user, chosen, want) == _asked(without, user, chosen, want)
               for chosen in situations for want in range(1, 8)):
            found.add((tag, perm))
    return frozenset(found)


def _asked(acl: PosixAcl, user: int, groups: List[int], want: int) -> bool:
    return acl.check(user=user, groups=groups, owner=_OWNER, group=_OWNING_GROUP, want=want)


def _small_list(rest: _Rest, entries: Dict[Tuple[str, int], int]) -> PosixAcl:
    lines = [_entry("user", None, 0), _entry("group", None, rest.group), _entry("other", None, rest.other)]
    lines += [_entry(tag, number, perm) for (tag, number), perm in entries.items()]
    if rest.mask is not None:
        lines.append(_entry("mask", None, rest.mask))
    return PosixAcl("\n".join(lines))


def _entry(tag: str, number: Optional[int], perm: int) -> str:
    return str(Entry(False, tag, number, perm))
