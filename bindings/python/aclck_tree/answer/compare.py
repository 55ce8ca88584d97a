"""How lists compare: which grant the same, and whether one grants more than another or less."""

from __future__ import annotations

import enum
from dataclasses import dataclass, field
from typing import AbstractSet, Callable, Dict, List, Mapping, NamedTuple, Optional, Tuple

from aclck import Difference, NfsAcl, PosixAcl

from aclck_tree.answer.ask import Asker
from aclck_tree.answer.lists import AskableList, RefusedList
from aclck_tree.answer.sides import Comparison, is_same_owner, who_at
from aclck_tree.output.text import ObjectName, quoted

Meaning = Tuple[str, bytes]
"""What a list grants, whoever owns the object: equal for two lists of one kind if they grant the same. For NFSv4 lists
it is equal only then. The form of a POSIX ACL is that of its bridge, which is about single permissions."""


def meaning(asked: AskableList, is_directory: bool = False) -> Meaning:
    """Returns what a list grants, and with `is_directory` also what everything made below it will grant."""
    return asked.kind, b"".join([own_form(asked), *(heir_forms(asked) if is_directory else ())])


def own_form(asked: AskableList) -> bytes:
    """Returns what the list itself grants: its normal form."""
    return _marked(asked, asked.acl.normal())


def grant_the_same(first: AskableList, second: AskableList) -> bool:
    """Returns whether two lists of one kind grant everybody the same. For POSIX ACLs every request is compared, also
    for several permissions at once."""
    if first.posix and second.posix:
        return first.posix.means_the_same(second.posix)
    return own_form(first) == own_form(second)


def heir_forms(asked: AskableList) -> Tuple[bytes, ...]:
    """Returns what everything made below a directory with the list will grant: the other four forms of
    `NfsAcl.inherited`, or the entries of the default ACL, which are empty if there is none."""
    if asked.posix:
        return (_default_entries(asked.posix),)
    return tuple(_marked(asked, form) for form in asked.acl.inherited()[1:])


def _marked(asked: AskableList, form: NfsAcl) -> bytes:
    """Returns the bytes of a form, and the special identifiers in it. So a group with the name of the group that
    replaces a special identifier elsewhere is not the same."""
    whos = {ace.who for ace in form} if asked.specials else set()
    return bytes(form) + "".join(f"{name}\n" for name, group in sorted(asked.specials) if group in whos).encode()


def _default_entries(acl: PosixAcl) -> bytes:
    """Returns the entries of the default ACL with what the mask leaves of each. A mode can take permissions from one
    entry of a new object and not from another, so two default ACLs are the same only if these entries are."""
    lines = []
    for line in acl.text("shown").splitlines():
        entry, _, effective = line.partition("\t#effective:")
        head, _, perms = entry.rpartition(":")
        if head.startswith("default:") and head != "default:mask:":
            lines.append(f"{head}:{effective or perms}\n")
    return "".join(lines).encode()


@dataclass
class SameClass:
    """Objects that grant the same: their number, the name of the first, and the numbers of their distinct lists."""

    kind: str
    refused: Optional[str]
    first: ObjectName
    lists: List[int] = field(default_factory=list)
    objects: int = 0


def same(asker: Asker, counts: Mapping[Tuple[int, bool], Tuple[int, ObjectName]],
         ) -> Tuple[List[SameClass], Dict[Tuple[int, bool], int]]:
    """Returns the classes, greatest first, those of one size by their first paths, and those of refused lists last; and
    the place of the class of each list.

    A count has the objects and the name of the first. The key of a count and of a place is the number of a list, and
    whether what will be made below counts too.
    """
    classes: Dict[Tuple[str, bytes, bool], SameClass] = {}
    firsts: Dict[Tuple[str, bytes, bool], AskableList] = {}
    places: Dict[Tuple[int, bool], SameClass] = {}
    for (number, is_directory), (objects, first) in counts.items():
        asked = asker.ready(number)
        if isinstance(asked, RefusedList):
            key, kind, refused = ("refused", b"%d" % number, False), "refused", asked.reason
        else:
            key, kind, refused = (*meaning(asked, is_directory), is_directory), asked.kind, None
            while asked.posix and not grant_the_same(firsts.setdefault(key, asked), asked):
                key = (key[0], key[1] + b"+", is_directory)
        one = classes.setdefault(key, SameClass(kind, refused, first))
        one.first = min(one.first, first)
        one.objects += objects
        one.lists.append(number)
        places[number, is_directory] = one
    ordered = sorted(classes.values(), key=lambda one: (one.refused is not None, -one.objects, one.first))
    numbers = {id(one): place for place, one in enumerate(ordered)}
    return ordered, {key: numbers[id(one)] for key, one in places.items()}


def named(difference: Difference, *lists: AskableList, name: Optional[Callable[[bool, str], str]] = None) -> str:
    """Returns whom `compare` names: the user and groups that one of the lists mentions, and the object's own. `name`
    makes a name of a who, and of whether it is a group.

    Names that no list mentions, which `compare` makes of one letter, are left out.
    """
    special = {group: known for asked in lists for known, group in asked.specials}
    return named_of(difference, special, {ace.who for asked in lists for ace in asked.acl}, name=name)


def named_of(difference: Difference, special: Mapping[str, str], *mentioned: AbstractSet[str],
             name: Optional[Callable[[bool, str], str]] = None) -> str:
    """Returns the same, given the special identifiers by the groups that replace them, and the names that lists
    mention."""
    def shown(is_group: bool, who: str) -> str:
        return quoted(special.get(who) or (name(is_group, who) if name else who))

    def is_mentioned(who: str) -> bool:
        return any(who in names for names in mentioned)

    words = [shown(False, difference.user) if is_mentioned(difference.user) else "anybody else"]
    words += [f"in {shown(True, group)}" for group in difference.groups if is_mentioned(group)]
    if difference.user == difference.owner:
        words.append("who owns it")
    if difference.group in difference.groups:
        words.append("who is in its group")
    return " ".join(words)


class Direction(str, enum.Enum):
    """What a change does: it gives somebody more and nobody less, or the other way round, or neither. A direction
    equals its word."""

    WIDER = "wider"
    NARROWER = "narrower"
    OTHER = "other"

    def __str__(self) -> str:
        return str(self.value)


class _Owned(NamedTuple):
    """A list, and the owner and the group of the object."""

    asked: AskableList
    owner: str
    group: str


class Directed(NamedTuple):
    """A direction, and a requester for whom the list grants a right more (True) or less (False) than before. In it, the
    owner and the group are those of the object if they are the same ones on both sides."""

    direction: Direction
    witnesses: Dict[bool, Difference]


def directed(question: Comparison, translated: AskableList) -> Directed:
    """Returns the direction of a change of a list, given the new list in the names of the old side. The owner and the
    group count as they are on each side."""
    old, new = question.old, question.new
    assert old and new
    before = _Owned(old.views[0].asked, old.owner(False), old.owner(True))
    after = _Owned(translated, *(who_at(new, old, is_group, new.owner(is_group)) for is_group in (False, True)))
    try:
        more, gained = _excess(after, before)
        less, lost = _excess(before, after)
    except ValueError:  # a name of an owner or a group cannot be in a list
        return Directed(Direction.OTHER, {})
    are_same = tuple(is_same_owner(question, is_group) for is_group in (False, True))
    witnesses = {is_more: found._replace(owner=after.owner if are_same[0] else "",
                                         group=after.group if are_same[1] else "")
                 for is_more, found in ((True, gained), (False, lost)) if found}
    return Directed(Direction.OTHER if more == less else Direction.WIDER if more else Direction.NARROWER, witnesses)


def _excess(one: _Owned, other: _Owned) -> Tuple[bool, Optional[Difference]]:
    """Returns whether a list grants anybody more than another one, and who gets one more right if that is so for a
    single right."""
    found = one.asked.acl.resolved(owner=one.owner, group=one.group).exceeds(
        other.asked.acl.resolved(owner=other.owner, group=other.group))
    if found or not one.asked.posix or not other.asked.posix:
        return found is not None, found
    return one.asked.posix.exceeds(other.asked.posix) is not None, None
