"""Judges the objects of a snapshot by the rules of a policy. The library decides whether a list exceeds another one.

Both lists are taken for the object itself, in which OWNER@ is its owner and GROUP@ its group. What is created in a
directory will have owners and groups that nobody knows, so these lists are compared for all of them.
"""

from __future__ import annotations

import enum
import functools
from dataclasses import replace
from typing import Callable, Dict, FrozenSet, Iterator, List, NamedTuple, Optional, Sequence, Tuple

from aclck import ALL, ALLOW, Ace, AceFlag, Difference, NfsAcl, mask_text
from aclck.entries import letters_of

from aclck_tree.answer.ask import Asker
from aclck_tree.answer.compare import named_of
from aclck_tree.answer.creations import creations
from aclck_tree.answer.identities import Identity
from aclck_tree.answer.lists import POSIX_MASKS, AskableList, Kind, RefusedList
from aclck_tree.answer.posix import check
from aclck_tree.answer.steps import Way
from aclck_tree.output.text import quoted
from aclck_tree.people.people import Person, read_id
from aclck_tree.policy.limits import Limit, Limits, Unjudged, lacks, no_ids
from aclck_tree.policy.policies import Rule
from aclck_tree.snapshot.snapshot import Face


class Verdict(str, enum.Enum):
    """What is found about an object and a bound of a rule. A verdict equals its word."""

    BROKEN = "broken"
    UNKNOWN = "unknown"


class Breach(NamedTuple):
    """How an object breaks a bound of a rule, or why that is not known (`reason`).

    `on` says what is created in the object if that breaks the rule. `who` has the rights, or with `at_least` has them
    not: it is the name of one of the people (`is_known`), or words. `decided_by` is the ACE or entry that decides about
    the first of the rights, and `place` its place in the list. The steps by which `who` could come to have them depend
    on `way`.
    """

    verdict: Verdict
    bound: str
    on: str = ""
    who: str = ""
    is_known: bool = False
    rights: str = ""
    place: Optional[int] = None
    decided_by: str = ""
    reason: str = ""
    way: Optional[Way] = None


class _View(NamedTuple):
    """A list to judge: of an object with its owner and group, or of what is created in it (`on`)."""

    asked: AskableList
    face: Face
    owner: str
    group: str
    on: str = ""

    @property
    def kind(self) -> Kind:
        """The kind of the list."""
        return self.asked.kind


class _Case(NamedTuple):
    """A list to judge, and the list of a bound, which it must not exceed (`is_most`) or must not fall short of."""

    view: _View
    limit: Limit
    is_most: bool

    def unknown(self, reason: str) -> Breach:
        """Returns that nothing is known, and why."""
        return Breach(Verdict.UNKNOWN, bound_word(self.is_most), self.view.on, reason=reason)

    def excess(self, mine: NfsAcl, other: NfsAcl) -> Optional[Difference]:
        """Returns what a list grants beyond the list of the bound, or fails to grant of it."""
        return mine.exceeds(other) if self.is_most else other.exceeds(mine)


def bound_word(is_most: bool) -> str:
    """Returns the key of a bound."""
    return "at_most" if is_most else "at_least"


def _certain(asked: AskableList, is_most: bool) -> NfsAcl:
    """Returns a list that grants only what a list with special identifiers grants whoever their members are; or without
    `is_most`, one that grants whatever it grants in some case."""
    stand_ins = {group for _, group in asked.specials}
    aces: List[Ace] = []
    for ace in asked.acl:
        if ace.who not in stand_ins:
            aces.append(ace)
        elif (ace.kind == ALLOW) != is_most:
            aces.append(ace._replace(who="EVERYONE@", flags=ace.flags & ~AceFlag.IDENTIFIER_GROUP))
    return NfsAcl.from_aces(aces)


class _Held:
    """A list in which OWNER@ and GROUP@ are names, or those of the stranger who owns what is created. What it grants
    the people does not depend on anything but the kind of list and the tree, by which they have names (`granted`)."""

    def __init__(self, acl: NfsAcl) -> None:
        self.acl = acl
        self.granted: Dict[Tuple[Kind, int], Sequence[Optional[int]]] = {}

    @functools.cached_property
    def names(self) -> FrozenSet[str]:
        """The names in the list."""
        return frozenset(ace.who for ace in self.acl)


class _Kept:
    """What is kept about one face: its list for the object itself (None) and what is certain of it, the text of its
    ACEs, and what was judged."""

    def __init__(self) -> None:
        self.lists: Dict[Optional[bool], _Held] = {}
        self.judged: Dict[Tuple[int, bool], Optional[Breach]] = {}
        self.lines: List[str] = []


_MOST_HELD = 10_000
"""How many lists of bounds are kept that are made for an owner and a group."""

_MOST_GRANTED = 4_000_000
"""How many answers about people are kept with them."""

_MOST_TREES = 8
"""For how many trees they are kept."""


class Judge:
    """Judges faces by rules."""

    def __init__(self, asker: Asker, stranger: Person) -> None:
        """`stranger` is somebody whom nothing in the snapshot names."""
        self._asker = asker
        self._limits = Limits(asker)
        self._stranger = stranger
        self._view: Optional[_View] = None
        self._kept = _Kept()
        self._names: Dict[int, FrozenSet[str]] = {}
        self._bounds: Dict[Tuple[int, Optional[str], Optional[str]], _Held] = {}
        self._children: Dict[Tuple[int, bool, int, int], Tuple[Breach, ...]] = {}

    def breaches(self, rule: Rule, number: int, is_directory: bool) -> Tuple[Breach, ...]:
        """Returns how the objects of a face break a rule. It is quick if all rules about one face are asked one after
        another."""
        face = self._asker.faces[number]
        found: List[Breach] = []
        for is_most, bound in ((True, rule.at_most), (False, rule.at_least)):
            if bound is not None:
                found += self._of_bound(rule, is_most, face, is_directory and rule.children)
        return tuple(found)

    def _of_bound(self, rule: Rule, is_most: bool, face: Face, with_children: bool) -> Iterator[Breach]:
        asked = self._asker.ready(face.list)
        if isinstance(asked, RefusedList):
            yield Breach(Verdict.UNKNOWN, bound_word(is_most), reason=f"refused {asked.reason}")
            return
        limit = self._limits.of(rule, is_most, asked.kind, face.tree)
        if isinstance(limit, Unjudged):
            yield Breach(Verdict.UNKNOWN, bound_word(is_most), reason=limit.reason)
            return
        view = self._view
        if view is None or view.face is not face:
            view = self._view = _View(asked, face, *self._asker.owner_and_group(face, asked.kind))
            self._kept = _Kept()
        judged = self._kept.judged
        if (id(limit), is_most) not in judged:
            judged[id(limit), is_most] = self._judged(_Case(view, limit, is_most))
        own = judged[id(limit), is_most]
        if own:
            yield own
        if limit.lacking:
            yield Breach(Verdict.UNKNOWN, bound_word(is_most), reason=lacks(limit.lacking))
        if with_children:
            key = (id(limit), is_most, face.list, face.tree)
            if key not in self._children:
                self._children[key] = tuple(self._of_children(view, limit, is_most))
            yield from self._children[key]

    def _judged(self, case: _Case) -> Optional[Breach]:
        """Returns how a list breaks a bound, or None if it does not."""
        try:
            found = self._single(case) or self._several(case)
        except ValueError as error:  # a name of the owner or the group cannot be in a list
            view = case.view
            return case.unknown(f"owner {quoted(view.owner)}, group {quoted(view.group)}: {error}")
        if case.limit.without_ids and (found is None) != case.is_most:
            return case.unknown(no_ids(case.limit.without_ids))
        return found

    def _single(self, case: _Case) -> Optional[Breach]:
        """Returns how a list breaks a bound for one right."""
        view = case.view
        mine, other = self._list(view, None), self._bound(case)
        found = case.excess(mine.acl, other.acl)
        is_unsure = not other.names.isdisjoint(group for _, group in view.asked.specials)
        if view.asked.specials and (found or is_unsure):
            mine = self._list(view, case.is_most)
            found = case.excess(mine.acl, other.acl)
            if not found:
                return case.unknown(f"depends on who is {', '.join(quoted(name) for name, _ in view.asked.specials)}")
        return self._witness(case, mine, other, found) if found else None

    def _bound(self, case: _Case) -> _Held:
        """Returns the list of a bound for the object itself: the same for all owners and groups that it does not
        name."""
        view, acl = case.view, case.limit.acl
        key: Tuple[int, Optional[str], Optional[str]] = id(case.limit), None, None
        if not view.on:
            names = self._names_in(case.limit)
            key = (id(case.limit), view.owner if "OWNER@" in names else "", view.group if "GROUP@" in names else "")
        if key not in self._bounds:
            if len(self._bounds) > min(_MOST_HELD, _MOST_GRANTED // (len(self._asker.people) + 1)):
                self._bounds.clear()
            self._bounds[key] = _Held(acl if view.on else acl.resolved(owner=view.owner, group=view.group))
        return self._bounds[key]

    def _names_in(self, limit: Limit) -> FrozenSet[str]:
        """Returns the names in the list of a bound."""
        if id(limit) not in self._names:  # `Limits` keeps the limit
            self._names[id(limit)] = frozenset(ace.who for ace in limit.acl)
        return self._names[id(limit)]

    def _list(self, view: _View, is_most: Optional[bool]) -> _Held:
        """Returns the list of a view for the object itself, or with `is_most` what is certain of it."""
        lists = {} if view.on else self._kept.lists
        if is_most not in lists:
            acl = view.asked.acl if is_most is None else _certain(view.asked, is_most)
            lists[is_most] = _Held(acl if view.on else acl.resolved(owner=view.owner, group=view.group))
        return lists[is_most]

    def _granted(self, view: _View, held: _Held) -> Sequence[Optional[int]]:
        """Returns what each of the people is granted by a list on the object."""
        key = view.kind, view.face.tree
        if key not in held.granted:
            if len(held.granted) == _MOST_TREES:
                held.granted.clear()
            held.granted[key] = self._asker.granted_by(held.acl, view.face, view.kind, view.owner, view.group)
        return held.granted[key]

    def _witness(self, case: _Case, mine: _Held, other: _Held, found: Difference) -> Breach:
        """Returns a breach with the first of the people whom the lists treat differently, or else with the requester
        whom the library names."""
        view, (more, less) = case.view, (mine, other) if case.is_most else (other, mine)
        for person, one, two in zip(self._asker.people, self._granted(view, more), self._granted(view, less)):
            rights = (one or 0) & ~(ALL if two is None else two)  # nobody is named of whom it is not known
            identity = self._asker.identity(person, view.face, view.kind) if rights else None
            if identity:
                return self._breach(case, (person.name, True), identity, (view.owner, view.group), rights)
        where = (found.owner, found.group) if view.on else (view.owner, view.group)
        rights, others = (one.acl.granted(user=found.user, groups=found.groups, owner=where[0], group=where[1])
                          for one in (more, less))
        special = {group: name for name, group in view.asked.specials}
        words = named_of(found._replace(owner=where[0], group=where[1]), special, mine.names, other.names,
                         name=self._name_of(view))
        return self._breach(case, (words, False), Identity(found.user, found.groups), where, rights & ~others)

    def _name_of(self, view: _View) -> Callable[[bool, str], str]:
        accounts = self._asker.accounts[view.face.tree]

        def name(is_group: bool, who: str) -> str:
            number = read_id(who) if view.kind is Kind.POSIX else None
            return who if number is None else accounts.name(is_group, number)
        return name

    def _breach(self, case: _Case, who: Tuple[str, bool], identity: Identity, where: Tuple[str, str],
                rights: int) -> Breach:
        """Returns a breach with what decides about the first of some rights of somebody."""
        view, first, place = case.view, rights & -rights, None
        if view.asked.posix:
            text = self._entry(view, identity, where, next(bit for bit, mask in POSIX_MASKS.items() if mask & first))
        else:
            one = view.asked.acl.deciding(user=identity.user, groups=view.asked.others(identity.groups),
                                          owner=where[0], group=where[1], right=first)
            text = self._line(view, one.place) if one else "no ACE has it for this user"
            place = None if one is None or view.on else view.asked.places[one.place]
        return Breach(Verdict.BROKEN, bound_word(case.is_most), view.on, *who, mask_text(rights), place, text)

    def _line(self, view: _View, place: int) -> str:
        """Returns the text of an ACE."""
        if view.on:
            return view.asked.lines()[place]
        self._kept.lines = self._kept.lines or view.asked.lines()
        return self._kept.lines[place]

    def _entry(self, view: _View, identity: Identity, where: Tuple[str, str], perm: int) -> str:
        """Returns the entry of a POSIX ACL that decides about some permissions. A name that is no id is one that the
        library made for a stranger."""
        def number(name: str) -> int:
            found = read_id(name)
            return int(self._stranger_in(view)) if found is None else found
        assert view.asked.posix
        one = view.asked.posix.deciding(user=number(identity.user), groups=map(number, identity.groups),
                                        owner=number(where[0]), group=number(where[1]), want=perm)
        return "no entry of a group has it" if one.entry is None else \
            f"{one.entry}, which the mask limits" if one.masked else str(one.entry)

    def _several(self, case: _Case) -> Optional[Breach]:
        """Returns how a POSIX ACL breaks the bound of a POSIX ACL for several permissions at once, which one entry
        must have (acl(5)). Single permissions were judged before."""
        view, mine, other = case.view, case.view.asked.posix, case.limit.posix
        if not mine or not other:
            return None
        more, less = (mine, other) if case.is_most else (other, mine)
        found = more.exceeds(less)
        if found is None:
            return None
        uid, gid = (found.owner, found.group) if view.on else (view.face.uid, view.face.gid)
        face = replace(view.face, uid=uid, gid=gid)
        for who, is_known, identity in self._asked_at_once(view, face, Identity(
                str(found.user), tuple(map(str, found.groups)))):
            for perms in (*(perms for perms in range(1, 8) if perms & (perms - 1)), found.want):
                if check(more, face, identity, perms) and not check(less, face, identity, perms):
                    return Breach(Verdict.BROKEN, bound_word(case.is_most), view.on, who, is_known,
                                  f"{letters_of(perms, absent='')} at once", None,
                                  self._entry(view, identity, (str(uid), str(gid)), perms))
        return case.unknown("it would be broken for another owner or group of the object, and may be for this one")

    def _asked_at_once(self, view: _View, face: Face, found: Identity) -> Iterator[Tuple[str, bool, Identity]]:
        """Yields who is asked about several permissions at once: the people, anybody in the group of the object, whom
        two entries may match, and the requester whom the library names for any owner and group."""
        for person in self._asker.people:
            identity = self._asker.identity(person, face, Kind.POSIX)
            if identity:
                yield person.name, True, identity
        name, stranger = self._name_of(view), self._stranger_in(view)
        yield (f"anybody else in {quoted(name(True, str(face.gid)))} who is in its group", False,
               Identity(stranger, (str(face.gid),)))
        words = " in ".join([quoted(name(False, found.user)), *(quoted(name(True, group)) for group in found.groups)])
        yield words, False, found

    def _stranger_in(self, view: _View) -> str:
        """Returns how the list of a view would name a user or a group whom nothing names."""
        found = self._asker.identity(self._stranger, view.face, view.kind)
        assert found
        return found.user

    def _of_children(self, view: _View, limit: Limit, is_most: bool) -> Iterator[Breach]:
        """Yields how what is created in a directory breaks a bound."""
        stored = self._asker.stored[view.face.list]
        stranger = self._stranger_in(view)
        try:
            made = creations(view.asked, stored, self._asker.options.linux)
        except ValueError as error:
            yield _Case(view._replace(on="new objects"), limit, is_most).unknown(str(error))
            return
        for one in made:
            case = _Case(view._replace(owner=stranger, group=stranger, on=one.on), limit, is_most)
            found = [self._judged(case._replace(view=case.view._replace(asked=asked))) for asked in one.lists]
            breaches = [breach for breach in found if breach]
            is_sure = len(breaches) == len(found) and all(breach.verdict is Verdict.BROKEN for breach in breaches)
            if is_most and breaches:
                yield case.unknown(one.may_be_other) if one.may_be_other else breaches[0]
            elif not is_most and (breaches or one.may_be_less):
                yield breaches[0] if is_sure or not one.may_be_less else case.unknown(one.may_be_less)
