"""Questions about a snapshot: what is granted to whom, and why."""

from __future__ import annotations

import functools
import itertools
import operator
from dataclasses import dataclass
from enum import Enum
from typing import AbstractSet, Dict, List, NamedTuple, Optional, Sequence, Tuple, Union

from aclck import NfsAcl, Possible, Refused, Request, Requesters

from aclck_tree.answer.bits import bits_of, chosen
from aclck_tree.answer.classes import Classes, everybody
from aclck_tree.answer.identities import Identities, Identity, Ways, account_name, full_name
from aclck_tree.answer.lists import AskableList, Kind, Ready, RefusedList, decoded, has_empty_mask, nfs_bytes, ready
from aclck_tree.answer.posix import at_once
from aclck_tree.answer.wants import Want, put_to
from aclck_tree.output.errors import TreeError
from aclck_tree.people.people import Person
from aclck_tree.snapshot.snapshot import Face, Snapshot, StoredForm, StoredList


class Answer(Enum):
    """An answer to one question. Its value is the word that the output has."""

    GRANTED = "granted"
    OBTAINABLE = "obtainable"
    DENIED = "denied"
    UNKNOWN = "unknown"
    REFUSED = "refused"


GRANTED, DENIED, UNKNOWN = Answer.GRANTED, Answer.DENIED, Answer.UNKNOWN


@dataclass(frozen=True, eq=False)
class Answers:
    """Whom a question is answered how: one bit for each person, in the order of the people.

    Equal answers of one `Asker` are one object, so a million objects keep a row for each different answer only.
    """

    granted: int
    denied: int
    unknown: int

    def of(self, place: int) -> Answer:
        """Returns the answer for the person at a place."""
        return GRANTED if self.granted >> place & 1 else DENIED if self.denied >> place & 1 else UNKNOWN


@dataclass(frozen=True)
class AskOptions:
    """The domain of names that have none, and whether the lists grant as Linux does (docs/reference/others.md), which
    can be so although nobody asked for it."""

    domain: str = ""
    linux: bool = False
    is_default: bool = False

    def account(self, name: str) -> str:
        """Returns the name of the account for a name: without the domain, if it has just that one."""
        return account_name(name, self.domain)


NOBODY = Person("")
"""A person who gives no ids."""

_UNUSED = Identity("?")
"""Who asks in place of a person whose id is not known. The answer is not used."""


class _Named(NamedTuple):
    """The people as a kind of list names them in one way, and a bit for each person whom it names so. If the way counts
    only for lists with some names, `if_named` has these for each person, and whether they are those of groups."""

    identities: List[Optional[Identity]]
    requesters: Requesters
    known: int
    classes: Classes
    if_named: Sequence[AbstractSet[Tuple[bool, str]]] = ()

    @classmethod
    def of(cls, identities: List[Optional[Identity]],
           if_named: Sequence[AbstractSet[Tuple[bool, str]]] = ()) -> _Named:
        """Returns the people by their identities."""
        return cls(identities, Requesters([one or _UNUSED for one in identities]),
                   bits_of(one is not None for one in identities), Classes(identities), if_named)


Outcome = Union[RefusedList, Answers]
"""What is answered about a list: why it is refused, or whom it grants what is asked."""

_MOST_NAMED = 8
"""For how many trees the people are kept with the ids that they have there."""


class Asker:
    """Asks the faces of a snapshot about some people."""

    def __init__(self, snapshot: Snapshot, people: Sequence[Person], options: AskOptions) -> None:
        self.snapshot = snapshot
        self.people = list(people)
        self.options = options
        self._identities = Identities(snapshot, self.people, options.domain)
        self.accounts = self._identities.accounts
        self.faces = snapshot.faces()
        self.stored = snapshot.lists()
        self._above: Dict[StoredList, int] = {}
        self._ready: Dict[int, Ready] = {}
        self._named: Dict[Tuple[Kind, int], List[_Named]] = {}
        self._rows: Dict[Tuple[int, int], Answers] = {}
        self._everybody = (1 << len(self.people)) - 1

    @functools.cached_property
    def everybody_granted(self) -> Answers:
        """The answer that everybody is granted what is asked."""
        return self._row(self._everybody, 0)

    @functools.cached_property
    def nobody_granted(self) -> Answers:
        """The answer that everybody is denied what is asked."""
        return self._row(0, self._everybody)

    @functools.cached_property
    def nobody_known(self) -> Answers:
        """The answers if of none of the people it is known whether they are granted what is asked."""
        return self._row(0, 0)

    def number_of(self, stored: StoredList) -> int:
        """Returns the number of a list of a directory above a tree. No object has this number."""
        number = self._above.setdefault(stored, -1 - len(self._above))
        self.stored[number] = stored
        return number

    def roots(self, tree: int) -> int:
        """Returns who of the people has the id 0 in a tree."""
        return bits_of(self.ids(person, person.name, False, tree) == (0,) for person in self.people)

    def ready(self, number: int) -> Ready:
        """Returns a list that is ready for questions."""
        if number not in self._ready:
            self._ready[number] = ready(self.stored[number], self.options.linux, self.options.domain)
        return self._ready[number]

    def is_other_on_linux(self, number: int) -> bool:
        """Whether Linux may answer about a list otherwise than acl(5): its mask is empty (docs/reference/others.md)."""
        return self.stored[number].is_posix and has_empty_mask(self.stored[number].access or b"")

    def loadable(self, number: int) -> StoredList:
        """Returns a list as a database has it, in which the names of accounts have the domain. Raises TreeError for a
        value that the scan refused: a database has no reason for it."""
        stored = self.stored[number]
        if stored.kind == StoredForm.REFUSED:
            raise TreeError(f"{self.snapshot.place}: a list that the scan refused is not loaded: "
                            f"{decoded(stored.default or b'')}")
        if stored.kind == StoredForm.ACCOUNTS:
            return StoredList(StoredForm.NFS4, stored.mode, nfs_bytes(stored, self.options.domain), None)
        return stored

    def full_name(self, name: str) -> str:
        """Returns a name, with the domain added if it has none."""
        return full_name(name, self.options.domain)

    def owner_and_group(self, face: Face, kind: Kind) -> Tuple[str, str]:
        """Returns the names of the owner and the group of a face, in the form of its kind of list."""
        if kind is Kind.POSIX:
            return str(face.uid), str(face.gid)
        return self._identities.word(False, face.uid, face.tree), self._identities.word(True, face.gid, face.tree)

    def ids(self, person: Person, name: str, is_group: bool, tree: int) -> Tuple[int, ...]:
        """Returns the ids that a person or a group of the person has in a tree, or none if they are not known. A name
        with the domain is an account without it."""
        return self._identities.ids(person, name, is_group, tree)

    def id(self, person: Person, name: str, is_group: bool, tree: int) -> Optional[int]:
        """Returns the only id that a person or a group of the person has in a tree, or None."""
        found = self.ids(person, name, is_group, tree)
        return found[0] if len(found) == 1 else None

    def id_of(self, name: str, is_group: bool, tree: int) -> Optional[int]:
        """Returns the id that a name has in a tree, or None if it is not known."""
        return self.id(NOBODY, name, is_group, tree)

    def identities(self, person: Person, face: Face, kind: Kind, acl: Optional[NfsAcl] = None) -> Tuple[Identity, ...]:
        """Returns the ways in which a kind of list may name a person, the one by the given names first, and with a list
        those that count only for this list. POSIX ACLs name a person in one way, or in none if an id is not known."""
        if kind is Kind.POSIX:
            found = self._identities.by_ids(person, face.tree)
            return (found,) if found else ()
        ways = self._identities.by_names(person, face.tree)
        named = {(ace.is_group, ace.who) for ace in acl} if acl and ways.if_named else set()
        return (*ways.always, *(one for one, names in ways.if_named if not names.isdisjoint(named)))

    def ways(self, person: Person, tree: int) -> Ways:
        """Returns the ways in which NFSv4 lists may name a person."""
        return self._identities.by_names(person, tree)

    def identity(self, person: Person, face: Face, kind: Kind) -> Optional[Identity]:
        """Returns the first way in which a kind of list names a person, or None if an id is not known."""
        if kind is Kind.NFS4:
            return self._identities.by_names(person, face.tree).always[0]
        return self._identities.by_ids(person, face.tree)

    def _named_by(self, face: Face, kind: Kind) -> List[_Named]:
        """Returns the people as a kind of list names them in a tree, and once more those whom such a list may name in
        several ways, for each of these."""
        key = (kind, face.tree)
        if key not in self._named:
            if len(self._named) == _MOST_NAMED:
                self._named.clear()
            self._named[key] = self._in_each_way(face, kind)
        return self._named[key]

    def _in_each_way(self, face: Face, kind: Kind) -> List[_Named]:
        if kind is Kind.POSIX:
            return [_Named.of([self._identities.by_ids(person, face.tree) for person in self.people])]
        ways = [self._identities.by_names(person, face.tree) for person in self.people]
        found = [_Named.of([one.always[place] if place < len(one.always) else None for one in ways])
                 for place in range(max([1, *(len(one.always) for one in ways)]))]
        for place in range(max([0, *(len(one.if_named) for one in ways)])):
            rows = [one.if_named[place] if place < len(one.if_named) else None for one in ways]
            found.append(_Named.of([row[0] if row else None for row in rows],
                                   [row[1] if row else frozenset() for row in rows]))
        return found

    def _named_in(self, face: Face, kind: Kind, acl: NfsAcl) -> List[_Named]:
        """Returns the people in the ways that count for a list: in those that count only for some lists, the people of
        whom the list has a name."""
        found = self._named_by(face, kind)
        if not any(one.if_named for one in found):
            return found
        named = {(ace.is_group, ace.who) for ace in acl}
        return [one if not one.if_named else one._replace(
            known=bits_of(not names.isdisjoint(named) for names in one.if_named)) for one in found]

    def masks(self, face: Face, asked: AskableList) -> Sequence[Optional[int]]:
        """Returns what each person is granted by a list without special identifiers, or None for a person of whom that
        is not known."""
        return self.granted_by(asked.acl, face, asked.kind, *self.owner_and_group(face, asked.kind))

    def granted_by(self, acl: NfsAcl, face: Face, kind: Kind, owner: str, group: str) -> Sequence[Optional[int]]:
        """Returns what each person is granted by a list in the names of a face and a kind of list, on an object of an
        owner and a group, or None for a person of whom that is not known."""
        first, *others = self._named_in(face, kind, acl)
        found: List[Optional[int]] = [mask if one else None for mask, one in zip(
            acl.granted_many(first.requesters, owner=owner, group=group), first.identities)]
        for other in others:
            masks = acl.granted_many(other.requesters, owner=owner, group=group) if other.known else ()
            for place in chosen(range(len(masks)), other.known):
                found[place] = found[place] if masks[place] == found[place] else None
        return found

    def granted(self, face: Face, asked: AskableList, person: Person) -> int:
        """Returns what a person whose ids are known is granted as a member of no special identifier."""
        identity = self.identity(person, face, asked.kind)
        assert identity
        owner, group = self.owner_and_group(face, asked.kind)
        return asked.acl.granted(user=identity.user, groups=asked.others(identity.groups), owner=owner, group=group)

    def possible(self, face: Face, asked: AskableList, identity: Identity, mask: int) -> Possible:
        """Returns what a list with special identifiers grants somebody, whomever the server takes for these names."""
        owner, group = self.owner_and_group(face, asked.kind)
        return NfsAcl.decide_unknown(asked.whomever, user=identity.user, groups=identity.groups, owner=owner,
                                     group=group, mask=mask)

    def _is_any(self, face: Face, asked: AskableList, identity: Identity, mask: int) -> Request:
        """Returns the same about a request for any of some rights: it is granted where a request for all of them is not
        granted by the list that is turned round."""
        owner, group = self.owner_and_group(face, asked.kind)
        try:
            none = NfsAcl.decide_unknown(asked.turned(mask), user=identity.user, groups=identity.groups, owner=owner,
                                         group=group, mask=mask).request
        except Refused:  # a list of the greatest length has no room for another ACE
            return Request.DEPENDS
        return {Request.ALWAYS: Request.NEVER, Request.NEVER: Request.ALWAYS}.get(none, none)

    def _whomever(self, face: Face, asked: AskableList, want: Want, people: _Named) -> Tuple[int, int]:
        """Returns whom a list with special identifiers grants what is asked, and whom it denies that, whomever the
        server takes for these names."""
        found: List[Optional[Request]] = [None] * len(people.identities)
        for place in chosen(range(len(found)), people.known):
            one = people.identities[place]
            assert one
            found[place] = (self._is_any(face, asked, one, want.mask) if want.any
                            else self.possible(face, asked, one, want.mask).request)
        return bits_of(one is Request.ALWAYS for one in found), bits_of(one is Request.NEVER for one in found)

    def _row(self, granted: int, denied: int) -> Answers:
        key = granted, denied
        if key not in self._rows:
            self._rows[key] = Answers(granted, denied, self._everybody & ~(granted | denied))
        return self._rows[key]

    def granted_too(self, one: Answers, people: int) -> Answers:
        """Returns an answer that is granted to some more people."""
        return self._row(one.granted | people, one.denied & ~people)

    def both(self, one: Answers, other: Answers) -> Answers:
        """Returns what two answers are together: granted if both are, and denied if one is."""
        return self._row(one.granted & other.granted, one.denied | other.denied)

    def either(self, one: Answers, other: Answers) -> Answers:
        """Returns whom one of two answers is enough: granted if one is, and denied if both are."""
        return self._row(one.granted | other.granted, one.denied & other.denied)

    def answers(self, face: Face, want: Want) -> Outcome:
        """Returns whom the list of a face grants what is asked."""
        return self.answers_to(face, [want])[0]

    def answers_to(self, face: Face, wants: Sequence[Want]) -> List[Outcome]:
        """Returns the same for each of several questions. A list without special identifiers is asked once for all."""
        asked = self.ready(face.list)
        if isinstance(asked, RefusedList):
            return [asked] * len(wants)
        put = [put_to(asked, want) for want in wants]
        rest = [want for want in put if isinstance(want, Want)]
        found = iter(self._asked(face, asked, rest) if rest else ())
        return [want if isinstance(want, RefusedList) else next(found) for want in put]

    def _asked(self, face: Face, asked: AskableList, wants: Sequence[Want]) -> List[Answers]:
        """Returns whom a list grants what is asked, in all ways in which it may name somebody."""
        rows = [(self._everybody, self._everybody)] * len(wants)
        for place, people in enumerate(self._named_in(face, asked.kind, asked.acl)):
            if place == 0 or people.known:
                others = 0 if place == 0 else ~people.known
                rows = [(granted & (yes | others), denied & (no | others)) for (granted, denied), (yes, no)
                        in zip(rows, self._answered(face, asked, wants, people))]
        return [self._row(granted, denied) for granted, denied in rows]

    def _answered(self, face: Face, asked: AskableList, wants: Sequence[Want],
                  people: _Named) -> List[Tuple[int, int]]:
        """Returns whom of the people, named in one way, a list grants what is asked, and whom it denies that. Of those
        whom it cannot treat differently, the first is asked."""
        owner, group = self.owner_and_group(face, asked.kind)
        named = itertools.chain(asked.named, ((False, owner), (True, group)))
        classes = people.classes.of(people.known, named, bool(asked.specials))
        if classes is None:
            return self._each_answered(face, asked, wants, people)
        firsts = _Named.of([one.first for one in classes])
        rows = self._each_answered(face, asked, wants, firsts) if classes else [(0, 0)] * len(wants)
        return [(everybody(classes, granted), everybody(classes, denied)) for granted, denied in rows]

    def _each_answered(self, face: Face, asked: AskableList, wants: Sequence[Want],
                       people: _Named) -> List[Tuple[int, int]]:
        """Returns the same. Each of the people is asked."""
        if asked.specials:
            return [self._whomever(face, asked, want, people) for want in wants]
        owner, group = self.owner_and_group(face, asked.kind)
        rights = functools.reduce(operator.or_, (want.mask for want in wants))
        masks = asked.acl.granted_many(people.requesters, owner=owner, group=group, mask=rights)
        return [self._of_masks(face, asked, want, people, masks) for want in wants]

    @staticmethod
    def _of_masks(face: Face, asked: AskableList, want: Want, people: _Named,
                  masks: Sequence[int]) -> Tuple[int, int]:
        """Returns the same about one question, given what the list grants each of the people."""
        found = [mask & want.mask for mask in masks]
        granted = bits_of([one != 0 for one in found] if want.any else [one == want.mask for one in found])
        if asked.posix and not want.any and want.perms & (want.perms - 1):
            granted = at_once(face, asked.posix, people.identities, granted & people.known, want.perms)
        return granted & people.known, ~granted & people.known
