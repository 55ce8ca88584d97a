"""Mends the lists that break a policy, for `policy --fix`. The library says what a list keeps under the bounds of
rules: of all lists that are made by taking rights out of ALLOWs, and that grant at most what the bounds grant, also on
what is created in a directory if a rule is about that, the one that keeps most. Who loses what is asked too. Nothing
here changes a file."""

from __future__ import annotations

import functools
import operator
from dataclasses import replace
from typing import Callable, Dict, Iterator, List, NamedTuple, Sequence, Tuple, Union

from aclck import ALL, ALLOW, Ace, AceFlag, NfsAcl, mask_text

from aclck_tree.answer.ask import Asker
from aclck_tree.answer.compare import named_of
from aclck_tree.answer.lists import AskableList, Kind, RefusedList, joined, pieces
from aclck_tree.output.text import first_few, plural, quoted
from aclck_tree.policy.limits import SPECIAL, Limit, Limits
from aclck_tree.policy.policies import Rule
from aclck_tree.snapshot.snapshot import Face, StoredForm, StoredList

_INHERITED = AceFlag.FILE_INHERIT | AceFlag.DIRECTORY_INHERIT


class Mended(NamedTuple):
    """A face, and the same with the mended list, which keeps within these bounds."""

    old: Face
    new: Face
    limits: Tuple[Limit, ...]


class Unmended(NamedTuple):
    """Why a list is not mended."""

    reasons: Tuple[str, ...]


Outcome = Union[Mended, Unmended]


class Mender:
    """Mends the lists of the faces of a snapshot."""

    def __init__(self, asker: Asker) -> None:
        self._asker = asker
        self._limits = Limits(asker)
        self._faces: Dict[Tuple[int, bytes], Face] = {}

    def mend(self, number: int, rules: Sequence[Rule], judged: Callable[[int], List[str]]) -> Outcome:
        """Returns a face with the greatest list that these rules let it keep. `children` of a rule is true only if the
        object is a directory. `judged` says of a face how it does not keep the rules: if the mended one does not, it is
        of no use."""
        face = self._asker.faces[number]
        stored, asked = self._asker.stored[face.list], self._asker.ready(face.list)
        if isinstance(asked, RefusedList):
            return Unmended((f"refused {asked.reason}",))
        if asked.posix:
            return Unmended(("POSIX ACL",))
        if stored.kind != StoredForm.NFS4 or stored.mode:
            return Unmended(("the list is in another form than that of system.nfs4_acl",))
        limits = self._limits_of(rules, face, asked.kind)
        below = self._limits_of([rule for rule in rules if rule.children], face, asked.kind)
        try:
            kept = _kept_below(self._kept(face, asked, limits), below)
        except ValueError as error:  # a name of the owner or the group cannot be in a list
            return Unmended((str(error),))
        masks = dict(zip(asked.places, (ace.mask for ace in kept)))
        data = joined([piece._replace(mask=masks.get(place, piece.mask))
                       for place, piece in enumerate(pieces(stored.access or b""))])
        new = self._with_list(face, data)
        reasons = judged(new.face)
        return Unmended(tuple(reasons)) if reasons else Mended(face, new, limits)

    def _limits_of(self, rules: Sequence[Rule], face: Face, kind: Kind) -> Tuple[Limit, ...]:
        """Returns the lists of what rules let a list grant at most."""
        found = (self._limits.of(rule, True, kind, face.tree) for rule in rules if rule.at_most is not None)
        return tuple(one for one in found if isinstance(one, Limit))

    def _kept(self, face: Face, asked: AskableList, limits: Sequence[Limit]) -> NfsAcl:
        """Returns what a list keeps under some bounds of the object, where the owner and the group of the object are in
        place of OWNER@ and GROUP@. The bounds come one after another. Each step grants at most what the step before
        grants, so the result is within all bounds. It is the same in any order: each list that is within all bounds,
        and is made by taking rights out of ALLOWs, can be made of what a step leaves."""
        owner, group = self._asker.owner_and_group(face, asked.kind)
        kept = asked.acl.resolved(owner=owner, group=group)
        for limit in limits:
            kept = kept.restricted(limit.acl.resolved(owner=owner, group=group))
        return NfsAcl.from_aces(ace._replace(mask=one.mask) for ace, one in zip(asked.acl, kept))

    def _with_list(self, face: Face, data: bytes) -> Face:
        """Returns a face with another list, which the asker can be asked about. No object has it."""
        key = (face.face, data)
        if key not in self._faces:
            number = self._asker.number_of(StoredList(StoredForm.NFS4, 0, data, None))
            made = replace(face, face=-1 - len(self._faces), list=number)
            self._faces[key] = self._asker.faces[made.face] = made
        return self._faces[key]

    def lines(self, mended: Mended) -> Iterator[str]:
        """Yields the ACEs of a mended list, with the rights that were taken out, and who loses what."""
        old, new = (self._asked(face) for face in mended[:2])
        for place, was, now, line in zip(new.places, old.acl, new.acl, new.lines()):
            taken = mask_text(was.mask & ~now.mask) if was.mask != now.mask else ""
            yield f"ACE {place}: {line}" + (f", without {taken}" if taken else "")
        yield from self._losses(mended, old, new)
        less: List[str] = []
        whole: List[str] = []
        for place, was, now in zip(new.places, old.acl, new.acl):
            if was.mask != now.mask and now.flags & _INHERITED:
                less.append(str(place))
            elif now.kind == ALLOW and now.flags & AceFlag.INHERIT_ONLY:
                whole.append(str(place))
        if less:
            yield f"new objects get less by ACE {', '.join(less)}"
        if whole:
            yield f"new objects get what ACE {', '.join(whole)} grants, as before: INHERIT_ONLY"

    def _asked(self, face: Face) -> AskableList:
        asked = self._asker.ready(face.list)
        assert isinstance(asked, AskableList)
        return asked

    def _losses(self, mended: Mended, old: AskableList, new: AskableList) -> Iterator[str]:
        """Yields who of the people loses what, and also which of it the rules would let them keep; and a requester who
        loses something and is none of them."""
        face = mended.old
        owner, group = self._asker.owner_and_group(face, Kind.NFS4)
        lists = [one.resolved(owner=owner, group=group) for one in (old.acl, new.acl, *(
            limit.acl for limit in mended.limits))]
        columns = [self._asker.granted_by(one, face, Kind.NFS4, owner, group) for one in lists]
        rows: Dict[Tuple[int, int], List[int]] = {}
        unknown = 0
        for person, (before, after, *let) in enumerate(zip(*columns)):
            if before is None or after is None:
                unknown += 1
            elif lost := before & ~after:
                kept = functools.reduce(operator.and_, (one or 0 for one in let), ALL)
                rows.setdefault((lost, lost & kept), []).append(person)
        for (lost, needless), people in rows.items():
            names = first_few([self._asker.people[person].name for person in people], quoted)
            more = f": {mask_text(needless)}" if needless != lost else ""
            yield f"{names} {'loses' if len(people) == 1 else 'lose'} {mask_text(lost)}" + (
                f", more than the rules ask{more}" if needless else "")
        if unknown:
            yield f"not known of {plural(unknown, 'other person')}: lists may name somebody in several ways"
        losers = {person: lost for (lost, _), people in rows.items() for person in people}
        yield self._others(face, lists[0], lists[1], losers, old)

    def _others(self, face: Face, old: NfsAcl, new: NfsAcl, losers: Dict[int, int], asked: AskableList) -> str:
        """Returns who loses something and is none of the people: nobody if the old list grants at most what the new one
        grants together with what they lose."""
        given = [Ace(ALLOW, AceFlag(0), lost, identity.user) for person, lost in losers.items()
                 for identity in self._asker.identities(self._asker.people[person], face, Kind.NFS4, asked.acl)
                 if identity.user not in SPECIAL]
        try:
            helped = NfsAcl.from_aces([*given, *new])
        except ValueError:  # the list would be too long
            return "it is not known whether others lose something too"
        found = old.exceeds(helped)
        if found is None:
            return f"nobody {'else ' if losers else ''}loses anything"
        owner, group = self._asker.owner_and_group(face, Kind.NFS4)
        before, after = (one.granted(user=found.user, groups=found.groups, owner=owner, group=group)
                         for one in (old, helped))
        special = {stand_in: name for name, stand_in in asked.specials}
        words = named_of(found._replace(owner=owner, group=group), special, {ace.who for ace in old})
        return f"others lose something too: {words} loses {mask_text(before & ~after)}"


def _kept_below(kept: NfsAcl, limits: Sequence[Limit]) -> NfsAcl:
    """Returns what the list of a directory keeps under some bounds of everything that will be created below it. Owners
    and groups there are not known, so OWNER@ and GROUP@ stay."""
    for limit in limits:
        kept = kept.restricted(_bound_below(limit.acl), everywhere=True)
    return kept


def _bound_below(bound: NfsAcl) -> NfsAcl:
    """Returns the list by which everything that is created below a directory has what a bound grants, and by which the
    directory itself grants everything."""
    below = [ace._replace(flags=ace.flags & AceFlag.IDENTIFIER_GROUP | _INHERITED) for ace in bound
             if not ace.flags & AceFlag.INHERIT_ONLY]
    return NfsAcl.from_aces([Ace(ALLOW, AceFlag(0), ALL, "EVERYONE@"), *below])
