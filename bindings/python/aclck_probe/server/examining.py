"""Gives a server lists, reads them back, and compares what they say with what the server answers."""

from __future__ import annotations

from typing import Callable, List, Optional, Sequence, Tuple

from aclck import NfsAcl, PosixAcl, Refused, Requesters, mask_text
from aclck_ask.lists import SPECIAL
from aclck_tree.output.errors import TreeError
from aclck_tree.output.text import quoted
from aclck_tree.people.people import read_id

from ..examining import Limits
from ..questions import questions
from ..requesters import Requester, Strangers
from . import operations as nfs
from . import vectors
from .found import DENIES, GRANTS, Asker, Difference, Report, Tally
from .meanings import ACCESS, Meaning
from .operations import Failed
from .people import Owned, People
from .rpc import Credentials
from .rules import LIST, MODE, MODE_OF_LIST, NEW_DIRECTORY, NEW_FILE, Mismatch, rule_of
from .scratch import Object, Scratch, said
from .trying import Trial
from .xdr import word

KEPT, LISTS, MASKS, INHERITANCE, MODES, OPERATIONS = "read back", "lists", "masks", "inheritance", "modes", "operations"
"""The kinds."""

_LATER = ("", " of a file in it", " of a directory in it", " of a file in a directory in it",
          " of a directory in a directory in it")
"""What the parts of `NfsAcl.inherited` are about."""

HAS = "has the mode"
_PERMISSIONS = 0o777
_NEW = b"new"

Answers = Callable[[Credentials], Sequence[Tuple[Meaning, Optional[bool]]]]
"""What a server answers to a requester: each request with the answer, or None if the server gives none."""

Note = Callable[[str, bool], None]
"""Notes the answer to a request."""


class Examination:
    """The lists that a server is given, on a file and a directory of a scratch directory."""

    def __init__(self, scratch: Scratch, people: People, limits: Limits, report: Report) -> None:
        """Makes the two objects. Raises TreeError."""
        self._scratch, self._session, self._people = scratch, scratch.session, people
        self._limits, self._report = limits, report
        self._file = scratch.new_object(b"file", False, people)
        self._directory = scratch.new_object(b"directory", True, people)

    def by_lists(self, tries: bool) -> None:
        """Asks about all kinds of lists, and tries operations too. Raises TreeError if an answer is not known."""
        for place in (self._file, self._directory):
            for acl in vectors.whole_lists(self._people):
                self._by_access(place, acl, LISTS)
            for single in vectors.masks():
                self._by_access(place, single.acl, MASKS, self._noting(place, single))
        for acl in vectors.inherited(self._people):
            self._by_inheritance(acl)
        for acl, mode in vectors.modes():
            self._by_list_and_mode(acl, mode)
        for place in (self._file, self._directory) if tries else ():
            trial = Trial(self._scratch, place)
            for single in vectors.masks():
                self._by_trial(trial, place, single.acl, self._noting(place, single))
            for acl in vectors.owners():
                self._by_trial(trial, place, acl)
        if not all(self._report.tally(kind).questions for kind in (LISTS, MASKS)):
            self._report.reason = "the server takes no list, or verifies no right"
        elif self._report.unasked():
            self._report.reason = f"no question could be asked about {', '.join(self._report.unasked())}"

    def by_modes(self) -> None:
        """Asks about modes alone, of a server that keeps no lists. Raises TreeError if an answer is not known."""
        for place in (self._file, self._directory):
            for mode in vectors.MODES:
                with said(f"the mode {mode:o}"):
                    self._scratch.set(place.handle, {nfs.MODE: word(mode)})
                self._asked(place, PosixAcl.from_mode(mode).bridge(), self._report.tally(MODES), self._access(place))
        self._report.reason = "the server keeps no NFSv4 lists"

    def _noting(self, place: Object, single: vectors.Single) -> Note:
        def note(request: str, is_granted: bool) -> None:
            self._report.needs_of(place.is_directory, request).note(single.right, single.is_alone, is_granted)
        return note

    def _by_access(self, place: Object, acl: NfsAcl, kind: str, note: Optional[Note] = None) -> None:
        kept = self._given(place, acl)
        if kept is not None:
            self._asked(place, kept, self._report.tally(kind), self._access(place), note if kept == acl else None)

    def _by_trial(self, trial: Trial, place: Object, acl: NfsAcl, note: Optional[Note] = None) -> None:
        kept = self._kept(place, acl)

        def answers(who: Credentials) -> List[Tuple[Meaning, Optional[bool]]]:
            trial.prepare(acl)
            return [(meaning, call(who)) for meaning, call in trial.tries(acl)]
        if kept is not None:
            self._asked(place, kept, self._report.tally(OPERATIONS), answers, note if kept == acl else None)

    def _given(self, place: Object, acl: NfsAcl) -> Optional[NfsAcl]:
        """Gives an object a list, and returns the one that the server has then, which is compared with it, or None if
        the server refuses the list or has none. Raises TreeError."""
        before, tally = self._list_of(place.handle), self._report.tally(KEPT)
        if not self._is_set(place, acl):
            tally.left_out += 1
            return None
        found = self._list_of(place.handle)
        self._compared(tally, place.is_directory, acl, Mismatch(LIST, expected=acl, found=found, before=before))
        return found

    def _kept(self, place: Object, acl: NfsAcl) -> Optional[NfsAcl]:
        """Gives an object a list that was compared before. Raises TreeError."""
        return self._list_of(place.handle) if self._is_set(place, acl) else None

    def _is_set(self, place: Object, acl: NfsAcl) -> bool:
        """Sets a list, and returns whether the server keeps lists with its rights. Raises TreeError."""
        try:
            self._scratch.set(place.handle, {nfs.ACL: bytes(acl)})
        except Failed as failed:
            if failed.answer not in nfs.REFUSES_LIST:
                raise TreeError(f"a new list: {failed}") from None
            return False
        return True

    def _list_of(self, handle: bytes) -> Optional[NfsAcl]:
        """Returns the list of an object, or None. Raises TreeError if the server sends none that the library reads, or
        names in place of ids."""
        with said("the list of an object"):
            _, values = self._session.make(nfs.put_handle(handle), nfs.GET_LIST)
        try:
            found = [NfsAcl(data) for data in values]
        except Refused as refused:
            raise TreeError(f"the list that the server sends: {refused}") from None
        for ace in (ace for acl in found for ace in acl):
            number = read_id(ace.who)
            if ace.who not in SPECIAL and (number is None or str(number) != ace.who):
                raise TreeError(f"the server sends the name {quoted(ace.who)} in place of an id")
        return found[0] if found else None

    def _access(self, place: Object) -> Answers:
        meanings = ACCESS[place.is_directory]

        def answers(who: Credentials) -> List[Tuple[Meaning, Optional[bool]]]:
            with said("ACCESS"):
                _, found = self._session.call(who, nfs.put_handle(place.handle), nfs.access(sum(meanings)))
            return [(meaning, bool(found.granted & bit) if found.supported & bit else None)
                    for bit, meaning in meanings.items()]
        return answers

    def _asked(self, place: Object, acl: NfsAcl, tally: Tally, answers: Answers, note: Optional[Note] = None) -> None:
        """Asks the questions of a list."""
        owner, group = str(place.owner), str(place.group)
        resolved = acl.resolved(owner=owner, group=group)
        strangers = Strangers.to(resolved, Owned(place.owner, place.group))
        requesters = [strangers.requester(one) for one in questions(resolved, self._limits.questions)]
        people = Requesters((str(one.user), [*map(str, one.groups)]) for one in requesters)
        for requester, granted in zip(requesters, resolved.granted_many(people, owner=owner, group=group)):
            found = answers(Credentials(requester.user, requester.own, requester.groups))
            self._judged(place, acl, tally, requester, granted, found)
            for meaning, answer in found:
                if note is not None and answer is not None:
                    note(meaning.word, answer)

    def _judged(self, place: Object, acl: NfsAcl, tally: Tally, requester: Requester, granted: int,
                found: Sequence[Tuple[Meaning, Optional[bool]]]) -> None:
        """Counts the answers to one requester."""
        asker = Asker(str(place.owner), str(place.group), str(requester.user), tuple(map(str, requester.groups)))
        differences, left_out = [], 0
        for meaning, answer in found:
            said_by_list = meaning.granted_by(granted)
            if answer is None or said_by_list is None:
                left_out += 1
            elif answer != said_by_list:
                mismatch = Mismatch(meaning.word, answer, requester.user == place.owner, granted)
                differences.append(Difference(place.is_directory, acl, asker, meaning.word,
                                              *_words(said_by_list, answer), rule_of(mismatch)))
        tally.count(differences, left_out, len(found))

    def _compared(self, tally: Tally, is_directory: bool, acl: NfsAcl, found: Mismatch, is_later: bool = False) -> None:
        """Counts whether the list that a server has grants what the expected one does, and if so, whether all that is
        made below it later has the right list too. `acl` is the list that was given."""
        expected, there = found.expected, found.found
        rule = rule_of(found)
        if expected is None or there is None:
            tally.count([Difference(is_directory, acl, None, found.word, "has %d ACEs" % len(expected or ()),
                                    "has no list", rule)])
            return
        for one, other, later in zip(_parts(expected, is_later), _parts(there, is_later), _LATER):
            unlike = one.compare(other)
            if unlike is not None:
                asker = Asker(unlike.owner, unlike.group, unlike.user, unlike.groups)
                word_of_right = f"{mask_text(unlike.right)} by the {found.word}{later}"
                tally.count([Difference(is_directory, acl, asker, word_of_right,
                                        *_words(unlike.first_grants, not unlike.first_grants), rule)])
                return
        tally.count([])

    def _by_inheritance(self, acl: NfsAcl) -> None:
        """Makes a file and a directory in a directory, and compares their lists with what the library says."""
        kept, tally, handle = self._given(self._directory, acl), self._report.tally(INHERITANCE), self._directory.handle
        if kept is None:
            return
        for is_directory in (False, True):
            with said("a new object"):
                made = self._scratch.new(handle, _NEW, is_directory)
                found = self._list_of(made)
                self._scratch.remove(handle, _NEW)
            self._compared(tally, True, kept, Mismatch(
                NEW_DIRECTORY if is_directory else NEW_FILE, expected=kept.child(directory=is_directory), found=found),
                is_directory)

    def _by_list_and_mode(self, acl: NfsAcl, mode: int) -> None:
        """Compares the mode with a list that is set, and the list with a mode that is set."""
        handle, before = self._file.handle, self._mode_of(self._file.handle)
        kept = self._given(self._file, acl)
        if kept is None:
            return
        self._judged_mode(kept, f"{HAS} {kept.mode:o}", Mismatch(
            MODE, mode=self._mode_of(handle), mode_before=before, expected=kept))
        with said("a new mode"):
            self._scratch.set(handle, {nfs.MODE: word(mode)})
        found = self._list_of(handle)
        for mismatch in (Mismatch(MODE, mode=self._mode_of(handle)),
                         Mismatch(MODE_OF_LIST, mode=None if found is None else found.mode, found=found, before=kept)):
            self._judged_mode(kept, f"{HAS} {mode:o}", mismatch)

    def _judged_mode(self, acl: NfsAcl, wanted: str, found: Mismatch) -> None:
        """Counts whether a mode is the one that is wanted."""
        there = "has no mode" if found.mode is None else f"{HAS} {found.mode:o}"
        self._report.tally(MODES).count([] if wanted == there else [
            Difference(False, acl, None, found.word, wanted, there, rule_of(found))])

    def _mode_of(self, handle: bytes) -> Optional[int]:
        with said("the mode of an object"):
            _, values = self._session.make(nfs.put_handle(handle), nfs.GET_MODE)
        return values[0] & _PERMISSIONS if values else None


def _parts(acl: NfsAcl, is_later: bool) -> Tuple[NfsAcl, ...]:
    """Returns a list, or if it is the list of a directory, also those of what is made in it."""
    return acl.inherited() if is_later else (acl,)


def _words(of_list: bool, of_server: bool) -> Tuple[str, str]:
    return GRANTS if of_list else DENIES, GRANTS if of_server else DENIES
