"""The command `report`: one page of HTML for people, or the findings as CSV or JSON."""

from __future__ import annotations

import argparse
import contextlib
import os
import sys
from dataclasses import dataclass, field, replace
from typing import Any, Dict, Iterable, Iterator, List, NamedTuple, Optional, Set, TextIO, Tuple

from aclck_tree.answer.ask import DENIED, GRANTED, UNKNOWN, Answers, Asker
from aclck_tree.answer.commands import asker_of, opened, people_of, status_of
from aclck_tree.answer.lists import AskableList, Kind, RefusedList
from aclck_tree.answer.obtain import Place
from aclck_tree.answer.reach import tell_above
from aclck_tree.answer.wants import Want
from aclck_tree.output.errors import NO, REFUSED, YES, UsageError
from aclck_tree.output.files import replaced
from aclck_tree.output.text import Form, ObjectNamer, Output, plural, quoted, quoted_host, tell
from aclck_tree.people.people import HIGHEST_ID, Person, stranger_of
from aclck_tree.policy.applying import Applying, Broken, Key, Policy
from aclck_tree.policy.checking import tell_slips, words_of
from aclck_tree.policy.classes import verdict_of
from aclck_tree.policy.judging import Verdict
from aclck_tree.policy.policies import read_policy
from aclck_tree.report.findings import Finding, everyone_words, findings, special_bits_words
from aclck_tree.report.obtainable import NO_CHANGERS, Changers, Obtainable
from aclck_tree.report.page import page
from aclck_tree.report.rows import NAMED, Cells, Level, Name, RowBuilder, level_by, level_of, name_of, questions_of
from aclck_tree.snapshot.selecting import Paths, beginnings
from aclck_tree.snapshot.snapshot import Face, Snapshot


@dataclass
class Places:
    """The objects of which one thing was found: how many, and the names of the first."""

    words: str
    folders: int = 0
    files: int = 0
    names: List[Name] = field(default_factory=list)


class _Kind:
    """Objects about which the same was found, in `places`, and how many they are. `unnamed` are those of the places
    that still take names."""

    def __init__(self, is_folder: bool, places: List[Places]) -> None:
        self.is_folder = is_folder
        self.places = self.unnamed = places
        self.objects = 0

    def name(self, name: Name) -> None:
        """Adds the name of an object to what was found about it."""
        self.unnamed = [places for places in self.unnamed if len(places.names) < NAMED]
        for places in self.unnamed:
            places.names.append(name)

    def end(self) -> None:
        """Counts the objects in the places."""
        for places in self.places:
            places.folders += self.objects if self.is_folder else 0
            places.files += 0 if self.is_folder else self.objects


class _Faced(_Kind):
    """What all objects with one face, one kind and the same special bits of the mode have in common."""

    def __init__(self, is_folder: bool, places: List[Places], cells: Cells, owners: Tuple[int, ...]) -> None:
        super().__init__(is_folder, places)
        self.cells = cells
        self.owners = owners


class ObjectTraits(NamedTuple):
    """What objects have in common about which the same is said, apart from who could come to write to them. With
    --reach, `above` says who gets past the folders above them. With a policy, `rules` are those about them, and `place`
    is where they are, if one of these asks for it."""

    is_folder: bool
    bits: int
    face: int
    above: Optional[Answers]
    place: Optional[Place] = None
    rules: Optional[Applying] = None


_Values = Tuple[Any, ...]
"""The values of an `ObjectTraits`. An `ObjectTraits` for each object would be slower."""

_Object = Tuple[int, bytes, Changers, _Values]
"""An object: its tree, its path, who could come to write to it, and the values of its `ObjectTraits`."""


class Report:
    """What the page shows about a snapshot: with a pattern, only about the objects whose path matches. With `is_reach`,
    nobody has access to what is below a folder that does not let them pass. With a policy, what breaks it is found
    first."""

    def __init__(self, asker: Asker, glob: Optional[str] = None, is_reach: bool = False,
                 policy: Optional[Policy] = None) -> None:
        self.glob = glob
        self.is_reach = is_reach
        self.snapshot: Snapshot = asker.snapshot
        self.people = asker.people
        self.faces = asker.faces
        self._nobody = _id_of_nobody(asker)
        self._owner, self._stranger = len(self.people), len(self.people) + 1
        stored = (asker.stored[number] for number in {face.list for face in self.faces.values()})
        # Two more are asked about: who owns all objects that none of the people owns, and somebody whom nothing names.
        stranger = stranger_of(self.snapshot, stored, asker.people)
        self.asker = Asker(self.snapshot, [*asker.people, Person(str(self._nobody)), stranger], asker.options)
        self._obtainable = Obtainable(self.asker, len(self.people), is_reach)
        self.policy = policy
        if policy:
            self._refuse_many(policy)
        self._told: Dict[Tuple[Broken, ...], List[Tuple[Finding, str]]] = {}
        self._ways = 0  # in how many ways objects break rules
        self.findings = [*(_policy_findings() if policy else ()),
                         *findings(self.asker, self.snapshot.directory_faces(), stranger)]
        self.found: Dict[str, Dict[str, Places]] = {finding.key: {} for finding in self.findings}
        self.unsure = Places("")  # the objects of which it is not known who else could change them
        self._has_posix = any(self.asker.stored[face.list].is_posix for face in self.faces.values())
        self.naming = ObjectNamer(self.snapshot)
        self._users: Dict[Tuple[int, Kind], Dict[str, Tuple[int, ...]]] = {}
        self._cells: Dict[Tuple[bytes, Level], Cells] = {}
        self._levels: Dict[Tuple[int, int, int, bool], bytes] = {}
        self.lists: Set[int] = set()
        self.rows = self._walk()

    def _walk(self) -> RowBuilder:
        rows = RowBuilder()
        kinds: Dict[_Values, _Faced] = {}
        changed: Dict[Tuple[Changers, bool], _Kind] = {}
        for tree, path, others, values in self.objects():
            kind = kinds.get(values)
            if kind is None:
                kind = kinds[values] = self._kind(ObjectTraits(*values))
            kind.objects += 1
            if kind.unnamed:
                kind.name((tree, path))
            if others != NO_CHANGERS:
                key = others, kind.is_folder
                found = changed.get(key) or changed.setdefault(key, self._changed(*key))
                found.objects += 1
                if found.unnamed:
                    found.name((tree, path))
            row, begins = rows.add(tree, path, kind.is_folder, kind.cells)
            if row is not None:
                if kind.owners:
                    row.owners.update(kind.owners)
                if begins and len(row.names) < NAMED:
                    row.names.append((tree, path))
        self.folders = sum(kind.objects for kind in kinds.values() if kind.is_folder)
        self.files = sum(kind.objects for kind in kinds.values() if not kind.is_folder)
        for one in (*kinds.values(), *changed.values()):
            one.end()
        return rows

    def _refuse_many(self, policy: Policy) -> None:
        """Raises TreeError if the policy takes too many judgements. They are counted only if there may be too many."""
        if policy.may_refuse(self.snapshot.count if policy.is_about_obtaining else 2 * len(self.faces)):
            paths = None if self.glob is None else Paths(self.snapshot, self.glob)
            policy.refuse_many({key for key, tree, path in policy.keys() if paths is None or paths.has(tree, path)})

    def name(self, tree: int, path: bytes) -> str:
        """Returns the whole path of an object as the page shows it, with the host if there are several."""
        name = self.naming.name(self.snapshot.trees[tree], path)
        return ("" if name.host is None else f"{quoted_host(name.host)}:") + name_of(name.path)

    def objects(self) -> Iterator[_Object]:
        """Yields each object that the report is about, in the order of trees and paths."""
        found: Iterator[_Object] = self._obtainable.objects()
        if self.policy:
            found = self._applied(self.policy, found)
        if self.glob is not None:
            paths = Paths(self.snapshot, self.glob)
            found = (one for one in found if paths.has(*one[:2]))
        return found

    @staticmethod
    def _applied(policy: Policy, objects: Iterator[_Object]) -> Iterator[_Object]:
        """Adds to objects the rules about them, and their places if one of these asks for that."""
        for (tree, path, others, values), place in zip(objects, policy.places()):
            rules = policy.applied(tree, path)
            yield tree, path, others, (*values, place if rules.has_place else None, rules)

    def _places(self, found: Iterable[Tuple[Finding, str]]) -> List[Places]:
        return [self.found[finding.key].setdefault(words, Places(words)) for finding, words in found]

    def _kind(self, one: ObjectTraits) -> _Faced:
        self.lists.add(self.faces[one.face].list)
        return _Faced(one.is_folder, self._places(self.words(one)), *self._cells_of(one))

    def _changed(self, others: Changers, is_folder: bool) -> _Kind:
        """Returns the objects to which some others could come to write."""
        finding = next(finding for finding in self.findings if finding.key == "obtainable")
        places = self._places([(finding, others.words)] if others.words else [])
        places += [self.unsure] if others.is_unknown else []
        return _Kind(is_folder, places)

    def words(self, one: ObjectTraits, others: Changers = NO_CHANGERS) -> Iterator[Tuple[Finding, str]]:
        """Yields what was found about objects."""
        yield from self._broken(one)
        face = self.faces[one.face]
        stranger_is_stopped = one.above is not None and one.above.of(self._stranger) is DENIED
        for finding in self.findings:
            words = finding.faces.get(one.face, "")
            if finding.key == "bits":
                words = special_bits_words(self.asker.accounts[face.tree], face, one.bits)
            elif finding.key == "obtainable":
                words = others.words
            elif finding.key in ("everyone", "readable") and stranger_is_stopped:
                words = ""
            elif finding.key == "everyone" and words:
                words = everyone_words(words, one.is_folder, one.bits)
            if words and (one.is_folder or not finding.directories_only):
                yield finding, words

    def _broken(self, one: ObjectTraits) -> Iterable[Tuple[Finding, str]]:
        """Returns which rules of the policy objects break, and of which that is not known."""
        if not self.policy or not one.rules:
            return ()
        key = Key(one.face, one.is_folder, one.rules, one.place)
        broken = tuple(each for each in self.policy.broken(key) if each.alike.holding)
        if broken not in self._told:
            self._ways += sum(len(each.alike.rules) for each in broken)
            self.policy.refuse_ways(self._ways)
            self._told[broken] = self._told_of(self.policy, broken)
        return self._told[broken]

    def _told_of(self, policy: Policy, broken: Tuple[Broken, ...]) -> List[Tuple[Finding, str]]:
        found: Dict[Verdict, List[Tuple[int, str]]] = {Verdict.BROKEN: [], Verdict.UNKNOWN: []}
        for alike, breaches in broken:
            words = "; ".join(map(words_of, breaches))
            found[verdict_of(breaches)] += [(rule, f"{quoted(policy.rules[rule].name)}: {words}")
                                            for rule, exemption in alike.rules if exemption is None]
        return [(finding, "; ".join(words for _, words in sorted(rows)))
                for finding, rows in zip(self.findings, found.values()) if rows]

    def _cells_of(self, one: ObjectTraits) -> Tuple[Cells, Tuple[int, ...]]:
        """Returns how objects answer, and which of the people own them."""
        face, is_folder = self.faces[one.face], one.is_folder
        asked = self.asker.ready(face.list)
        if isinstance(asked, RefusedList):
            return self._same(bytes([Level.REFUSED]) * len(self.people), Level.REFUSED), ()
        owners, others = self._owners(face, asked), self._others(face, asked, is_folder)
        if not owners:
            return self._same(_past(others, one.above), Level(others[self._owner])), ()
        levels = _past(self._levels_of(face, asked, is_folder), one.above)
        owned = {levels[place] for place in owners}
        if len(owned) > 1:  # one user was named twice, with other groups
            return self._same(levels, Level.UNKNOWN), ()
        return self._same(_past(others, one.above), Level(owned.pop())), owners

    def _others(self, face: Face, asked: AskableList, is_folder: bool) -> bytes:
        """Returns the levels of the people on objects that they do not own, and of an owner in no group."""
        key = face.tree, face.gid, face.list, is_folder
        if key not in self._levels:
            self._levels[key] = self._levels_of(replace(face, uid=self._nobody), asked, is_folder)
        return self._levels[key]

    def _levels_of(self, face: Face, asked: AskableList, is_folder: bool) -> bytes:
        """Returns the levels of the people: unknown where they depend on the members of special identifiers, and for a
        person whose id is not known."""
        if asked.specials:
            return self._levels_whomever(face, asked, is_folder)
        masks = self.asker.masks(face, asked)
        levels = {mask: Level.UNKNOWN if mask is None else level_of(mask, asked.kind, is_folder)
                  for mask in set(masks)}
        return bytes(map(levels.__getitem__, masks))

    def _levels_whomever(self, face: Face, asked: AskableList, is_folder: bool) -> bytes:
        """Returns the same for a list with special identifiers, by the three questions that make a level."""
        wanted = (Want("", mask, 0, 0, any_of) for mask, any_of in questions_of(asked.kind, is_folder))
        found = [answers for answers in (self.asker.answers(face, want) for want in wanted)
                 if isinstance(answers, Answers)]
        levels = []
        for place in range(len(self.asker.people)):
            known = [answers.of(place) for answers in found]
            levels.append(Level.UNKNOWN if UNKNOWN in known else level_by(*(one is GRANTED for one in known)))
        return bytes(levels)

    def _owners(self, face: Face, asked: AskableList) -> Tuple[int, ...]:
        """Returns which of the people are the owner of a face."""
        key = face.tree, asked.kind
        if key not in self._users:
            users: Dict[str, Tuple[int, ...]] = {}
            for place, person in enumerate(self.people):
                for user in {one.user for one in self.asker.identities(person, face, asked.kind)}:
                    users[user] = (*users.get(user, ()), place)
            self._users[key] = users
        return self._users[key].get(self.asker.owner_and_group(face, asked.kind)[0], ())

    def _same(self, levels: bytes, owner: Level) -> Cells:
        levels = levels[:len(self.people)]
        return self._cells.setdefault((levels, owner), Cells(len(self._cells), levels, owner))

    def id_of(self, person: Person) -> str:
        """Returns the ids of a person on the scanned systems, or the names if the person was named by an id. Returns
        nothing if no list is a POSIX ACL, because other lists have names."""
        if not self._has_posix:
            return ""
        found = []
        for tree, accounts in self.asker.accounts.items():
            number = self.asker.id(person, person.name, False, tree)
            if number is not None:
                is_id = str(number) == person.name
                found.append(accounts.names.get((False, number), "") if is_id else str(number))
        return " or ".join(dict.fromkeys(filter(None, found)))

    def status(self) -> int:
        """Returns 2 if a list is refused, a rule cannot be judged, something could not be read or the report is about
        no object, 1 if something else was found, and otherwise 0."""
        if self.found.get("unjudged"):
            return REFUSED
        if self.found["refused"] or status_of(YES, self.snapshot) != YES or not self.folders + self.files:
            return REFUSED
        return NO if any(self.found.values()) else YES


def _policy_findings() -> List[Finding]:
    """Returns what can be found with a policy, and was not found yet."""
    return [Finding("policy", "broken rules", "A rule of the policy is broken by {}.",
                    "The list grants more than the rule allows, or less than it wants."),
            Finding("unjudged", "rules that cannot be judged", "A rule of the policy cannot be judged for {}.",
                    "The list is refused, or something is not known that the rule depends on.")]


def _past(levels: bytes, above: Optional[Answers]) -> bytes:
    """Returns the levels of people on an object, given who gets past the folders above it."""
    if above is None or not above.denied | above.unknown:
        return levels
    stopped = {GRANTED: None, DENIED: Level.NONE, UNKNOWN: Level.UNKNOWN}
    found = []
    for place, level in enumerate(levels):
        other = stopped[above.of(place)]
        found.append(level if other is None or level == Level.NONE else other)
    return bytes(found)


def _id_of_nobody(asker: Asker) -> int:
    """Returns an id that none of the people has, and that is not the name of one in an NFSv4 list."""
    taken = {asker.full_name(person.name) for person in asker.people}
    taken |= {str(asker.id(person, person.name, False, tree)) for tree in asker.accounts for person in asker.people}
    known = {number for accounts in asker.accounts.values() for _, number in accounts.names}
    return next(number for number in range(HIGHEST_ID, 0, -1) if number not in known and
                taken.isdisjoint((str(number), asker.full_name(str(number)))))


def _refuse_to_replace(output: str, given: Iterable[Optional[str]]) -> None:
    """Raises UsageError if the page would replace a file that the command reads."""
    for place in filter(None, given):
        with contextlib.suppress(OSError):
            if os.path.samefile(place, output):
                raise UsageError(f"-o names {quoted(place)}, which the page would replace")


def report(args: argparse.Namespace) -> int:
    """Writes the page, or with --csv or --json the findings, one line per object."""
    if args.output:
        _refuse_to_replace(args.output, (args.snapshot, args.policy, args.people, args.passwd, args.group))
    snapshot = opened(args, args.snapshot)
    rules = read_policy(args.policy) if args.policy else []
    asker = asker_of(args, snapshot, people_of(args, snapshot))
    policy = Policy(args.policy, asker, rules, args.judgements) if rules else None
    made = Report(asker, args.path, args.reach, policy)
    is_unread = args.reach and tell_above(asker)
    # with --path, rules may be about other objects
    has_empty = policy is not None and args.path is None and tell_slips(args.policy, asker, policy)
    if not made.folders + made.files:
        tell(f"{quoted(args.snapshot)}: no object is selected; {beginnings(snapshot)}")
    with replaced(args.output) if args.output else contextlib.nullcontext(sys.stdout) as file:
        if args.form is Form.TEXT:
            file.writelines(page(made))
        else:
            _put_findings(args, made, file)
    unsure = made.unsure.folders + made.unsure.files
    if unsure:
        tell(f"{quoted(args.snapshot)}: it is not known who else could change {plural(unsure, 'object')}")
    return REFUSED if has_empty or is_unread else made.status()


def _put_findings(args: argparse.Namespace, made: Report, file: TextIO) -> None:
    out = Output(args.form, made.naming.columns("finding", "path", "what"), lambda row: "", file)
    known: Dict[Tuple[Changers, _Values], List[Tuple[Finding, str]]] = {}
    for tree, path, others, values in made.objects():
        key = others, values
        if key not in known:
            known[key] = list(made.words(ObjectTraits(*values), others))
        for finding, words in known[key]:
            name = made.naming.name(made.snapshot.trees[tree], path)
            out.put({"finding": finding.key, **name.row(), "what": words})
