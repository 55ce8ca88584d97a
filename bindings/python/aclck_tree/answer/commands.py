"""What the commands about snapshots share, and the commands same and info. Each command writes answers and returns an
exit status."""

from __future__ import annotations

import argparse
import os
import socket
from dataclasses import replace
from typing import Dict, Iterator, List, Optional, Set, Tuple

from aclck_tree.answer import mentions
from aclck_tree.answer.ask import DENIED, UNKNOWN, Answer, AskOptions, Asker
from aclck_tree.answer.compare import same as same_of
from aclck_tree.output.errors import NO, REFUSED, YES, UsageError
from aclck_tree.output.text import ObjectNamer, Output, Row, name_in, plural, quoted, quoted_path, table, tell
from aclck_tree.people.accounts import least_id
from aclck_tree.people.directories import people_of_csv, people_of_ldif
from aclck_tree.people.files import passwd_files, people_file
from aclck_tree.people.people import (
    Person,
    listed_person,
    one_person,
    shared_users,
    snapshot_people,
    system_accounts,
    system_people,
    system_person,
)
from aclck_tree.snapshot import others
from aclck_tree.snapshot.selecting import Counted, count_by, counted, selected
from aclck_tree.snapshot.snapshot import Snapshot
from aclck_tree.snapshot.together import Together


def opened(args: argparse.Namespace, place: str) -> Snapshot:
    """Opens a snapshot, and reports on standard error what it lacks."""
    together: Optional[Together] = args.together
    snapshot = Snapshot(place, together)
    if together:
        together.snapshots.append(snapshot)
    if not snapshot.is_whole():
        tell(f"{quoted(place)} is partial: its scan was ended early")
    for words in sorted({one.words() for one in snapshot.portions.values() if one.is_list or not snapshot.together}):
        tell(f"{quoted(place)} has {words}")
    messages = [message for _, _, _, message in snapshot.errors()]
    line = others.summary(messages)
    if line:
        tell(f"{quoted(place)}: {line}")
    errors = sum(not others.is_other(message) for message in messages)
    if errors:
        tell(f"{quoted(place)} lacks what failed in {plural(errors, 'step')}: aclck-tree info lists them")
    return snapshot


def status_of(status: int, *snapshots: Snapshot) -> int:
    """Returns an exit status, which is 2 if a snapshot lacks something: also if it has only a shard of a tree. Of two
    snapshots, none may have only the paths of a list: nobody knows what is absent."""
    for one in snapshots:
        if one.together:
            one.together.is_answered = True
    if any(one.has_shards() and not one.together for one in snapshots):
        return REFUSED
    if len(snapshots) > 1 and any(portion.is_list for one in snapshots for portion in one.portions.values()):
        return REFUSED
    return status if all(one.is_complete() for one in snapshots) else REFUSED


def people_of(args: argparse.Namespace, snapshot: Snapshot) -> List[Person]:
    """Returns the people that the command line names."""
    if bool(args.passwd) != bool(args.group):
        raise UsageError("--passwd and --group go together")
    people = _given_people(args)
    if people is None:
        people = _with_accounts(snapshot, snapshot_people(snapshot))
    return _without_system(snapshot, people) if getattr(args, "skip_system", False) else people


def _given_people(args: argparse.Namespace) -> Optional[List[Person]]:
    """Returns the people of the command line, or None if these are the accounts of the snapshot."""
    if args.people:
        return read_people(args.people)
    if args.passwd:
        return passwd_files(args.passwd, args.group)
    return system_people() if args.getent else None


def read_people(place: str) -> List[Person]:
    """Reads people from a file, whose form is that of its name: LDIF, CSV, or lines `name: group group ..`."""
    end = os.path.splitext(place)[1].lower()
    return people_of_ldif(place) if end == ".ldif" else people_of_csv(place) if end == ".csv" else people_file(place)


def _with_accounts(snapshot: Snapshot, people: List[Person]) -> List[Person]:
    """Returns the people without those whose name several accounts of a host have, and without those whom groups have
    as members and who have no account, if POSIX ACLs are asked about them, and reports both. Of a snapshot that has no
    users, nobody knows who has none."""
    shared = shared_users(snapshot)
    people = [one for one in people if one.name not in shared]
    users = {os.fsdecode(name) for _, is_group, _, name in snapshot.names() if not is_group}
    has_ids = users and any(stored.is_posix for stored in snapshot.lists().values())
    stale = {(False, one.name) for one in people if has_ids and one.name not in users}
    if stale:
        tell(f"{quoted(snapshot.place)}: groups have members without an account, who are not asked about: "
             f"{mentions.names_in_words(stale)}")
    return [one for one in people if (False, one.name) not in stale]


def _without_system(snapshot: Snapshot, people: List[Person]) -> List[Person]:
    """Returns the people without the accounts of the system, and reports how many these are."""
    is_of_system = system_accounts(snapshot)
    kept = [one for one in people if not is_of_system(one)]
    left = plural(len(people) - len(kept), "account")
    tell(f"{quoted(snapshot.place)}: --skip-system leaves out {left} with ids below {least_id()}")
    return kept


def _linux_of(args: argparse.Namespace, snapshot: Snapshot) -> Tuple[bool, bool]:
    """Returns whether POSIX ACLs are asked as Linux does, and whether that is so only because nothing else is asked
    for: this system is the one that was scanned."""
    if getattr(args, "linux", False) or getattr(args, "draft", True):
        return getattr(args, "linux", False), False
    is_here = {tree.host for tree in snapshot.trees.values()} == {socket.gethostname()}
    return is_here, is_here


def asker_of(args: argparse.Namespace, snapshot: Snapshot, people: List[Person]) -> Asker:
    """Makes the `Asker` of a snapshot, and reports on standard error which names the snapshot does not mention, and
    whose ids are not known."""
    snapshot.allow_people(len(people))
    asker = Asker(snapshot, people, AskOptions(args.domain or "", *_linux_of(args, snapshot)))
    is_typed = bool(getattr(args, "people", None) or getattr(args, "user", None))
    for line in () if snapshot.together else mentions.lines(asker, mentions.unmentioned(asker), not is_typed):
        tell(f"{quoted(snapshot.place)}: {line}")
    if getattr(args, "word", "") in ("report", "policy", "diff"):
        tell_linux(asker, " (--linux)" if "linux" in args else "")
    has_hosts = len({tree.host for tree in snapshot.trees.values()}) > 1
    for line in _shared_names(asker):
        tell(f"{quoted(snapshot.place)}: {line}")
    for host, names in _without_ids(asker):
        if has_hosts:
            line = f"the host {quoted(host)} does not list {mentions.names_in_words(names)}: answers about its"
        else:
            line = f"no id is known for {mentions.names_in_words(names)}: answers about"
        tell(f"{quoted(snapshot.place)}: {line} POSIX ACLs are unknown")
    return asker


def tell_linux(asker: Asker, option: str) -> None:
    """Reports how many lists have an empty mask, if they are asked as acl(5) says. `option` names what asks them as
    Linux does."""
    lists = {face.list for face in asker.faces.values() if asker.is_other_on_linux(face.list)}
    if lists and not asker.options.linux:
        tell(f"{quoted(asker.snapshot.place)}: {plural(len(lists), 'list')} with an empty mask: Linux answers "
             f"otherwise{option}")


def _shared_names(asker: Asker) -> List[str]:
    """Returns a line for each name of the people that is the name of several accounts, if no id is given with it."""
    found: Dict[str, None] = {}
    for tree, accounts in asker.accounts.items():
        names = set().union(*(_names_without_ids(asker, one, tree) for one in asker.people if accounts.shared))
        for is_group, name in sorted(names & accounts.shared.keys()):
            word, place = ("group" if is_group else "user"), quoted(asker.snapshot.trees[tree].host)
            ids = " and ".join(map(str, accounts.shared[is_group, name]))
            found[f"the host {place} has the {word} {quoted(name)} with the ids {ids}, and nothing says which is meant: "
                  f"{quoted(name)}=ID does"] = None
    return list(found)


def _names_without_ids(asker: Asker, person: Person, tree: int) -> Set[mentions.Name]:
    """Returns the names of a person and of the groups of the person that have no id, without the domain."""
    return {(is_group, asker.options.account(name))
            for is_group, name in ((False, person.name), *((True, group) for group in person.groups))
            if not asker.ids(person, name, is_group, tree)}


def _without_ids(asker: Asker) -> Iterator[Tuple[str, Set[mentions.Name]]]:
    """Yields each host with POSIX ACLs on which people or groups have no id, with these. People of whom only other
    hosts listed the groups are among them."""
    trees: Dict[str, List[int]] = {}
    for tree in sorted({face.tree for face in asker.faces.values() if asker.stored[face.list].is_posix}):
        trees.setdefault(asker.snapshot.trees[tree].host, []).append(tree)
    for host in sorted(trees):
        names: Set[mentions.Name] = set()
        for tree in trees[host]:
            names |= {(is_group, name) for one in asker.people
                      for is_group, name in ((False, one.name), *((True, group) for group in one.groups_in(tree) or ()))
                      if not asker.ids(one, name, is_group, tree)}
            names |= {(False, one.name) for one in asker.people if one.groups_in(tree) is None}
        if names:
            yield host, names


class Tally:
    """Counts answers, for the exit status and for the last line."""

    def __init__(self) -> None:
        self.counts: Dict[str, int] = {}

    def add(self, answer: str, count: int = 1) -> None:
        """Counts an answer, by its word in the output, as one that was given `count` times."""
        if count:
            self.counts[answer] = self.counts.get(answer, 0) + count

    def status(self, snapshot: Snapshot) -> int:
        """Returns 2 if something was refused or is not known or nothing was asked, 1 if something is denied, also if
        somebody could come to have it, and otherwise 0."""
        if not self.counts and snapshot.together:
            snapshot.together.is_empty = True
            return YES
        if not self.counts or self.counts.get(Answer.REFUSED.value) or self.counts.get(UNKNOWN.value):
            return REFUSED
        return NO if self.counts.get(DENIED.value) or self.counts.get(Answer.OBTAINABLE.value) else YES

    def line(self) -> str:
        """Returns the counts of answers in words."""
        found = ", ".join(f"{self.counts[one.value]:,} {one.value}" for one in Answer if self.counts.get(one.value))
        return found or "nothing asked"


def person_of(args: argparse.Namespace, snapshot: Snapshot) -> Person:
    """Returns the user of the command line, with the groups given there, or with --getent those that this system knows,
    or otherwise those that the scan recorded."""
    if args.groups is not None:
        return one_person(args.user, [group for words in args.groups for group in words.split(",") if group])
    person = one_person(args.user, [])
    account = AskOptions(args.domain or "").account(person.name)
    if getattr(args, "getent", False):
        known = system_person(account)
        ids = {key: number for key, number in known.ids.items() if key[1]}
        own = person.ids or {(person.name, False): known.ids[known.name, False]}
        return replace(known, name=person.name, ids={**ids, **own})
    listed = listed_person(snapshot, account)
    if not listed.groups:
        tell(f"the snapshot has no groups of {quoted(person.name)}: --groups names them, and --getent asks this system")
    return replace(listed, name=person.name, ids=person.ids)


def same(args: argparse.Namespace) -> int:
    """Writes the classes of objects that grant the same, greatest first."""
    snapshot = opened(args, args.snapshot)
    asker = Asker(snapshot, [], AskOptions())
    if args.inherit:
        keys = (((face, is_directory), tree, path) for tree, path, is_directory, face in selected(snapshot, args.path))
        by_face = count_by(snapshot, keys)
    else:
        by_face = {(face, False): one for face, one in counted(snapshot, args.path).items()}
    counts: Dict[Tuple[int, bool], Counted] = {}
    for (face, is_directory), one in by_face.items():
        key = asker.faces[face].list, is_directory
        known = counts.get(key, Counted(0, one.first))
        counts[key] = Counted(known.objects + one.objects, min(known.first, one.first))
    classes, places = same_of(asker, counts)
    naming = ObjectNamer(snapshot)
    out = Output(args.form, naming.columns("class", "kind", "path", "refused"),
                 lambda row: f"{row['class']} {name_in(row)}{_refused(row)}")
    if args.form != "text" or args.each:
        for tree, path, is_directory, face in selected(snapshot, args.path):
            place = places[asker.faces[face].list, is_directory and args.inherit]
            out.put({"class": place + 1, "kind": classes[place].kind,
                     **naming.name(snapshot.trees[tree], path).row(), "refused": classes[place].refused})
    else:
        lines = [("CLASS", "OBJECTS", "LISTS", "KIND", "FIRST OF THEM")]
        lines += [(str(place + 1), f"{one.objects:,}", f"{len(one.lists):,}", one.kind,
                   one.first.words() + (f" ({one.refused})" if one.refused else ""))
                  for place, one in enumerate(classes)]
        for line in table(lines, right=[0, 1, 2]):
            out.note(line)
    return status_of(REFUSED if not classes or any(one.refused for one in classes) else YES, snapshot)


def _refused(row: Row) -> str:
    return f" refused {row['refused']}" if row["refused"] else ""


def info(args: argparse.Namespace) -> int:
    """Writes what a snapshot has: its trees, counts, and each step that failed."""
    snapshot = Snapshot(args.snapshot)
    naming = ObjectNamer(snapshot)
    out = Output(args.form, naming.columns("tree", "path", "step", "message"),
                 lambda row: f"failed to {quoted(row['step'])} {name_in(row)}: {row['message']}")
    for tree in snapshot.trees.values():
        portion = snapshot.portions.get(tree.tree)
        state = ("whole" if tree.whole else "partial") + (f", {portion.words()}" if portion else "")
        ended = quoted(tree.ended) if tree.ended else "no end"
        out.note(f"{tree.words()}, scanned as {quoted_path(tree.root)} from "
                 f"{quoted(tree.began)} to {ended} by aclck-tree {quoted(tree.version)}: {state}, "
                 f"{plural(tree.links, 'link')} not followed")
    kinds = snapshot.count_kinds()
    directories = f"{kinds.get('d', 0):,} director" + ("y" if kinds.get("d") == 1 else "ies")
    out.note(f"{plural(snapshot.count, 'object')} ({directories}), {plural(len(snapshot.lists()), 'distinct list')}, "
             f"{len(snapshot.faces()):,} with owner and group")
    for number, path, step, message in snapshot.errors():
        name = naming.name(snapshot.trees[number], path)
        out.put({"tree": number, **name.row(), "step": step, "message": message})
    return YES if snapshot.is_complete() else REFUSED
