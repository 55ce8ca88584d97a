"""The commands who, may and why: what is granted to whom, and what decides about it."""

from __future__ import annotations

import argparse
import functools
import itertools
import os
from typing import Dict, List, Optional, Tuple, Union

from aclck_tree.answer.ask import DENIED, GRANTED, UNKNOWN, Answer, AskOptions, Asker
from aclck_tree.answer.bits import chosen, ones
from aclck_tree.answer.commands import Tally, asker_of, opened, people_of, person_of, status_of
from aclck_tree.answer.lists import Kind, RefusedList
from aclck_tree.answer.objects import Basis, ObjectsQuestion
from aclck_tree.answer.reach import AS_ROOT, stopped, tell_above
from aclck_tree.answer.reasons import Why, why_request
from aclck_tree.answer.reasons import why as why_of
from aclck_tree.answer.wants import Want, want_of
from aclck_tree.output.errors import NO, REFUSED, YES, UsageError
from aclck_tree.output.text import Form, ObjectName, ObjectNamer, Output, Row, name_in, plural, quoted, table, tell
from aclck_tree.people.people import Person
from aclck_tree.snapshot.selecting import Counted, find
from aclck_tree.snapshot.snapshot import Face, Tree

MOST_NAMES = 1000000
"""How many names `who` keeps at once in rows that it has written."""


def who(args: argparse.Namespace) -> int:
    """Writes which of the people may do what is asked, for each object or for each class of objects."""
    snapshot = opened(args, args.snapshot)
    people = people_of(args, snapshot)
    question = ObjectsQuestion(asker_of(args, snapshot, people), want_of(args.may, args.any), args.path, args.reach,
                               args.obtain)
    counts, tally = question.counts(), Tally()
    for basis, one in counts.items():
        found = question.found(basis)
        if isinstance(found, RefusedList):
            tally.add(Answer.REFUSED.value, one.objects)
            continue
        for answer, bits in question.shares(basis, found):
            tally.add(answer.value, one.objects * ones(bits))
    columns = ["path", "granted", *(("obtainable", "steps") if args.obtain else ()), "unknown", "refused"]
    out = Output(args.form, question.naming.columns(*columns), lambda row: f"{name_in(row)}: {_who_text(row)}")
    if args.form != "text" or args.each:
        row_of = functools.lru_cache(max(16, MOST_NAMES // max(1, len(people))))(functools.partial(_who_row, question))
        for name, basis in question.objects():
            out.put({**name.row(), **row_of(basis), **_steps_row(question, name, basis)})
    else:
        _who_classes(out, question, counts)
    objects = sum(one.objects for one in counts.values())
    what = f"{plural(objects, 'object')}, {plural(len(people), 'person').replace('persons', 'people')}"
    out.note(question.last_line(what, tally, {basis: one.objects for basis, one in counts.items()}))
    if args.reach or args.obtain:
        tell_above(question.asker)
    return status_of(tally.status(snapshot), snapshot)


def _steps_row(question: ObjectsQuestion, name: ObjectName, basis: Basis) -> Row:
    return {"steps": question.steps(name, basis)} if question.obtaining else {}


def _who_row(question: ObjectsQuestion, basis: Basis) -> Row:
    found, people = question.found(basis), question.asker.people
    shares = [] if isinstance(found, RefusedList) else question.shares(basis, found)
    names = {answer.value: [person.name for person in chosen(people, bits)] for answer, bits in shares
             if answer is not DENIED}
    words = [GRANTED.value, *([Answer.OBTAINABLE.value] if question.obtaining else []), UNKNOWN.value]
    return {**{word: names.get(word, []) for word in words}, "special": question.reason(basis),
            "refused": found.reason if isinstance(found, RefusedList) else None}


def _who_text(row: Row) -> str:
    if row["refused"] is not None:
        return f"refused {row['refused']}"
    text = " ".join(map(_name, row["granted"])) or "nobody"
    if row.get("steps"):
        text += "; could get it: " + "; ".join(row["steps"])
    if row["unknown"]:
        hangs = f" (depends on {row['special']})" if row["special"] else ""
        text += "; unknown: " + " ".join(map(_name, row["unknown"])) + hangs
    return text


def _name(name: str) -> str:
    """Returns the name of a person as bash reads it. Between quotes, the account `nobody` is not the word."""
    return f"'{name}'" if name in ("nobody", "refused") else quoted(name)


def _who_classes(out: Output, question: ObjectsQuestion, counts: Dict[Basis, Counted]) -> None:
    """Writes a line for each class of objects with the same answers. The names are made for one line at a time."""
    classes: Dict[Tuple[Union[str, Tuple[int, ...]], str], Tuple[Counted, Basis]] = {}
    for basis, one in counts.items():
        found = question.found(basis)
        answer: Union[str, Tuple[int, ...]] = found.reason if isinstance(found, RefusedList) else tuple(
            bits for _, bits in question.shares(basis, found))
        key = answer, question.reason(basis)
        known, of_first = classes.get(key, (Counted(0, one.first), basis))
        name = min(known.first, one.first)
        classes[key] = Counted(known.objects + one.objects, name), of_first if name is known.first else basis
    ordered = sorted(classes.values(), key=lambda pair: (-pair[0].objects, pair[0].first))
    heads = [("OBJECTS", "FIRST OF THEM")]
    heads += [(f"{one.objects:,}", one.first.words()) for one, _ in ordered]
    right, left = (max(len(head[place]) for head in heads) for place in (0, 1))
    texts = itertools.chain(["WHO"], (_who_text({**_who_row(question, basis), **_steps_row(question, one.first, basis)})
                                      for one, basis in ordered))
    for (objects, first), text in zip(heads, texts):
        out.note(f"{objects.rjust(right)}  {first.ljust(left)}  {text}")


def may(args: argparse.Namespace) -> int:
    """Writes on which objects one user is granted what is asked."""
    snapshot = opened(args, args.snapshot)
    asker = asker_of(args, snapshot, [person_of(args, snapshot)])
    question = ObjectsQuestion(asker, want_of(args.may, args.any), args.path, args.reach)
    answers: Dict[Basis, Tuple[Answer, str]] = {}
    counts: Dict[Basis, int] = {}
    without_ids = 0
    out = Output(args.form, question.naming.columns("answer", "path", "reason"), _may_text)
    for name, basis in question.objects():
        if basis not in answers:
            answers[basis], counts[basis] = _may_answer(question, basis), 0
        counts[basis] += 1
        answer, reason = answers[basis]
        if args.form is Form.TEXT and answer is UNKNOWN and question.lacks_ids(basis):
            without_ids += 1
        elif args.all or answer is not DENIED:
            out.put({"answer": answer.value, **name.row(), "reason": reason})
    if without_ids:
        out.note(f"unknown: {plural(without_ids, 'object')} with POSIX ACLs, because an id is not known")
    tally = Tally()
    for basis, count in counts.items():
        tally.add(answers[basis][0].value, count)
    out.note(question.last_line(plural(sum(counts.values()), "object"), tally, counts))
    if args.reach:
        tell_above(asker)
    return status_of(tally.status(snapshot), snapshot)


def _may_answer(question: ObjectsQuestion, basis: Basis) -> Tuple[Answer, str]:
    """Returns the answer for the one user, and why it is none."""
    found = question.found(basis)
    if isinstance(found, RefusedList):
        return Answer.REFUSED, found.reason
    answer = found.of(0)
    return answer, question.reason(basis) if answer is UNKNOWN else ""


def _may_text(row: Row) -> str:
    reason = f" {row['reason']}" if row["reason"] else ""
    return f"{row['answer']}{reason}: {name_in(row)}"


def why(args: argparse.Namespace) -> int:
    """Writes which ACE or entry decides about each right of one user on one object, and which directory above the
    object stops the user."""
    if args.obtain and not args.may:
        raise UsageError("why --obtain goes with --may")
    snapshot = opened(args, args.snapshot)
    person = person_of(args, snapshot)
    asker = asker_of(args, snapshot, [person])
    tree, path, number = find(snapshot, args.path)
    face = asker.faces[number]
    found, naming = why_of(asker, face, person), ObjectNamer(snapshot)
    name = naming.name(tree, path)
    if isinstance(found, RefusedList):
        tell(f"{name.words()}: refused {found.reason}")
        return REFUSED
    kind = Kind.POSIX if asker.stored[face.list].is_posix else Kind.NFS4
    owner, group = asker.owner_and_group(face, kind)
    out = Output(args.form, naming.columns("right", "answer", "place", "decided_by", "directory"), lambda row: "")
    wanted = want_of(args.may) if args.may else None
    if wanted:
        found = [*(one for one in found if _is_asked(one.right, wanted)), *why_request(asker, face, person, wanted)]
    out.note(f"{name.words()}: owner {quoted(owner)}, group {quoted(group)}")
    _write_reasons(args, out, found, name.host)
    _note_linux(args, out, asker, face, person, found)
    stop, is_root = stopped(asker, tree, path, person)
    tell_above(asker, [tree.tree])
    if is_root and args.form == "text":
        out.note(f"{quoted(person.name)} is counted as root: {AS_ROOT}")
    if stop:
        _write_stop(args, out, name, person, stop)
    answers = {one.answer for one in found} | ({stop[1].answer} if stop else set())
    if wanted and args.obtain:
        answers.add(_write_obtain(args, out, ObjectsQuestion(asker, wanted, None, True, True), tree, path))
    is_known = answers.isdisjoint((UNKNOWN, Answer.REFUSED))
    return status_of(REFUSED if not is_known else NO if DENIED in answers else YES, snapshot)


def _write_reasons(args: argparse.Namespace, out: Output, found: List[Why], host: Optional[str]) -> None:
    """Writes what decides about each right, as a table or as rows."""
    if args.form == "text":
        lines = [(one.right, one.answer.value, _place(one), one.text) for one in found]
        for line in table(lines, right=[2]):
            out.note(line)
    for one in found if args.form != "text" else []:
        out.put(_why_row(one, host, None))


def _note_linux(args: argparse.Namespace, out: Output, asker: Asker, face: Face, person: Person,
                found: List[Why]) -> None:
    """Notes that Linux answers otherwise than acl(5), if it does and was not asked."""
    if not asker.options.linux and asker.is_other_on_linux(face.list):
        linux = Asker(asker.snapshot, [person], AskOptions(asker.options.domain, True))
        others = why_of(linux, face, person)
        if not isinstance(others, RefusedList) and args.form == "text" and any(
                one.right == other.right and one.answer is not other.answer for one in found for other in others):
            out.note("Linux answers otherwise, because the mask is empty (--linux)")


def _write_stop(args: argparse.Namespace, out: Output, name: ObjectName, person: Person,
                stop: Tuple[bytes, Why]) -> None:
    """Writes which directory above the object stops the person."""
    at, one = stop
    verb = "stops" if one.answer is DENIED else "may stop"
    if args.form == "text":
        place = "" if one.place is None else f" {one.place}"
        out.note(f"{name._replace(path=at).words()} {verb} {quoted(person.name)}: {one.right} {one.answer.value}"
                 f"{place}: {one.text}")
    else:
        out.put(_why_row(one, name.host, at))


def _write_obtain(args: argparse.Namespace, out: Output, question: ObjectsQuestion, tree: Tree, path: bytes) -> Answer:
    """Writes whether the person could come to have what is asked, and by which steps. Returns the answer."""
    assert question.obtaining
    place = question.obtaining.place_of(tree.tree, path)
    assert place.face
    name, basis = question.naming.name(tree, path), Basis(place.face.face, place.passed, place)
    found = question.found(basis)
    if isinstance(found, RefusedList):
        return Answer.REFUSED
    answer = next(one for one, bits in question.shares(basis, found) if bits)
    steps = "; ".join(question.steps(name, basis)) or question.reason(basis)
    if args.form == "text":
        words = {GRANTED: "has it now", Answer.OBTAINABLE: "could get it", DENIED: "could not get it",
                 UNKNOWN: "could perhaps get it"}
        who = quoted(question.asker.people[0].name)
        out.note(f"{who} {words[answer]}" if answer is not Answer.OBTAINABLE else f"could get it: {steps}")
    else:
        out.put(_why_row(Why(question.want.text, answer, None, steps), name.host, None))
    return answer


def _place(one: Why) -> str:
    return "" if one.place is None else str(one.place)


def _why_row(one: Why, host: Optional[str], directory: Optional[bytes]) -> Row:
    return {"right": one.right, "answer": one.answer.value, "place": one.place, "decided_by": one.text,
            "directory": None if directory is None else os.fsdecode(directory),
            **({} if host is None else {"host": host})}


def _is_asked(right: str, want: Want) -> bool:
    asked = want_of(right)
    return bool(asked.perms & want.perms) if right in "rwx" else bool(asked.mask & want.mask)
