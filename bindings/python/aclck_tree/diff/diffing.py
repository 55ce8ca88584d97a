"""The command `diff`: what changed between two snapshots, and for whom."""

from __future__ import annotations

import argparse
from collections import Counter
from typing import Dict, Optional

from aclck import mask_text

from aclck_tree.answer.commands import asker_of, opened, people_of, read_people, status_of
from aclck_tree.diff.changes import Change, ChangeKind, Compared, ObjectChange
from aclck_tree.output.errors import NO, REFUSED, YES
from aclck_tree.output.text import ObjectName, ObjectNamer, Output, Row, name_in, plural, quoted
from aclck_tree.snapshot.joined import Joined, pair_trees
from aclck_tree.snapshot.selecting import Counted, Paths

_WORDS = {
    ChangeKind.UNREAD: "not read", ChangeKind.GONE: "gone", ChangeKind.CAME: "came",
    ChangeKind.BYTES: "with other bytes and the same meaning",
    ChangeKind.MEANING: "with another meaning", ChangeKind.INHERITS: "with another meaning for new objects",
    ChangeKind.PEOPLE: "with other people", ChangeKind.BITS: "with other special bits", ChangeKind.REFUSED: "refused",
    ChangeKind.SAME: "as before"}
"""What the last line says of each kind, in its order."""

_COLUMNS = ["change", "path", "whom", "gained", "lost", "unclear", "note", "on", "direction"]


_NOT_READ = tuple(ObjectChange(ChangeKind.UNREAD, f"the {word} snapshot lacks it, and could not read everything there")
                  for word in ("second", "first"))
"""What is said of objects that the later scan, or the earlier one, may not have read."""


class _Diff:
    """Writes changes: with `each` each object by itself, and otherwise each class of objects in one place."""

    def __init__(self, args: argparse.Namespace, naming: ObjectNamer) -> None:
        self._is_text = args.form == "text"
        self.each = args.each or not self._is_text
        self._out = Output(args.form, naming.columns(*_COLUMNS), _text)
        self._classes: Dict[ObjectChange, Counted] = {}
        self._counts: Counter[ChangeKind] = Counter()
        self._has_refused = False

    def add(self, change: ObjectChange, name: ObjectName, count: int = 1) -> None:
        """Takes objects that changed in one way, with the name of the first."""
        self._counts[change.kind] += count
        self._has_refused |= change.is_refused
        if change.kind is ChangeKind.SAME:
            return
        if self.each:
            self._put(change, name)
            return
        known = self._classes.get(change)
        self._classes[change] = Counted(known.objects + count, known.first) if known else Counted(count, name)

    def end(self) -> int:
        """Writes the classes: the objects that one scan could not read, those that are gone, those that came, and the
        others, greatest first. Writes the last line, and returns the exit status for whole snapshots."""
        order = {ChangeKind.UNPAIRED: 0, ChangeKind.UNREAD: 1, ChangeKind.GONE: 2, ChangeKind.CAME: 3}
        for change, one in sorted(self._classes.items(),
                                  key=lambda item: (order.get(item[0].kind, 4), -item[1].objects, item[1].first)):
            self._put(change, one.first, one.objects - 1)
        words = [f"{self._counts[kind]:,} {text}" for kind, text in _WORDS.items() if self._counts[kind]]
        if self._counts[ChangeKind.UNPAIRED]:
            words.append(f"{plural(self._counts[ChangeKind.UNPAIRED], 'tree')} without a pair")
        self._out.note(", ".join(words) or "no objects")
        are_same = self._counts[ChangeKind.SAME] == sum(self._counts.values())
        return REFUSED if self._has_refused else YES if are_same else NO

    def _put(self, change: ObjectChange, name: ObjectName, others: int = 0) -> None:
        self._out.put({**self._row(change.kind, name, change.note, others=others),
                       "direction": change.direction or None})
        for one in change.changes:
            for whom in [one.whom] if self._is_text else [(name,) for name in one.whom]:
                self._out.put(self._row(change.kind, name, one.note, one._replace(whom=whom)))

    def _row(self, kind: ChangeKind, name: ObjectName, note: str, change: Optional[Change] = None,
             others: int = 0) -> Row:
        row: Row = {"change": kind.value, **name.row(), "note": note, "whom": None, "on": None, "direction": None}
        if change:
            row["on"] = change.on or None
            row["whom"] = change.whom if self._is_text else str(change.whom[0])
        if self._is_text:
            row["others"] = others
        for way in ("gained", "lost", "unclear"):
            mask = getattr(change, way) if change else 0
            row[way] = mask_text(mask) if mask else None
        return row


def diff(args: argparse.Namespace) -> int:
    """Writes which objects are new, gone or changed between two snapshots, and for whom."""
    old, new = opened(args, args.old), opened(args, args.new)
    pairs = pair_trees(old, new, args.pair)
    people = people_of(args, new)
    before = people if args.people or args.passwd or args.getent else people_of(args, old)
    if args.people_then:
        people = read_people(args.people_then)
    compared = Compared(asker_of(args, old, before), asker_of(args, new, people))
    naming = ObjectNamer(old, new)
    out = _Diff(args, naming)
    for snapshot, paired, word in ((old, {pair[0] for pair in pairs}, "first"),
                                   (new, {pair[1] for pair in pairs}, "second")):
        for tree in [tree for number, tree in snapshot.trees.items() if number not in paired]:
            note = f"host {quoted(tree.host)}; this tree of the {word} snapshot has no pair"
            host = tree.host if naming.has_hosts else None
            out.add(ObjectChange(ChangeKind.UNPAIRED, note), ObjectName(tree.place, host))
    selections = None if args.path is None else (Paths(old, args.path).has, Paths(new, args.path).has)
    joined = Joined(old, new, pairs, compared.alike(pairs), selections)
    for one in joined.changes(out.each):
        snapshot = new if one.new else old
        change = _NOT_READ[one.old is None] if one.is_unread else compared.change(one.old, one.new)
        out.add(change, naming.name(snapshot.trees[one.tree], one.path), one.objects)
    out.add(ObjectChange(ChangeKind.SAME), ObjectName(b""), joined.unchanged)
    return status_of(out.end(), old, new)


def _text(row: Row) -> str:
    if row["whom"] is None:
        noun = "other tree" if row["change"] == ChangeKind.UNPAIRED.value else "other object"
        others = f" and {plural(row['others'], noun)}" if row["others"] else ""
        notes = "; ".join(filter(None, (row["direction"], row["note"])))
        return f"{row['change']}: {name_in(row)}{others}{f' ({notes})' if notes else ''}"
    is_one = len(row["whom"]) == 1
    words = (("gained", "gain"), ("lost", "lose"), ("unclear", "may gain or lose"))
    parts = [f"{verb}{'s' if is_one and key != 'unclear' else ''} {row[key]}" for key, verb in words if row[key]]
    note = f" ({row['note'] if is_one else row['note'].replace('is ', 'are ', 1)})" if row["note"] else ""
    on = f"{row['on']}: " if row["on"] else ""
    return f"    {on}{', '.join(whom.quoted() for whom in row['whom'])}{note} {'; '.join(parts)}"
