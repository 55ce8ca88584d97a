"""The command `policy`: which objects break which rules of a policy, and for whom."""

from __future__ import annotations

import argparse
import functools
from dataclasses import replace
from typing import Dict, Iterator, List, Tuple

from aclck_tree.answer import mentions
from aclck_tree.answer.ask import NOBODY, Asker
from aclck_tree.answer.commands import asker_of, opened, people_of, status_of
from aclck_tree.answer.objects import left_out
from aclck_tree.answer.reach import tell_above
from aclck_tree.output.errors import NO, REFUSED, YES
from aclck_tree.output.text import ObjectName, ObjectNamer, Output, Row, plural, quoted, tell
from aclck_tree.policy.applying import Broken, Key, Policy
from aclck_tree.policy.classes import EXCEPTED, KEPT, ORDER, Classes, Found, in_order, verdict_of
from aclck_tree.policy.fix_files import refuse_fix
from aclck_tree.policy.fixing import Fixing
from aclck_tree.policy.judging import Breach, Verdict
from aclck_tree.policy.obtaining import OBTAINABLE
from aclck_tree.policy.policies import names_in, read_policy
from aclck_tree.snapshot.selecting import Counted, count_by

_MOST_FOUND = 1_000_000
"""How many findings about objects and rules are kept."""


def words_of(one: Breach) -> str:
    """Returns what a breach says: who may or may not do what, and by which ACE, or why a bound cannot be judged. What
    is created in the object stands in front, if it is about that."""
    on = f"{one.on}: " if one.on else ""
    if one.reason:
        return f"{on}{one.bound} cannot be judged: {one.reason}"
    if one.bound == OBTAINABLE:
        return f"{quoted(one.who) if one.is_known else one.who} could come to have {one.rights}"
    verb = "may" if one.bound == "at_most" else "may not"
    place = "" if one.place is None else f"ACE {one.place}: "
    who = quoted(one.who) if one.is_known else one.who
    return f"{on}{who} {verb} {one.rights}, {place}{one.decided_by}"


def tell_slips(place: str, asker: Asker, policy: Policy) -> bool:
    """Reports the names of a policy that the snapshot does not mention, and the paths that match nothing. Returns
    whether one of these is that of a rule."""
    names = set(names_in(policy.rules))
    found = mentions.unmentioned(asker, [(NOBODY, (is_group, name)) for name, kinds in names for is_group in kinds])
    for name, kinds in names:
        if len(kinds) == 2 and not found.names >= {(False, name), (True, name)}:  # one of the two is mentioned
            found.names.difference_update((is_group, name) for is_group in kinds)
            found.foreign.difference_update((is_group, name) for is_group in kinds)
    together = asker.snapshot.together
    for line in () if together else mentions.lines(asker, found, False):
        tell(f"{quoted(place)}: {line}")
    has_empty = False
    for rule, exception in policy.unmatched():
        if together:
            together.unmatched += [rule.name] if exception is None else []
        elif exception is None:
            has_empty = True
            tell(f"{quoted(place)}: the path of rule {quoted(rule.name)} matches nothing")
        else:
            tell(f"{quoted(place)}: rule {quoted(rule.name)}: the exception {quoted(exception)} matches nothing")
    return has_empty


class _Check:
    """The answers of the command about the objects of a snapshot."""

    def __init__(self, asker: Asker, policy: Policy) -> None:
        self.asker = asker
        self.policy = policy
        self.naming = ObjectNamer(asker.snapshot)
        self.tally: Dict[str, int] = {}
        self.is_unknown = False
        self._known: Dict[Key, List[Found]] = {}
        self._kept = 0  # how many findings are known

    def count(self) -> Dict[Key, Counted]:
        """Counts the objects about which the same is found, those of one owner next to each other."""
        faces = self.asker.faces

        def order(key: Key) -> Tuple[int, int, int, int]:
            face = faces[key.face]
            return face.tree, face.uid, face.gid, face.face
        counts = count_by(self.asker.snapshot, self.policy.keys())
        return {key: counts[key] for key in sorted(counts, key=order)}

    def judge(self, key: Key, objects: int) -> List[Broken]:
        """Returns the rules that the objects of a key break, and counts the verdicts."""
        found = [*self.policy.broken(key)]
        kept = len(key.applied.rules)
        for alike, breaches in found:
            kept -= len(alike.rules)
            self._add(verdict_of(breaches).value, alike.holding * objects)
            self._add(EXCEPTED, (len(alike.rules) - alike.holding) * objects)
            if alike.holding and any(breach.verdict is Verdict.UNKNOWN for breach in breaches):
                self.is_unknown = True
        self._add(KEPT, kept * objects)
        return found

    def _add(self, verdict: str, objects: int) -> None:
        self.tally[verdict] = self.tally.get(verdict, 0) + objects

    def found(self, key: Key) -> List[Found]:
        """Returns how the objects of a key break rules, in the order of the rules."""
        if key not in self._known:
            found = in_order(self.policy.broken(key))
            self._kept += len(found) + 1
            if self._kept > _MOST_FOUND:
                self._kept = len(found) + 1
                self._known.clear()
            self._known[key] = found
        return self._known[key]

    def broken_rules(self, key: Key) -> List[str]:
        """Returns the names of the rules that the objects of a key break, in the order of the rules."""
        rules = sorted(applied.rule for alike, breaches in self.policy.broken(key)
                       if verdict_of(breaches) is Verdict.BROKEN for applied in alike.rules
                       if applied.exemption is None)
        return [self.policy.rules[rule].name for rule in rules]

    def not_kept(self, key: Key, face: int) -> List[str]:
        """Returns in words how the objects of a key would not keep the rules with another face. Who could come to have
        a right is not asked again: nobody comes to have more because rights are taken out of lists."""
        mended = in_order(self.policy.broken(key._replace(face=face, place=None)))
        steps = in_order(one for one in self.policy.broken(key)
                         if any(breach.bound == OBTAINABLE for breach in one.breaches))
        return [f"rule {quoted(self.policy.rules[one.applied.rule].name)}: {words_of(breach)}"
                for found, is_mended in ((mended, True), (steps, False))
                for one in found if one.verdict != EXCEPTED
                for breach in one.breaches if is_mended or breach.bound == OBTAINABLE]

    def rows(self, name: ObjectName, found: Found) -> Iterator[Row]:
        """Yields a row for each breach."""
        rule = self.policy.rules[found.applied.rule]
        place = found.applied.exemption
        excepted = None if place is None else rule.exemptions[place].reason
        for one in found.breaches:
            yield {"verdict": found.verdict if place is not None else one.verdict.value, "rule": rule.name,
                   **name.row(), "bound": one.bound, "on": one.on or None, "who": one.who or None,
                   "known": one.is_known, "rights": one.rights or None, "place": one.place,
                   "decided_by": self.policy.decided_by(one, name) or None, "reason": one.reason or None,
                   "exception": excepted}


_COLUMNS = ["verdict", "rule", "path", "bound", "on", "who", "known", "rights", "place", "decided_by", "reason",
            "exception"]


def policy(args: argparse.Namespace) -> int:
    """Writes which objects break a rule of a policy, and for whom."""
    rules = read_policy(args.policy)
    snapshot = opened(args, args.snapshot)
    if args.fix is not None:
        refuse_fix(args.fix, snapshot)
    asker = asker_of(args, snapshot, people_of(args, snapshot))
    check = _Check(asker, Policy(args.policy, asker, rules, args.judgements))
    counts = check.count()
    check.policy.refuse_many(counts)
    out = Output(args.form, check.naming.columns(*_COLUMNS), lambda row: None)
    has_classes = args.form == "text" and not args.each  # objects about which the same is found share a line
    classes = Classes(check.policy)
    for key, one in counts.items():
        for broken in check.judge(key, one.objects):
            if has_classes:
                classes.add(broken, one)
    if has_classes:
        for found, one in classes.each():
            _put_text(out, check, found, one)
    else:
        _put_each(args, check, out)
    if check.policy.is_about_obtaining:
        tell_above(check.asker)
    status = NO if check.tally.get(Verdict.BROKEN.value) else YES
    has_empty = _ended(args, check, counts, out)
    is_unmended = args.fix is not None and not _fix(args, check, counts, out)
    return status_of(REFUSED if has_empty or check.is_unknown or is_unmended else status, snapshot)


def _fix(args: argparse.Namespace, check: _Check, counts: Dict[Key, Counted], out: Output) -> bool:
    """Writes mended lists for what breaks a rule, and returns whether there is one for each object."""
    fixing: Fixing[Key] = Fixing(check.asker, args.fix)
    for key, one in counts.items():
        broken = check.broken_rules(key)
        if broken:
            applying = (check.policy.rules[alike.first] for alike in key.applied.alike if alike.holding)
            rules = [replace(rule, children=rule.children and key.is_directory) for rule in applying]
            fixing.mend(key, one, key.face, rules, broken, functools.partial(check.not_kept, key))
    for line in fixing.write(check.policy.keys()):
        out.note(line)
    return fixing.is_whole


def _put_each(args: argparse.Namespace, check: _Check, out: Output) -> None:
    for key, tree, path in check.policy.keys():
        name = check.naming.name(check.asker.snapshot.trees[tree], path)
        for found in check.found(key):
            if args.form == "text":
                _put_text(out, check, found, Counted(1, name))
            else:
                for row in check.rows(name, found):
                    out.put(row)


def _put_text(out: Output, check: _Check, found: Found, one: Counted) -> None:
    rule, place = check.policy.rules[found.applied.rule], found.applied.exemption
    others = f" and {plural(one.objects - 1, 'other object')}" if one.objects > 1 else ""
    excepted = "" if place is None else f" ({rule.exemptions[place].reason})"
    out.note(f"{found.verdict}: {one.first.words()}{others}, rule {quoted(rule.name)}{excepted}")
    for breach in found.breaches:
        steps = f": {check.policy.decided_by(breach, one.first)}" if breach.way else ""
        out.note(f"    {words_of(breach)}{steps}")


def _ended(args: argparse.Namespace, check: _Check, counts: Dict[Key, Counted], out: Output) -> bool:
    """Writes the last lines, and returns whether the path of a rule matches nothing."""
    has_empty = tell_slips(args.policy, check.asker, check.policy)
    words = [f"{check.tally[word]:,} {word}" for word in ORDER if check.tally.get(word)]
    objects = sum(one.objects for one in counts.values())
    bare = sum(one.objects for key, one in counts.items() if not key.applied.rules)
    no_rule = f"; no rule is about {plural(bare, 'object')}" if bare else ""
    out.note(f"{plural(objects, 'object')}, {plural(len(check.policy.rules), 'rule')}: "
             f"{', '.join(words) or 'nothing judged'}{no_rule}{left_out(check.asker, {key.face for key in counts})}")
    return has_empty
