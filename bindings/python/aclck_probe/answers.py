"""The answers about objects, as lines for people and as objects of JSON."""

from __future__ import annotations

import json
from typing import Any, Dict, List, NamedTuple, Optional

from aclck_tree.output.errors import NO, REFUSED, YES
from aclck_tree.output.text import plural, quoted, quoted_line

from .examining import Difference, Examined


class Answer(NamedTuple):
    """What is known of a list: how the system answers by access(2), and how to operations that were tried. If an answer
    is not known, `reason` says why."""

    access: Optional[Examined] = None
    tried: Optional[Examined] = None
    reason: str = ""

    @property
    def status(self) -> int:
        """The exit status for this answer alone."""
        if self.reason:
            return REFUSED
        return NO if any(one.difference for one in (self.access, self.tried) if one) else YES

    def text(self, path: str, first: Optional[str], is_json: bool) -> bytes:
        """Returns what is written about an object. `first` is an object with the same list that was asked before."""
        if is_json:
            return json.dumps(self._row(path, first), ensure_ascii=True).encode() + b"\n"
        as_first = "" if first is None else f"as {quoted(first)}: "
        return "".join(f"{quoted_line(line)}\n" for line in self._lines(f"{quoted(path)}: {as_first}")).encode()

    def _row(self, path: str, first: Optional[str]) -> Dict[str, Any]:
        answer = {YES: True, NO: False}.get(self.status)
        return {"path": path, "as": first, "answer": answer, "access": _examined_row(self.access),
                "tried": _examined_row(self.tried), "reason": self.reason or None}

    def _lines(self, place: str) -> List[str]:
        lines: List[str] = []
        for word, found in (("", self.access), ("tried: ", self.tried)):
            if found:
                lines += _examined_lines(place + word, found)
        if self.reason:
            lines.append(f"{place}{'tried: ' if self.access else ''}not known: {self.reason}")
        return lines


def _examined_lines(place: str, found: Examined) -> List[str]:
    counts = f"{found.answered:,} of {plural(found.questions, 'question')}"
    more = "" if not found.left_out else f"; {plural(found.left_out, 'request')} left to the system"
    if found.difference is None:
        return [f"{place}answers by its list for everybody: {counts}{more}"]
    return [f"{place}does not answer by its list: {counts}{more}", *_difference_lines(found.difference)]


def _difference_lines(found: Difference) -> List[str]:
    ends = ("  the list denies", "  the system grants") if found.is_granted else (
        "  the list grants", "  the system denies")
    rule = "  no known rule explains it" if found.rule is None else f"  rule {found.rule.name}: {found.rule.says}"
    members = [f"  member {group}" for group in found.requester.groups]
    return [f"  owner {found.owner}", f"  group {found.group}", f"  user {found.requester.user}", *members,
            f"  right {found.word}", *ends, rule]


def _examined_row(found: Optional[Examined]) -> Optional[Dict[str, Any]]:
    if found is None:
        return None
    return {"questions": found.questions, "answered": found.answered, "left_out": found.left_out,
            "difference": None if found.difference is None else _difference_row(found.difference)}


def _difference_row(found: Difference) -> Dict[str, Any]:
    return {"owner": found.owner, "group": found.group, "user": found.requester.user,
            "groups": found.requester.groups, "right": found.word, "list": not found.is_granted,
            "system": found.is_granted, "rule": found.rule.name if found.rule else None}
