"""What is found about a server, and how it is written."""

from __future__ import annotations

import json
from typing import Any, Dict, List, Mapping, NamedTuple, Optional, Sequence, Tuple

from aclck import NfsAcl
from aclck_tree.output.errors import NO, REFUSED, YES
from aclck_tree.output.text import plural, quoted_line

from .rules import RULES, Rule

GRANTS, DENIES = "grants", "denies"
"""What a list and a server say of a right."""


class Asker(NamedTuple):
    """Of whom a question is: the owner and the owning group of the object, the user, and the groups of that user."""

    owner: str
    group: str
    user: str
    groups: Tuple[str, ...]


class Difference(NamedTuple):
    """An answer that is not that of the list: the kind of the object, its list, who asks, if anybody does, for what,
    what the list says, what the server says, and the known rule that explains it, or None."""

    is_directory: bool
    acl: NfsAcl
    asker: Optional[Asker]
    word: str
    of_list: str
    of_server: str
    rule: Optional[Rule]

    def lines(self) -> List[str]:
        """Returns the lines for people."""
        aces = [f"  ace {line}" for line in str(self.acl).splitlines()] or ["  no ace"]
        asker = [] if self.asker is None else [
            f"  owner {self.asker.owner}", f"  group {self.asker.group}", f"  user {self.asker.user}",
            *(f"  member {group}" for group in self.asker.groups)]
        rule = "no known rule explains it" if self.rule is None else f"rule {self.rule.name}: {self.rule.says}"
        return [f"  {'directory' if self.is_directory else 'file'}", *aces, *asker, f"  right {self.word}",
                f"  the list {self.of_list}", f"  the server {self.of_server}", f"  {rule}"]

    def row(self) -> Dict[str, Any]:
        """Returns the object of JSON."""
        asker = dict.fromkeys(Asker._fields) if self.asker is None else self.asker._asdict()
        return {"directory": self.is_directory, "aces": str(self.acl).splitlines(), **asker, "right": self.word,
                "list": self.of_list, "server": self.of_server, "rule": self.rule.name if self.rule else None}


class Tally:
    """What is found about a kind of lists: how many questions there are, in how many of them the server answers by the
    list, how many requests the list leaves to the server, the first difference that no known rule explains, or else the
    first one, and how many differences each rule explains."""

    def __init__(self) -> None:
        self.questions = self.answered = self.left_out = 0
        self.difference: Optional[Difference] = None
        self.explained: Dict[str, int] = {}

    def count(self, differences: Sequence[Difference], left_out: int = 0, requests: int = 1) -> None:
        """Counts a question of some requests: its differences, and the requests that are left to the server. If all
        are, nothing is asked."""
        self.left_out += left_out
        self.questions += left_out < requests
        self.answered += left_out < requests and not differences
        for one in differences:
            if one.rule:
                self.explained[one.rule.name] = self.explained.get(one.rule.name, 0) + 1
            first = self.difference
            self.difference = one if first is None or (first.rule and not one.rule) else first

    def lines(self, place: str) -> List[str]:
        """Returns the lines for people."""
        says = "answers by its list for everybody" if self.difference is None else "does not answer by its list"
        says = says if self.questions else "not known"
        counts = f"{self.answered:,} of {plural(self.questions, 'question')}"
        more = f"; {plural(self.left_out, 'request')} left to the server" if self.left_out else ""
        return [f"{place}: {says}: {counts}{more}", *(self.difference.lines() if self.difference else ()),
                *(f"  {plural(self.explained[rule.name], 'answer')} by the rule {rule.name}: {rule.says}"
                  for rule in RULES if rule.name in self.explained)]

    def row(self) -> Dict[str, Any]:
        """Returns the object of JSON."""
        return {"questions": self.questions, "answered": self.answered, "left_out": self.left_out,
                "difference": self.difference.row() if self.difference else None, "rules": self.explained}


class Needs:
    """Which rights a request needs, and which are enough alone, as a server answered it."""

    def __init__(self) -> None:
        self.needed: List[str] = []
        self.enough: List[str] = []

    def note(self, right: str, is_alone: bool, is_granted: bool) -> None:
        """Notes the answer under a list that has one right alone, or all others."""
        if is_granted == is_alone:
            (self.enough if is_alone else self.needed).append(right)

    def __str__(self) -> str:
        return " and ".join(self.needed) or " or ".join(self.enough) or "none alone"


class Report:
    """What is found about a server: a tally for each kind of lists, which rights each request needs, and why no more is
    known."""

    def __init__(self, place: str) -> None:
        self._place = place
        self.kinds: Dict[str, Tally] = {}
        self.needs: Dict[Tuple[str, str], Needs] = {}
        self.reason = ""

    def tally(self, kind: str) -> Tally:
        """Returns the tally of a kind."""
        return self.kinds.setdefault(kind, Tally())

    def needs_of(self, is_directory: bool, word: str) -> Needs:
        """Returns what a request needs."""
        return self.needs.setdefault(("directory" if is_directory else "file", word), Needs())

    def unasked(self) -> List[str]:
        """Returns the kinds about which no question could be asked."""
        return [kind for kind, tally in self.kinds.items() if not tally.questions]

    @property
    def status(self) -> int:
        """The exit status."""
        is_other = any(one.difference for one in self.kinds.values())
        return NO if is_other else REFUSED if self.reason else YES

    def text(self, is_json: bool) -> bytes:
        """Returns what is written."""
        if is_json:
            return json.dumps(self._row(), ensure_ascii=True).encode() + b"\n"
        lines = [line for kind, tally in self.kinds.items() for line in tally.lines(f"{self._place}: {kind}")]
        lines += [f"{self._place}: {kind}: {word} needs {needs}" for (kind, word), needs in self.needs.items()]
        lines += [f"{self._place}: not known: {self.reason}"] if self.reason else []
        return "".join(f"{quoted_line(line)}\n" for line in lines).encode()

    def _row(self) -> Mapping[str, Any]:
        needs = [{"object": kind, "request": word, "needed": one.needed, "enough": one.enough}
                 for (kind, word), one in self.needs.items()]
        return {"server": self._place, "answer": {YES: True, NO: False}.get(self.status), "reason": self.reason or None,
                "kinds": {kind: tally.row() for kind, tally in self.kinds.items()}, "requests": needs}
