"""Reads a policy: rules about the lists of the objects in a tree, in TOML (docs/use/policies.md)."""

from __future__ import annotations

import sys
from dataclasses import dataclass
from typing import Any, Dict, FrozenSet, Iterable, Iterator, List, NamedTuple, NoReturn, Optional, Tuple, Union

from aclck import (
    ALLOW,
    APPEND_DATA,
    DELETE,
    DELETE_CHILD,
    EXECUTE,
    READ_DATA,
    WRITE_ACL,
    WRITE_DATA,
    WRITE_OWNER,
    Ace,
    AceFlag,
    NfsAcl,
    PosixAcl,
    mask_text,
    read_mask,
)

from aclck_tree.output.errors import TreeError
from aclck_tree.output.files import opened_file
from aclck_tree.output.text import quoted, shortened
from aclck_tree.snapshot.globs import PathPattern, judge_patterns, path_pattern

if sys.version_info >= (3, 11):
    from tomllib import loads
else:
    from aclck_tree.policy.plain_toml import loads

MOST_BYTES = 1 << 20
"""How many bytes a policy may have."""

MOST_DOTS = 200
"""How many dots a line of it may have: the time that `tomllib` takes for a key grows with their square."""

RIGHTS = {"read": READ_DATA, "write": WRITE_DATA | APPEND_DATA, "execute": EXECUTE, "delete": DELETE | DELETE_CHILD,
          "manage": WRITE_ACL | WRITE_OWNER}
"""The words for rights."""

_SPECIAL = {"everyone": "EVERYONE@", "owner": "OWNER@", "group": "GROUP@"}
_KINDS = {"user": (False,), "group": (True,)}


class Principal(NamedTuple):
    """Whom a rule names: `EVERYONE@`, `OWNER@` or `GROUP@`, which are of no kind; or a name of a user (False), of a
    group (True), or of both."""

    name: str
    kinds: Tuple[bool, ...] = ()


@dataclass(frozen=True)
class Words:
    """Who has which rights, in words: masks, each with those who have its rights."""

    rows: Tuple[Tuple[int, Tuple[Principal, ...]], ...]

    @property
    def rights(self) -> int:
        """All rights that the words are about."""
        return sum(mask for mask, _ in self.rows)  # no right is in two rows


@dataclass(frozen=True)
class PosixBound:
    """The text of a POSIX ACL, and the names of users and groups in it."""

    text: str
    users: FrozenSet[str]
    groups: FrozenSet[str]


Bound = Union[Words, NfsAcl, PosixBound]
"""What objects may grant at most, or must grant at least."""


class Exemption(NamedTuple):
    """A pattern of objects to which a rule does not apply, with the reason."""

    path: PathPattern
    text: str
    reason: str


@dataclass(frozen=True)
class Rule:
    """A rule for the objects that a pattern matches. With `children`, the first two bounds also hold for what is
    created in them. `at_most_obtainable` is about those who have rights, and those who could come to have them."""

    name: str
    path: PathPattern
    at_most: Optional[Bound]
    at_least: Optional[Bound]
    children: bool
    exemptions: Tuple[Exemption, ...]
    at_most_obtainable: Optional[Words] = None

    @property
    def bounds(self) -> Tuple[object, ...]:
        """What the rule says about objects. Rules that say the same differ in their names and in their objects."""
        return self.at_most, self.at_least, self.children, self.at_most_obtainable


def names_in(rules: Iterable[Rule]) -> Iterator[Tuple[str, Tuple[bool, ...]]]:
    """Yields the names of users (False), of groups (True) and of both in the bounds of some rules."""
    for rule in rules:
        for bound in (rule.at_most, rule.at_least, rule.at_most_obtainable):
            if isinstance(bound, Words):
                yield from (whom for _, names in bound.rows for whom in names if whom.kinds)
            elif isinstance(bound, NfsAcl):
                yield from ((ace.who, (ace.is_group,)) for ace in bound if ace.who not in _SPECIAL.values())
            elif bound is not None:
                yield from ((name, (False,)) for name in bound.users)
                yield from ((name, (True,)) for name in bound.groups)


class _Table:
    """A table of a policy, which must have no keys but those that were taken from it."""

    def __init__(self, where: str, table: Dict[str, Any]) -> None:
        self._where = where
        self._left = dict(table)

    def refuse(self, reason: str) -> NoReturn:
        raise TreeError(f"{self._where}: {reason}")

    def text(self, key: str) -> Optional[str]:
        """Takes a text, or None if there is none."""
        found = self._left.pop(key, None)
        if found is not None and not (isinstance(found, str) and found.strip()):
            self.refuse(f"{key} is not a text" if not isinstance(found, str) else f"{key} is empty")
        return found

    def needed(self, key: str) -> str:
        """Takes a text that must be there."""
        found = self.text(key)
        return self.refuse(f"{key} is missing") if found is None else found

    def pattern(self) -> Tuple[PathPattern, str]:
        """Takes the pattern `path`."""
        text = self.needed("path")
        try:
            return path_pattern(text), text
        except ValueError as error:
            self.refuse(f"path {shortened(quoted(text))}: {error}")

    def flag(self, key: str) -> bool:
        """Takes a flag, which is false if it is not there."""
        found = self._left.pop(key, False)
        return found if isinstance(found, bool) else self.refuse(f"{key} is not true or false")

    def tables(self, key: str, word: str) -> "Iterator[_Table]":
        """Takes an array of tables. Each one is called by a word and its number in messages."""
        found = self._left.pop(key, [])
        if not isinstance(found, list) or not all(isinstance(one, dict) for one in found):
            self.refuse(f"{key} is not an array of tables, which begin with [[{key}]]")
        return (_Table(f"{self._where}: {word} {number}", one) for number, one in enumerate(found, 1))

    def bound(self, key: str, is_most: bool) -> Optional[Bound]:
        """Takes a bound."""
        found = self._left.pop(key, None)
        if found is None:
            return None
        try:
            return _words(found, is_most) if isinstance(found, dict) else _list(found)
        except ValueError as error:
            self.refuse(f"{key}: {error}")

    def words(self, key: str) -> Optional[Words]:
        """Takes a bound in words, of those who may have rights at most."""
        found = self.bound(key, True)
        return found if found is None or isinstance(found, Words) else self.refuse(f"{key} is not in words")

    def end(self) -> None:
        """Refuses what was not taken."""
        for key in self._left:
            self.refuse(f"unknown key {quoted(key)}")


def read_policy(path: str) -> List[Rule]:
    """Reads the rules of a file. Raises TreeError, with the number of the rule, if a rule is none, and if the file
    cannot be read."""
    top = _Table(quoted(path), _loaded(path))
    rules: List[Rule] = []
    numbers: Dict[str, int] = {}
    for number, table in enumerate(top.tables("rule", "rule"), 1):
        rule = _rule(table)
        other = numbers.setdefault(rule.name, number)
        if other != number:
            table.refuse(f"rule {other} has the name {quoted(rule.name)} too: give each a name")
        rules.append(rule)
    top.end()
    if not rules:
        top.refuse("it has no rule, which begins with [[rule]]")
    try:
        judge_patterns([path for rule in rules for path in (rule.path, *(one.path for one in rule.exemptions))])
    except ValueError as error:
        top.refuse(str(error))
    return rules


def _loaded(path: str) -> Dict[str, Any]:
    try:
        with opened_file(path) as file:
            data = file.read(MOST_BYTES + 1)
    except OSError as error:
        raise TreeError(f"{quoted(path)}: {error.strerror or error}") from None
    if len(data) > MOST_BYTES:
        raise TreeError(f"{quoted(path)}: it has more than {MOST_BYTES:,} bytes")
    if any(line.count(b".") > MOST_DOTS for line in data.split(b"\n")):
        raise TreeError(f"{quoted(path)}: a line has more than {MOST_DOTS} dots")
    try:
        return loads(data.decode())
    except (ValueError, RecursionError) as error:
        raise TreeError(f"{quoted(path)}: it is not TOML: {error}") from None


def _rule(table: _Table) -> Rule:
    path, text = table.pattern()
    name = table.text("name") or text
    at_most, at_least = (table.bound(key, key == "at_most") for key in ("at_most", "at_least"))
    obtainable = table.words("at_most_obtainable")
    children = table.flag("children")
    exemptions = tuple(map(_exemption, table.tables("except", "exception")))
    table.end()
    if at_most is None and at_least is None:
        if obtainable is None:
            table.refuse("it has neither at_most nor at_least")
        if children:
            table.refuse("children is about at_most and at_least, and it has neither")
    return Rule(name, path, at_most, at_least, children, exemptions, obtainable)


def _exemption(table: _Table) -> Exemption:
    found = Exemption(*table.pattern(), table.needed("reason"))
    table.end()
    return found


def _words(table: Dict[str, Any], is_most: bool) -> Words:
    """Reads who has which rights. Raises ValueError with the reason."""
    rows: List[Tuple[int, Tuple[Principal, ...]]] = []
    known = 0
    for key, names in table.items():
        mask = RIGHTS.get(key) or _mask(key)
        if mask & known:
            raise ValueError(f"{mask_text(mask & known)} is in two keys, of which one is {quoted(key)}")
        known |= mask
        if not isinstance(names, list) or not all(isinstance(name, str) for name in names):
            raise ValueError(f"{quoted(key)} is not an array of texts")
        rows.append((mask, tuple(_whom(name, is_most) for name in names)))
    if not known or not is_most and not any(names for _, names in rows):
        raise ValueError("it names no rights" if not known else "it names nobody")
    return Words(tuple(rows))


def _mask(key: str) -> int:
    try:
        mask = read_mask(key)
    except ValueError:
        mask = 0
    if not mask:
        raise ValueError(f"{quoted(key)} is not one of {', '.join(RIGHTS)}, or names of rights with | between them")
    return mask


def _whom(text: str, is_most: bool) -> Principal:
    """Reads whom a text names. Raises ValueError with the reason."""
    if text in _SPECIAL:
        return Principal(_SPECIAL[text])
    word, blank, name = text.partition(" ")
    found = Principal(name, _KINDS[word]) if blank and word in _KINDS else Principal(text, (False, True))
    if len(found.kinds) == 2 and not is_most:
        raise ValueError(f"write {quoted('user ' + text)} or {quoted('group ' + text)}")
    try:
        NfsAcl.from_aces([Ace(ALLOW, AceFlag(0), 0, found.name)])
    except ValueError as error:
        raise ValueError(f"{quoted(text)} names nobody: {getattr(error, 'reason', error)}") from None
    return found


def _list(text: Any) -> Bound:
    """Reads the text of a list. Raises ValueError with the reason."""
    if not isinstance(text, str):
        raise ValueError("it is neither a text nor a table")
    if not text.strip():
        raise ValueError("it is an empty text")
    lines = text if text.endswith("\n") else text + "\n"
    if lines.startswith(("ALLOW", "DENY")):
        return NfsAcl.from_text(lines)
    users, groups = (frozenset(_names(lines, word)) for word in ("user", "group"))
    acl = PosixAcl.from_text(lines, *(dict(zip(names, range(len(names)))) for names in (users, groups)))
    if any(entry.default for entry in acl):
        raise ValueError("a rule has no default entries: children = true is about what is created")
    return PosixBound(lines, users, groups)


def _names(text: str, word: str) -> Iterator[str]:
    """Yields the names of users or of groups in the text of a POSIX ACL."""
    for line in text.split("\n"):
        for entry in line.partition("#")[0].split(","):
            fields = [field.strip(" \t") for field in entry.split(":")]
            if len(fields) >= 3 and fields[-3] in (word, word[0]) and fields[-2] and not fields[-2].isdigit():
                yield fields[-2]

