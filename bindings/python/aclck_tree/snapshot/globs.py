"""Patterns for whole paths, many at once.

A pattern has parts with `/` between them. The part `**` stands for any number of parts, also for none. In other parts,
`*` stands for any characters, also for none and for a dot at the front, `?` for one character, and `[..]` for one of
some characters, as in glob(7). Nothing else has a special meaning. A pattern that begins with `/` is compared with the
path from `/`, and any other with the path as it was typed for the scan, without a slash in front.
"""

from __future__ import annotations

import os
from typing import Dict, List, NamedTuple, Sequence, Tuple

from aclck_tree.snapshot.names import Kept, NameMatcher, bits_at, is_set, judge_name, places_of, room_for, tokens_of
from aclck_tree.snapshot.snapshot import Snapshot

ANY_PARTS = "**"
ANY_NAME = "*"

MOST_LETTERS = 1000
"""How many characters a part of a pattern may have. The names of files have 255 bytes."""

MOST_PARTS, MOST_OF_ALL = 1000, 100_000
"""How many parts a pattern may have, and how many all patterns have that are matched together."""

MOST_WILD, MOST_SETS = 50_000, 100
"""How many characters their different parts with wildcards may have, and how many different brackets."""

_DEPTH = 1000
"""For how many of the directories above an object it is kept what they match."""


class PathPattern(NamedTuple):
    """The parts of a pattern, and whether it is compared with the path from `/`."""

    parts: Tuple[str, ...]
    is_absolute: bool


def path_pattern(text: str) -> PathPattern:
    """Reads a pattern. Raises ValueError, with the reason, if it is none."""
    is_absolute = text.startswith("/")
    parts = tuple(text[1:].split("/")) if is_absolute and text != "/" else () if is_absolute else tuple(text.split("/"))
    if len(parts) > MOST_PARTS:
        raise ValueError(f"the path has more than {MOST_PARTS:,} parts")
    for part in parts:
        if part in ("", ".", ".."):
            raise ValueError(f"a part of the path is {part!r}")
        if "\0" in part:
            raise ValueError("a name in the path has a NUL")
        if ANY_PARTS in part and part != ANY_PARTS:
            raise ValueError("** is not a whole part of the path")
        if len(part) > MOST_LETTERS:
            raise ValueError(f"a part of the path has more than {MOST_LETTERS:,} characters")
        if _is_glob(part):
            judge_name(part)
    # two of these parts mean the same as one
    kept = tuple(part for before, part in zip(("", *parts), parts) if not before == part == ANY_PARTS)
    return PathPattern(kept, is_absolute)


def _is_glob(part: str) -> bool:
    return part not in (ANY_PARTS, ANY_NAME) and not set(part).isdisjoint("*?[")


def judge_patterns(patterns: Sequence[PathPattern]) -> None:
    """Raises ValueError, with the reason, if some patterns are too long to be matched together."""
    if sum(len(one.parts) for one in patterns) > MOST_OF_ALL:
        raise ValueError(f"the paths have more than {MOST_OF_ALL:,} parts")
    wild = {part for one in patterns for part in one.parts if _is_glob(part)}
    if sum(map(len, wild)) > MOST_WILD:
        raise ValueError(f"the parts of paths with wildcards have more than {MOST_WILD:,} characters")
    if len({token for part in wild for token in tokens_of(part) if is_set(token)}) > MOST_SETS:
        raise ValueError(f"the paths have more than {MOST_SETS} different brackets")


class Matcher:
    """Says which of many patterns match the objects of a snapshot. The parts of all patterns follow one another, and
    each has a bit in a number: the bit is set if the parts in front of it match a path. A name moves the bits of the
    parts that it matches, as letters do in names.py. So an object costs a few operations on such numbers, and what its
    name costs if there are parts with wildcards. The numbers of the directories above it are kept."""

    def __init__(self, snapshot: Snapshot, patterns: Sequence[PathPattern]) -> None:
        self._trees = snapshot.trees
        begins: Dict[bool, List[int]] = {False: [], True: []}
        self._numbers: Dict[int, int] = {}  # the place behind the last part of each pattern
        parts: Dict[str, List[int]] = {}
        size = 0
        for number, pattern in enumerate(patterns):
            begins[pattern.is_absolute].append(size)
            for part in pattern.parts:
                parts.setdefault(part, []).append(size)
                size += 1
            self._numbers[size] = number
            size += 1
        self._loops, self._each = (bits_at(parts.pop(part, [])) for part in (ANY_PARTS, ANY_NAME))
        self._ends = bits_at(list(self._numbers))
        self._begins = [self._closed(bits_at(begins[is_absolute])) for is_absolute in (False, True)]
        wild = [part for part in parts if _is_glob(part)]
        self._wild = [parts.pop(part) for part in wild]
        self._wilds = bits_at([place for places in self._wild for place in places])
        self._names = NameMatcher(wild)
        self._literals = {os.fsencode(part): places for part, places in parts.items()}
        self._named = Kept(self._bits_of_name, room_for(size))
        self._of_wild = Kept(self._bits_of_wild, room_for(size))
        self._of_ends = Kept(self._bits_of_ends, room_for(size))
        self._found = Kept(self._numbers_of, room_for(size))
        self._tree = 0
        self._above = b""
        self._way: List[Tuple[bytes, int]] = []  # the names of the directories above the last object, and their bits
        self._root = self._bits = 0

    def _bits_of_name(self, name: bytes) -> int:
        return bits_at(self._literals[name])

    def _bits_of_wild(self, number: int) -> int:
        return bits_at(self._wild[number])

    def _bits_of_ends(self, ends: int) -> int:
        found = 0
        for number in self._names.numbers(ends):
            found |= self._of_wild[number]
        return found

    def _numbers_of(self, ends: int) -> Tuple[int, ...]:
        return tuple(self._numbers[place] for place in places_of(ends))

    def _closed(self, bits: int) -> int:
        """Returns some bits with those behind each `**`, which may stand for nothing."""
        return bits | (bits & self._loops) << 1

    def _step(self, bits: int, name: bytes) -> int:
        moved = bits & self._each
        if name in self._literals:
            moved |= bits & self._named[name]
        if bits & self._wilds:
            moved |= bits & self._of_ends[self._names.ends(os.fsdecode(name))]
        return self._closed(moved << 1 | bits & self._loops)

    def _walked(self, bits: int, path: bytes) -> int:
        for name in os.path.normpath(path).split(b"/"):
            if name not in (b"", b"."):
                bits = self._step(bits, name)
        return bits

    def _enter(self, tree: int, above: bytes) -> None:
        """Finds the bits of a directory."""
        if tree != self._tree:
            typed, absolute = self._begins
            self._root = self._walked(typed, self._trees[tree].root) | self._walked(absolute, self._trees[tree].place)
            self._way.clear()
        names = above.split(b"/") if above else []
        same = 0
        while same < len(names) and same < len(self._way) and names[same] == self._way[same][0]:
            same += 1
        del self._way[same:]
        bits = self._way[-1][1] if self._way else self._root
        for name in names[same:]:
            bits = self._step(bits, name)
            if len(self._way) < _DEPTH:
                self._way.append((name, bits))
        self._tree, self._above, self._bits = tree, above, bits

    def matched(self, tree: int, path: bytes) -> Tuple[int, ...]:
        """Returns the numbers of the patterns that match an object, in rising order. It is quick if the objects of a
        directory come one after another."""
        above, _, name = path.rpartition(b"/")
        if tree != self._tree or above != self._above:
            self._enter(tree, above)
        bits = self._step(self._bits, name) if path else self._root
        return self._found[bits & self._ends]
