"""The rows of the page of `report`: folders, each with everything below it that answers alike, and its exceptions."""

from __future__ import annotations

import heapq
import os
from dataclasses import dataclass, field
from enum import IntEnum
from typing import Dict, Iterator, List, Optional, Set, Tuple

from aclck import APPEND_DATA, DELETE_CHILD, EXECUTE, READ_DATA, WRITE_DATA

from aclck_tree.answer.lists import Kind
from aclck_tree.output.text import quoted, shortened

MOST_ROWS = 5000
"""How many rows are kept. Exceptions beyond them are counted alone."""

NAMED = 20
"""How many of the objects at which a row begins are named."""

_WHOLE = {Kind.POSIX: READ_DATA | WRITE_DATA | APPEND_DATA | EXECUTE, Kind.NFS4: 0x1F01FF}


class Level(IntEnum):
    """What a cell of the page says about one person."""

    NONE = 0
    READ = 1
    WRITE_ONLY = 2
    WRITE = 3
    ALL = 4
    UNKNOWN = 5
    REFUSED = 6


_CHANGES = WRITE_DATA | APPEND_DATA


def _whole(kind: Kind, is_folder: bool) -> int:
    """Returns all rights. A file can be granted all without EXECUTE and DELETE_CHILD."""
    return _WHOLE[kind] if is_folder else _WHOLE[kind] & ~(EXECUTE | DELETE_CHILD)


def level_of(mask: int, kind: Kind, is_folder: bool) -> Level:
    """Returns the level of some granted rights."""
    whole = _whole(kind, is_folder)
    return level_by(mask & whole == whole, bool(mask & _CHANGES), bool(mask & READ_DATA))


def questions_of(kind: Kind, is_folder: bool) -> Tuple[Tuple[int, bool], ...]:
    """Returns the questions whose answers `level_by` takes: rights, and whether it is enough if any is granted."""
    return (_whole(kind, is_folder), False), (_CHANGES, True), (READ_DATA, False)


def level_by(has_all: bool, may_change: bool, may_read: bool) -> Level:
    """Returns the level of somebody with these answers."""
    if has_all:
        return Level.ALL
    if may_change:
        return Level.WRITE if may_read else Level.WRITE_ONLY
    return Level.READ if may_read else Level.NONE


def name_of(path: bytes) -> str:
    """Returns a path as the page shows it: as bash reads it, and without its middle if it is long."""
    return shortened(quoted(os.fsdecode(path)))


Name = Tuple[int, bytes]
"""The tree and the path of an object that the page may name."""


@dataclass
class Cells:
    """The cells of a row: the level of each person who does not own an object, in the order of the people, and the
    level of its owner. Two objects answer alike if and only if they have the same number."""

    number: int
    levels: bytes
    owner: Level


@dataclass
class PageRow:
    """Objects that answer alike below one row: `folders` and `files` are how many of them begin here, because the row
    above answers otherwise, and `names` are the first of these. `objects` counts everything that answers like this.

    `owners` are the places of the people who own some of the objects. `left_out` counts objects below that are
    exceptions and have no row.
    """

    cells: Cells
    objects: int = 0
    folders: int = 0
    files: int = 0
    names: List[Name] = field(default_factory=list)
    owners: Set[int] = field(default_factory=set)
    below: Dict[int, PageRow] = field(default_factory=dict)
    left_out: int = 0

    @property
    def begins(self) -> int:
        """How many objects begin here."""
        return self.folders + self.files

    def all(self, depth: int = 0) -> Iterator[Tuple[int, PageRow]]:
        """Yields each row below, after the row above it, with its depth."""
        waiting = [(depth, row) for row in reversed(list(self.below.values()))]
        while waiting:
            at, row = waiting.pop()
            yield at, row
            waiting += [(at + 1, one) for one in reversed(list(row.below.values()))]


class RowBuilder:
    """Makes the rows of a snapshot, whose objects come in the order of trees and paths."""

    def __init__(self) -> None:
        self.top = PageRow(Cells(-1, b"", Level.NONE))
        self.count = 0
        self._tree: Optional[int] = None
        self._above: List[Tuple[bytes, PageRow]] = []

    def add(self, tree: int, path: bytes, is_folder: bool, cells: Cells) -> Tuple[Optional[PageRow], bool]:
        """Adds an object. Returns its row, or None if there are too many rows, and whether the object begins there."""
        above = self._row_above(tree, path)
        row: Optional[PageRow] = above
        begins = above.cells.number != cells.number
        if begins:
            row = above.below.get(cells.number)
            if row is None and self.count < MOST_ROWS:
                row = above.below[cells.number] = PageRow(cells)
                self.count += 1
        if row is None:
            above.left_out += 1
            row, begins = None, False
        else:
            row.objects += 1
            if begins:
                row.folders += is_folder
                row.files += not is_folder
        if is_folder:
            self._above.append((path + b"/" if path else b"", row or above))
        return row, begins

    def _row_above(self, tree: int, path: bytes) -> PageRow:
        """Returns the row of the nearest folder above. In the order of bytes, `a-b` is between `a` and `a/b`, so
        `_above` keeps each folder, with what all paths below it begin with, until no such path can follow."""
        if tree != self._tree:
            self._tree, self._above = tree, []
        while self._above:
            beginning, row = self._above[-1]
            if path.startswith(beginning):
                return row
            if path < beginning:
                break
            self._above.pop()
        return next((row for beginning, row in reversed(self._above) if path.startswith(beginning)), self.top)


@dataclass
class Shown:
    """A row on the page, with its depth, and how many rows and objects below it have no room there."""

    row: PageRow
    depth: int
    left_out_rows: int = 0
    left_out_objects: int = 0


def shown(top: PageRow, most: int) -> List[Shown]:
    """Returns the rows that stand for the most objects, each after the row above it. The first is `top`."""
    every = [(0, top), *top.all(1)]
    totals = {id(row): row.objects + row.left_out for _, row in every}
    numbers = {id(row): 1 for _, row in every}
    for _, row in reversed(every):
        totals[id(row)] += sum(totals[id(one)] for one in row.below.values())
        numbers[id(row)] += sum(numbers[id(one)] for one in row.below.values())
    chosen: Set[int] = {id(top)}
    waiting = [(-totals[id(row)], place, row) for place, row in enumerate(top.below.values())]
    heapq.heapify(waiting)
    order = len(waiting)
    while waiting and len(chosen) <= most:
        row = heapq.heappop(waiting)[2]
        chosen.add(id(row))
        for one in row.below.values():
            heapq.heappush(waiting, (-totals[id(one)], order, one))
            order += 1
    found: List[Shown] = []
    for depth, row in every:
        if id(row) in chosen:
            absent = [one for one in row.below.values() if id(one) not in chosen]
            found.append(Shown(row, depth, sum(numbers[id(one)] for one in absent),
                               row.left_out + sum(totals[id(one)] for one in absent)))
    return found


def columns_of(rows: List[Shown], people: int) -> List[List[int]]:
    """Returns the people, by their places, in columns. People with equal access in all these rows share one."""
    owned: Dict[int, List[int]] = {}
    for number, one in enumerate(rows):
        for person in one.row.owners:
            owned.setdefault(person, []).append(number)
    levels = zip(*(one.row.cells.levels for one in rows)) if rows else iter([()] * people)
    found: Dict[Tuple[bytes, Tuple[int, ...]], List[int]] = {}
    for person, column in enumerate(levels):
        key = bytes(column), tuple(owned.get(person, ()))
        found.setdefault(key, []).append(person)
    return list(found.values())
