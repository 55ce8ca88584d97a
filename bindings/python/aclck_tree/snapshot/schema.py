"""The tables of a snapshot, and which values they may have. A snapshot can come from anybody, so everything in it is
judged before it is used."""

from __future__ import annotations

import re
from typing import Any, Callable, Dict, Iterator, NamedTuple

from aclck_tree.output.errors import TreeError
from aclck_tree.snapshot.portions import LONGEST_KEY, MOST_SHARDS

FORMAT = 1
PORTIONS = 2
"""The version of a snapshot with portions of trees. A program that knows only whole trees refuses it."""

KINDS = 3
"""The version of a snapshot whose lists may be of the kinds that came later."""

ABOVE = 4
"""The version of a snapshot with the directories above the roots of trees."""

APPLICATION = 0x61636C6B  # "aclk"

LEAST_ROW = 4
"""The least number of bytes that a row needs in a file of SQLite."""

LONGEST_LIST = 1 << 24
"""How many bytes a list may have. Linux limits attributes to 65,536 bytes."""


class _Column(NamedTuple):
    """A column of a table: its declaration, and the condition that each value of it must meet."""

    declaration: str
    condition: str


def _number(low: int, high: int, declaration: str = "INTEGER NOT NULL") -> _Column:
    return _Column(declaration, f"typeof({{0}}) = 'integer' AND {{0}} BETWEEN {low} AND {high}")


def _word(*words: str) -> _Column:
    return _Column("TEXT NOT NULL", " OR ".join(f"{{0}} = '{word}'" for word in words))  # quicker than IN


_KEY = _number(1, 2**53, "INTEGER PRIMARY KEY")
_ID = _number(0, 2**32 - 1)
_MAY_BE_ID = _Column("INTEGER", f"{{0}} IS NULL OR {_ID.condition}")
_FLAG = _number(0, 1)
_NO_NUL = "NOT instr({0}, x'00')"
_NAME = _Column("BLOB NOT NULL", f"typeof({{0}}) = 'blob' AND {_NO_NUL}")
_TEXT = _Column("TEXT NOT NULL", "typeof({0}) = 'text' AND instr(CAST({0} AS BLOB), x'00') = 0")
_MAY_BE_TEXT = _Column("TEXT", f"{{0}} IS NULL OR {_TEXT.condition}")
# The conditions of what each object has say without typeof, which is slow, that a value is a number or bytes. The sign
# keeps SQLite from making a number of a text. 5.0 is taken, and means the same as 5. Bytes are greater than all else.
_TREE, _LIST, _FACE = (_Column("INTEGER NOT NULL",
                               f"{{0}} & {2**53 - 1} = +{{0}} AND {{0}} IN (SELECT {key} FROM {key}s)")
                       for key in ("tree", "list", "face"))
_MODE = _Column("INTEGER NOT NULL", f"{{0}} & {0o7777} = +{{0}}")
_PATH = _Column("BLOB NOT NULL",  # relative, and without `..`
                f"({{0}} >= x'30' OR {{0}} >= x'' AND {{0}} < x'2f') AND {_NO_NUL} AND (NOT instr({{0}}, x'2e2e') OR "
                "NOT instr(CAST(x'2f' || {0} || x'2f' AS BLOB), x'2f2e2e2f'))")
_MAY_BE_PATH = _Column("BLOB", f"{{0}} IS NULL OR {_PATH.condition}")
_BYTES = _Column("BLOB", f"{{0}} IS NULL OR typeof({{0}}) = 'blob' AND length({{0}}) <= {LONGEST_LIST}")
_INDEXED_TREE, _INDEXED_PATH = (_Column(one.declaration, "1") for one in (_TREE, _PATH))
"""Columns that are read and judged in the index alone, which can differ from the table."""

TABLES: Dict[str, Dict[str, _Column]] = {
    "trees": {"tree": _KEY, "host": _TEXT, "root": _NAME, "place": _NAME, "began": _TEXT, "ended": _MAY_BE_TEXT,
              "whole": _FLAG, "version": _TEXT, "links": _number(0, 2**53)},
    "lists": {"list": _KEY, "kind": _word("nfs4", "posix", "mode"), "mode": _number(0, 0o777), "access": _BYTES,
              "dflt": _BYTES},
    "faces": {"face": _KEY, "tree": _TREE, "uid": _ID, "gid": _ID, "list": _LIST},
    "objects": {"tree": _INDEXED_TREE, "path": _INDEXED_PATH, "kind": _word(*"fdpsbc?"), "mode": _MODE, "face": _FACE},
    "names": {"tree": _TREE, "is_group": _FLAG, "id": _ID, "name": _NAME},
    "members": {"tree": _TREE, "user": _NAME, "grp": _NAME},
    "errors": {"tree": _TREE, "path": _PATH, "step": _word("read", "list"), "message": _TEXT},
}
"""The tables with their columns. A file with anything else in it is no snapshot."""

PORTION_TABLES: Dict[str, Dict[str, _Column]] = {
    "portions": {"tree": _Column("INTEGER PRIMARY KEY", _TREE.condition), "shard": _number(0, MOST_SHARDS),
                 "shards": _number(0, MOST_SHARDS),
                 "key": _Column("BLOB NOT NULL", f"typeof({{0}}) = 'blob' AND length({{0}}) <= {LONGEST_KEY}"),
                 "attribute": _TEXT, "one_file_system": _FLAG},
    "devices": {"tree": _TREE, "place": _PATH, "has_lists": _FLAG, "without": _MAY_BE_PATH},
}
"""The tables that a snapshot with portions of trees has in addition."""

ABOVE_TABLES: Dict[str, Dict[str, _Column]] = {
    "above": {"tree": _TREE, "path": _NAME, "uid": _MAY_BE_ID, "gid": _MAY_BE_ID,
              "kind": _Column("TEXT", "{0} IS NULL OR {0} IN ('nfs4', 'posix', 'mode', 'accounts', 'refused')"),
              "mode": _number(0, 0o777), "access": _BYTES, "dflt": _BYTES, "message": _MAY_BE_TEXT},
}
"""The table that a snapshot with directories above the roots of trees has in addition."""

_BOTH = """CASE kind WHEN 'nfs4' THEN access IS NOT NULL AND dflt IS NULL
                     WHEN 'mode' THEN access IS NULL AND dflt IS NULL
                     WHEN 'accounts' THEN access IS NOT NULL AND dflt IS NULL
                     WHEN 'refused' THEN access IS NOT NULL AND dflt IS NOT NULL
                     ELSE access IS NOT NULL OR dflt IS NOT NULL END"""
"""The condition for the two attributes of a list."""

_ABOVE = (f"CASE WHEN message IS NULL THEN uid IS NOT NULL AND gid IS NOT NULL AND kind IS NOT NULL AND ({_BOTH}) "
          "ELSE uid IS NULL AND gid IS NULL AND kind IS NULL AND access IS NULL AND dflt IS NULL END")
"""The condition for a directory above a root: it has an owner, a group and a list, or else a message that says why
not."""

_ROWS = {"lists": _BOTH, "portions": "shard BETWEEN 1 AND shards OR shard = 0 AND shards = 0", "above": _ABOVE}
"""The conditions for several values of a row."""

SCHEMA = {**{name: f"CREATE TABLE {name} ({', '.join(f'{one} {is_a.declaration}' for one, is_a in columns.items())})"
             for name, columns in {**TABLES, **PORTION_TABLES, **ABOVE_TABLES}.items()},
          "objects_by_path": "CREATE INDEX objects_by_path ON objects (tree, path)"}

_BLANKS = re.compile(r"[ \t\n\f\r]+")
"""What SQLite takes for a blank. It takes others for letters of a name: `PRIMARY` and `KEY` would be one word."""

RunQuery = Callable[[str], Iterator[Any]]
"""Runs a query and yields its rows."""


_LATER = {**TABLES["lists"], "kind": _word("nfs4", "posix", "mode", "accounts", "refused")}
"""The columns of the lists of a snapshot with the kinds that came later."""


class Contents(NamedTuple):
    """The number of objects of a snapshot, and whether it has portions of trees, and directories above them."""

    objects: int
    has_portions: bool
    has_above: bool


def judge_contents(place: str, rows: RunQuery, size: int) -> Contents:
    """Judges everything in a file of some size. Raises TreeError if there is anything that a scan does not write."""
    application, version, encoding = (next(rows(f"PRAGMA {name}"))[0] for name in (
        "application_id", "user_version", "encoding"))
    if application != APPLICATION:
        raise TreeError(f"{place}: no snapshot of aclck-tree")
    if version not in (FORMAT, PORTIONS, KINDS, ABOVE):
        age = "a newer" if version > ABOVE else "no"
        raise TreeError(f"{place}: format {version} of {age} aclck-tree; formats {FORMAT} to {ABOVE} are read")
    if encoding != "UTF-8":
        raise TreeError(f"{place}: text in it is not UTF-8")
    has_portions, has_above = version >= PORTIONS, version >= ABOVE
    for name, sql in rows("SELECT name, sql FROM sqlite_master"):  # also views, triggers, and virtual tables
        if _BLANKS.sub(" ", str(sql)) != SCHEMA.get(name):
            raise TreeError(f"{place}: no snapshot: its tables are not those of a snapshot")
        if name in PORTION_TABLES and not has_portions:
            raise TreeError(f"{place}: no snapshot: a snapshot of whole trees has no table {name}")
        if name in ABOVE_TABLES and not has_above:
            raise TreeError(f"{place}: no snapshot: an older snapshot has no table {name}")
    objects = _judge_values(place, rows, size, {**TABLES, **({"lists": _LATER} if version >= KINDS else {}),
                                                **(PORTION_TABLES if has_portions else {}),
                                                **(ABOVE_TABLES if has_above else {})})
    # The signs make SQLite read all of the index. A path that is there twice counts once.
    query = ("SELECT COUNT(*) FROM (SELECT DISTINCT tree, path FROM objects INDEXED BY objects_by_path WHERE "
             f"{_TREE.condition.format('+tree')} AND "
             f"{_PATH.condition.format('+path')})")
    if next(rows(query))[0] != objects:
        raise TreeError(f"{place}: damaged: the index does not fit the objects, or a path is there twice or is one that "
                        "no scan writes")
    return Contents(objects, has_portions, has_above)


def _judge_values(place: str, rows: RunQuery, size: int, tables: Dict[str, Dict[str, _Column]]) -> int:
    """Judges all values. Pages of a file can be shared, so that a small file has endless rows: all rows together must
    not have more bytes than the file."""
    total = 0
    counts: Dict[str, int] = {}
    for name, columns in tables.items():
        lengths = [f"TOTAL(length({one}))" for one, column in columns.items() if "BLOB" in column.declaration]
        conditions = [f"({column.condition.format(one)})" for one, column in columns.items()]
        conditions += [f"({_ROWS[name]})"] if name in _ROWS else []
        # Only rows whose conditions are true count as good: one that is NULL is as bad as one that is false.
        good = f"COUNT(CASE WHEN {' AND '.join(conditions)} THEN 1 END)"
        keys = [one for one, column in columns.items() if "PRIMARY KEY" in column.declaration]
        # A file can be built so that a key is there twice. The sign makes SQLite count.
        keyed = f"COUNT(DISTINCT +{keys[0]})" if keys else "COUNT(*)"
        query = f"SELECT COUNT(*), {' + '.join(lengths) or 'TOTAL(0)'}, {good}, {keyed} FROM {name} NOT INDEXED"
        counts[name], length, judged, different = next(rows(query))
        total += LEAST_ROW * counts[name] + length
        if total > size:
            raise TreeError(f"{place}: damaged: the table {name} has more rows than the file has room for")
        if judged != counts[name] or different != counts[name]:
            raise TreeError(f"{place}: damaged: the table {name} has a value that no scan writes")
    return counts["objects"]
