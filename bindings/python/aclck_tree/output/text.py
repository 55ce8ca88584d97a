"""The output of the program: lines for people, CSV, or one JSON object per line; and how it names the objects."""

from __future__ import annotations

import enum
import itertools
import json
import os
import re
import stat
import sys
import unicodedata
from typing import (
    TYPE_CHECKING,
    Any,
    Callable,
    Collection,
    Dict,
    Iterable,
    List,
    NamedTuple,
    Optional,
    Sequence,
    TextIO,
    TypeVar,
)

if TYPE_CHECKING:
    from aclck_tree.snapshot.snapshot import Snapshot, Tree

Row = Dict[str, Any]
"""One answer. Names and paths in it are `str` as os.fsdecode makes them."""

_SHOWN = 5
"""How many names a line shows; it counts the others."""

_Named = TypeVar("_Named")

_PLAIN = re.compile(r"[\w@%+=:,./^-]+")
"""Texts that bash reads as they are: `\\w` is a letter or a digit of any alphabet, or `_`."""

_ESCAPES = {"\n": "\\n", "\t": "\\t", "\r": "\\r", "\\": "\\\\", "'": "\\'"}
"""Characters that have an escape of their own between `$'` and `'`."""

_INVISIBLE = re.compile("[\u034f\u115f\u1160\u17b4\u17b5\u180b-\u180f\u3164\ufe00-\ufe0f\uffa0\U000e0100-\U000e01ef]")
"""Letters and marks that nothing is shown for: those that Unicode lists as Default_Ignorable_Code_Point, apart from the
ones that `str.isprintable` leaves out."""


class Form(str, enum.Enum):
    """The form of the output. CSV guards the cells that a spreadsheet would run, and RAW_CSV does not."""

    TEXT = "text"
    CSV = "csv"
    RAW_CSV = "raw-csv"
    JSON = "json"


def is_shown(text: str) -> bool:
    """Whether each character of a text is seen, and none ends the line or changes the direction of what is near it."""
    return text.isprintable() and (text.isascii() or not _INVISIBLE.search(text))


def quoted(name: str) -> str:
    """Returns a name as bash reads it, on one line: as it is if it has only letters, digits and `@%+=:,./-_^`, as
    `$'..'` if a character in it is not shown or not UTF-8, and otherwise between quotes."""
    if is_shown(name):
        return name if _PLAIN.fullmatch(name) else "'" + name.replace("'", "'\\''") + "'"
    found = ""
    for letter in name:
        if letter in _ESCAPES or is_shown(letter):
            found += _ESCAPES.get(letter, letter)
        else:
            found += "".join(f"\\{byte:03o}" for byte in letter.encode("utf-8", "surrogateescape"))
    return f"$'{found}'"


def first_few(names: Collection[_Named], shown: Callable[[_Named], str]) -> str:
    """Returns the first names as a line shows them, with commas between, and how many more there are."""
    more = f" and {len(names) - _SHOWN:,} more" if len(names) > _SHOWN else ""
    return ", ".join(map(shown, itertools.islice(names, _SHOWN))) + more


def shortened(text: str, most: int = 200) -> str:
    """Returns a text without its middle if it is long."""
    return text if len(text) <= most else f"{text[:most // 2]} … {text[-most // 2:]}"


def quoted_line(text: str) -> str:
    """Returns a text on one line, with `\\u202e` or `\\xff` in place of each character that is not shown or not UTF-8.
    All lines that the program writes for people pass through it, so that no text from outside can forge one."""
    return text if is_shown(text) else "".join(letter if is_shown(letter) else _numbered(letter) for letter in text)


def _numbered(letter: str) -> str:
    number = ord(letter)
    if number < 0x80 or 0xDC80 <= number <= 0xDCFF:
        return f"\\x{number & 0xFF:02x}"
    return f"\\u{number:04x}" if number <= 0xFFFF else f"\\U{number:08x}"


def tell(line: str) -> None:
    """Writes a line to standard error."""
    sys.stderr.write(f"aclck-tree: {quoted_line(line)}\n")


def quoted_path(path: bytes) -> str:
    """Returns a path as bash reads it, on one line."""
    return quoted(os.fsdecode(path))


def quoted_host(host: str) -> str:
    """Returns the name of a host, for a colon and a path behind it. A name with a colon is between quotes, so that
    neither the name nor the path can look like another host."""
    shown = quoted(host)
    return f"'{shown}'" if ":" in shown and shown == host else shown


def quoted_place(host: str, path: bytes) -> str:
    """Returns a host and a path on it as bash reads them, on one line."""
    return f"{quoted_host(host)}:{quoted_path(path)}"


class ObjectName(NamedTuple):
    """The whole path of an object, and its host if there are several. Objects are in the order of their paths."""

    path: bytes
    host: Optional[str] = None

    def row(self) -> Row:
        """Returns the cells that name the object."""
        cells: Row = {"path": os.fsdecode(self.path)}
        return cells if self.host is None else {**cells, "host": self.host}

    def words(self) -> str:
        """Returns the name of the object as bash reads it, on one line."""
        return name_in(self.row())


def name_in(row: Row) -> str:
    """Returns the name of the object that a row is about, as bash reads it, on one line."""
    return (f"{quoted_host(row['host'])}:" if "host" in row else "") + quoted(row["path"])


class ObjectNamer:
    """Names the objects of some snapshots, with their hosts if there are several. If a snapshot is asked together with
    others, each object has its host: the others, which this process does not know, may be of other hosts."""

    def __init__(self, *snapshots: Snapshot) -> None:
        self.has_hosts = any(one.together for one in snapshots) or any(
            len({tree.host for tree in one.trees.values()}) > 1 for one in snapshots)

    def name(self, tree: Tree, path: bytes) -> ObjectName:
        """Returns the name of an object, which is given by its path below the root of a tree."""
        return ObjectName(tree.full(path), tree.host if self.has_hosts else None)

    def columns(self, *columns: str) -> List[str]:
        """Returns the columns of an output, with one for the host if there are several."""
        return [*columns, "host"] if self.has_hosts else list(columns)


class Output:
    """Writes answers, each as a line of text, a line of CSV, or a JSON object."""

    def __init__(self, form: str, columns: Sequence[str], line: Callable[[Row], Optional[str]],
                 stream: Optional[TextIO] = None) -> None:
        """`line` makes the text of a row, or None for a row without text."""
        self._form = Form(form)
        self._columns = list(columns)
        self._line = line
        self._stream = stream or sys.stdout
        self._is_terminal = self._stream.isatty()
        if self._form in _GUARDS:
            self._put_csv(self._columns)

    def put(self, row: Row) -> None:
        """Writes one answer."""
        if self._form is Form.JSON:
            self._stream.write(json.dumps(row, ensure_ascii=True) + "\n")
        elif self._form in _GUARDS:
            guard = _GUARDS[self._form]
            self._put_csv([guard(_cell(row.get(column))) for column in self._columns])
        else:
            line = self._line(row)
            if line is not None:
                self._stream.write(quoted_line(line) + "\n")

    def _put_csv(self, cells: Sequence[str]) -> None:
        """Writes a line of RFC 4180 that ends with a line feed only. On a terminal, which a name could control, it
        writes it as all other lines for people."""
        marked = ['"' + cell.replace('"', '""') + '"' if set(cell) & _IN_QUOTES else cell for cell in cells]
        line = ",".join(marked)
        self._stream.write((quoted_line(line) if self._is_terminal else line) + "\n")

    def note(self, line: str) -> None:
        """Writes a line that is not an answer: to standard output if the form is text, and otherwise to standard
        error."""
        stream = self._stream if self._form is Form.TEXT else sys.stderr
        stream.write(quoted_line(line) + "\n")


def _cell(value: Any) -> str:
    if value is None:
        return ""
    if isinstance(value, bool):
        return "yes" if value else "no"
    if isinstance(value, (list, tuple)):
        return " ".join(quoted(str(part)) for part in value)
    return str(value)


def _guarded(cell: str) -> str:
    """Returns a cell with an apostrophe in front if a spreadsheet would run it. A cell that begins with an apostrophe
    gets one more, so that a reader can take the first apostrophe of each cell away."""
    return "'" + cell if cell.startswith(tuple("\t\r\n'")) or _is_formula(cell) else cell


def _is_formula(cell: str) -> bool:
    """Whether a spreadsheet may take a cell for a formula: also one with another form of a sign, such as the full-width
    `\uff1d`, and one with blanks or characters that are not shown in front of the sign."""
    if cell[:1].isalnum():  # as most cells begin
        return False
    first = next((letter for letter in cell if is_shown(letter) and not letter.isspace()), "")
    return unicodedata.normalize("NFKC", first).startswith(("=", "+", "-", "@", "\u2212"))


_IN_QUOTES = frozenset(',"\r\n;\t')
"""What puts a cell between quotes: what RFC 4180 names, and what spreadsheets take for the end of a cell, too."""

_GUARDS: Dict[Form, Callable[[str], str]] = {Form.CSV: _guarded, Form.RAW_CSV: str}
"""What the forms with cells do to each cell."""


def table(rows: Iterable[Sequence[str]], right: Sequence[int] = ()) -> List[str]:
    """Returns rows as lines with columns of one width. The columns in `right` are right-aligned."""
    held = [list(row) for row in rows]
    if not held:
        return []
    widths = [max(len(row[place]) for row in held) for place in range(len(held[0]))]
    return ["  ".join(cell.rjust(width) if place in right else cell.ljust(width)
                      for place, (cell, width) in enumerate(zip(row, widths))).rstrip() for row in held]


_SPECIAL_BITS = ((stat.S_ISUID, "setuid"), (stat.S_ISGID, "setgid"), (stat.S_ISVTX, "sticky"))


def special_bits(mode: int) -> List[str]:
    """Returns the names of the bits of a mode that are not among its nine permissions, such as `setgid` and
    `sticky`."""
    return [name for bit, name in _SPECIAL_BITS if mode & bit]


def plural(count: int, word: str) -> str:
    """Returns a count with its word, such as `1 object` or `4,102 objects`."""
    return f"{count:,} {word}" + ("" if count == 1 else "s")
