"""Reads a part of TOML 1.0, for Python before 3.11, which has no `tomllib`.

The part has comments; keys without dots, bare or between quotes; the four kinds of strings; `true` and `false`; arrays
of strings; tables in braces; and headers `[[name]]`, `[[name.other]]` and `[name.other]`, where `name` is an array of
tables that was begun. Everything else is refused. What is read here, `tomllib` reads alike.
"""

from __future__ import annotations

import re
from typing import Any, Dict, List, Pattern, Tuple

_BARE = re.compile(r"[A-Za-z0-9_-]+")
_COMMENT = re.compile(r"#[^\x00-\x08\x0a-\x1f\x7f]*")
_BLANKS = re.compile(r"[ \t]*")
_HEADER = re.compile(r"(\[\[?)[ \t]*([A-Za-z0-9_-]+)(?:[ \t]*\.[ \t]*([A-Za-z0-9_-]+))?[ \t]*(\]\]?)")
_STRINGS: Dict[str, Tuple[Pattern[str], bool]] = {
    '"""': (re.compile(r'"""\n?((?:[^"\\\x00-\x08\x0b-\x1f\x7f]|\\[^\x00-\x08\x0b-\x1f\x7f]|""?(?!"))*"{0,2})"""'),
            True),
    "'''": (re.compile(r"'''\n?((?:[^'\x00-\x08\x0b-\x1f\x7f]|''?(?!'))*'{0,2})'''"), False),
    '"': (re.compile(r'"((?:[^"\\\x00-\x08\x0a-\x1f\x7f]|\\[^\x00-\x1f\x7f])*)"'), True),
    "'": (re.compile(r"'([^'\x00-\x08\x0a-\x1f\x7f]*)'"), False),
}
"""The strings by what they begin with, and whether they have escapes."""

_ESCAPE = re.compile(r'\\(?:([btnfr"\\])|u([0-9A-Fa-f]{4})|U([0-9A-Fa-f]{8})|[ \t]*\n[ \t\n]*|(.?))', re.DOTALL)
_LETTERS = {"b": "\b", "t": "\t", "n": "\n", "f": "\f", "r": "\r", '"': '"', "\\": "\\"}


class _TextReader:
    """A text and a place in it."""

    def __init__(self, text: str) -> None:
        self.text = text
        self.at = 0

    def error(self, reason: str) -> ValueError:
        """Makes the error for the present line."""
        return ValueError(f"line {self.text.count(chr(10), 0, self.at) + 1}: {reason}")

    def take(self, pattern: Pattern[str], reason: str) -> "re.Match[str]":
        """Takes what a pattern matches here. Raises ValueError with the reason if it matches nothing."""
        found = pattern.match(self.text, self.at)
        if not found:
            raise self.error(reason)
        self.at = found.end()
        return found

    def skip(self, lines: bool = False) -> None:
        """Skips blanks, and with `lines` also comments and ends of lines."""
        self.take(_BLANKS, "")
        while lines and self.text[self.at:self.at + 1] in ("#", "\n"):
            self.end_line()
            self.take(_BLANKS, "")

    def has(self, word: str) -> bool:
        """Takes a word if it is here, and says whether it was."""
        is_here = self.text.startswith(word, self.at)
        self.at += len(word) if is_here else 0
        return is_here

    def end_line(self) -> None:
        """Takes a comment, and the end of the line or of the text."""
        self.skip()
        if self.text.startswith("#", self.at):
            self.take(_COMMENT, "")
        if self.at < len(self.text) and not self.has("\n"):
            raise self.error("something follows, or a character is not allowed")

    def key(self) -> str:
        """Takes a key and the sign `=` after it."""
        begin = self.text[self.at:self.at + 3]
        is_quoted = begin[:1] in ("'", '"') and begin not in ("'''", '"""')
        key = self.string() if is_quoted else self.take(_BARE, "a key is not written plainly")[0]
        self.skip()
        if not self.has("="):
            raise self.error("a key without dots, and the sign =, are expected")
        self.skip()
        return key

    def string(self) -> str:
        """Takes a string."""
        for begin, (pattern, has_escapes) in _STRINGS.items():
            if self.text.startswith(begin, self.at):
                text = self.take(pattern, "a string does not end, or has a control character")[1]
                return _ESCAPE.sub(self._unescaped, text) if has_escapes else text
        raise self.error("a string is expected")

    def _unescaped(self, found: "re.Match[str]") -> str:
        if found[1]:
            return _LETTERS[found[1]]
        number = int(found[2] or found[3] or "0", 16)
        if found[4] is not None or number > 0x10FFFF or 0xD800 <= number <= 0xDFFF:
            raise self.error("a string has an escape that TOML has not")
        return chr(number) if found[2] or found[3] else ""

    def value(self) -> Any:
        """Takes a value."""
        if self.has("["):
            return self._array()
        if self.has("{"):
            return self._inline_table()
        for word, value in (("true", True), ("false", False)):
            if self.has(word):
                return value
        return self.string()

    def _array(self) -> List[str]:
        found: List[str] = []
        self.skip(lines=True)
        while not self.has("]"):
            found.append(self.string())
            self.skip(lines=True)
            if not self.has(","):
                if not self.has("]"):
                    raise self.error("an array does not end")
                break
            self.skip(lines=True)
        return found

    def _inline_table(self) -> Dict[str, Any]:
        found: Dict[str, Any] = {}
        self.skip()
        if self.has("}"):
            return found
        while True:
            self.put(found)
            self.skip()
            if self.has("}"):
                return found
            if not self.has(","):
                raise self.error("a table does not end on its line")
            self.skip()

    def put(self, table: Dict[str, Any]) -> None:
        """Takes a key and its value."""
        key = self.key()
        if key in table:
            raise self.error(f"the key {key!r} is there twice")
        table[key] = self.value()


class _Document:
    """The tables of a document, and the arrays that its headers began."""

    def __init__(self) -> None:
        self.top: Dict[str, Any] = {}
        self._begun: Dict[int, List[Dict[str, Any]]] = {}

    def table(self, reader: _TextReader) -> Dict[str, Any]:
        """Takes a header, and returns the table that it begins."""
        found = reader.take(_HEADER, "a header is not written plainly")
        if len(found[1]) != len(found[4]):
            raise reader.error("a header does not end as it begins")
        held, key = self.top, found[2]
        if found[3] is not None:
            begun = self._begun.get(id(self.top.get(key)))
            if not begun:
                raise reader.error(f"no table of the array {key!r} was begun")
            held, key = begun[-1], found[3]
        if found[1] == "[":
            if found[3] is None or key in held:
                raise reader.error(f"a table {key!r} cannot begin here")
            made: Dict[str, Any] = {}
            held[key] = made
            return made
        if key not in held:
            held[key] = []
            self._begun[id(held[key])] = held[key]
        begun = self._begun.get(id(held[key]))
        if begun is None:
            raise reader.error(f"{key!r} is no array of tables")
        begun.append({})
        return begun[-1]


def loads(text: str) -> Dict[str, Any]:
    """Returns the tables of a document. Raises ValueError, with the line, if it is not of the part that is read."""
    reader, document = _TextReader(text.replace("\r\n", "\n")), _Document()
    table = document.top
    while True:
        reader.skip(lines=True)
        if reader.at == len(reader.text):
            return document.top
        if reader.text.startswith("[", reader.at):
            table = document.table(reader)
        else:
            reader.put(table)
        reader.end_line()
