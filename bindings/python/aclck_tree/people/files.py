"""Reads people from files: lines of names with their groups, and the accounts of passwd(5) and group(5)."""

from __future__ import annotations

import io
import re
from typing import Callable, Dict, List, Optional, Tuple, TypeVar

from aclck_tree.output.errors import TreeError
from aclck_tree.output.files import opened_file
from aclck_tree.output.text import quoted
from aclck_tree.people.people import Person, first_of_each_name, made_person, name_with_id, required_id

_Read = TypeVar("_Read")


def _each_line(place: str, read: Callable[[int, str], _Read]) -> List[_Read]:
    """Returns what `read` makes of the number and the text of each line of a file, apart from blank lines and comments.

    Raises TreeError if the file cannot be read, and with the line if `read` raises ValueError, or if a program that
    wrote the file marks bytes or ends of lines in another way than this system does.
    """
    found: List[_Read] = []
    number = 0
    try:
        with opened_file(place) as data, \
                io.TextIOWrapper(data, encoding="utf-8", errors="surrogateescape", newline="\n") as file:
            for number, line in enumerate(file, 1):
                line = line.rstrip("\n")
                if line.startswith("\ufeff"):
                    raise ValueError("it begins with a byte order mark")
                if line.endswith("\r"):
                    raise ValueError("it ends with a carriage return")
                if line.strip(" \t") and not line.startswith("#"):
                    found.append(read(number, line))
    except OSError as error:
        raise TreeError(f"{quoted(place)}: {error.strerror}") from None
    except ValueError as error:
        raise TreeError(f"{quoted(place)}: line {number}: {error}") from None
    return found


_HEAD = re.compile(r'(.*):((?:[^":]|"[^"]*")*)', re.DOTALL)
_WORD = re.compile(r'[ \t]*(?:"([^"]*)"|([^ \t"]+))(?=[ \t]|$)')


def _words(text: str) -> List[str]:
    """Returns the words of a text, in which a word with blanks is between double quotes. Raises ValueError if a quote
    is in another place."""
    text = text.strip(" \t")
    words, at = [], 0
    while at < len(text):
        found = _WORD.match(text, at)
        if not found:
            raise ValueError("a double quote is not at the end of a name")
        words.append(found[2] if found[1] is None else found[1])
        at = found.end()
    return words


def people_file(place: str) -> List[Person]:
    """Reads lines `name: group group ..`. A name with blanks is between double quotes, and `NAME=ID` gives its id. The
    name in front of the colon may have blanks without quotes.

    Raises TreeError, with the line, if a line is not of this form or is about a person of an earlier line, and if the
    file cannot be read.
    """
    firsts: Dict[str, int] = {}

    def read(number: int, line: str) -> Person:
        parts = _HEAD.fullmatch(line)
        if not parts:
            raise ValueError("it is not `name: group group ..`")
        head = parts[1].strip(" \t")
        user = _words(head) if head.startswith('"') else [head]
        if len(user) != 1:
            raise ValueError("more than one name is in front of the colon")
        words = _words(parts[2])
        person = made_person(name_with_id(user[0]), list(map(name_with_id, words)))
        first = firsts.setdefault(person.name, number)
        if first != number:
            raise ValueError(f"{quoted(person.name)} is in line {first} already")
        return person

    return _each_line(place, read)


def _account(line: str, page: str) -> Tuple[str, int, List[str]]:
    """Returns the name and the id of a line of passwd(5) or group(5), and all its fields. Raises ValueError, with the
    reason, if it is not such a line."""
    fields = line.split(":")
    if len(fields) < 4:
        raise ValueError(f"it is not of the form of {page}")
    if not fields[0]:
        raise ValueError("a name is empty")
    return fields[0], required_id(fields[2]), fields


def passwd_files(passwd: str, group: str) -> List[Person]:
    """Reads people from files in the form of passwd(5) and group(5). Raises TreeError, with the line, if a line is not
    of that form, or gives a user of an earlier line another id, and if a file cannot be read."""
    names: Dict[int, str] = {}
    users: Dict[str, int] = {}
    members: Dict[str, List[Tuple[str, Optional[int]]]] = {}

    def read_group(_: int, line: str) -> None:
        name, number, fields = _account(line, "group(5)")
        names.setdefault(number, name)
        for user in filter(None, (word.strip(" \t") for word in fields[3].split(","))):
            members.setdefault(user, []).append((name, number))

    def read_user(_: int, line: str) -> Person:
        name, number, fields = _account(line, "passwd(5)")
        own = required_id(fields[3])
        if users.setdefault(name, number) != number:
            raise ValueError(f"{quoted(name)} has the id {users[name]} already")
        return made_person((name, number), [(names.get(own, str(own)), own), *members.get(name, [])])

    _each_line(group, read_group)
    return first_of_each_name(_each_line(passwd, read_user))
