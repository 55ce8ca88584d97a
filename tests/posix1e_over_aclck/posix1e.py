"""The module `posix1e` of pylibacl 0.7.2, written over the module `aclck`.

It shows what a program that uses pylibacl needs in order to use aclck instead. It is not installed: only tests/peers
uses it, and runs the tests of pylibacl over it. libacl converts lists that are not valid. Here a text, a state, `str`,
`to_any_text`, `equiv_mode` and `calc_mask` need a valid list (acl(5), "VALID ACLs"), but `calc_mask` adds a mask first.
They raise OSError for any other list, as the attributes of an entry do after it was taken out of its list.
TEXT_ALL_EFFECTIVE writes the comments of TEXT_SOME_EFFECTIVE.
"""

from __future__ import annotations

import contextlib
import errno
import grp
import os
import pwd
import re
import struct
from typing import Any, Callable, Dict, Iterator, List, Optional, Sequence, Tuple, Union

import aclck

# The numbers of <sys/acl.h> and <acl/libacl.h>.
ACL_READ, ACL_WRITE, ACL_EXECUTE = 4, 2, 1
ACL_UNDEFINED_TAG, ACL_USER_OBJ, ACL_USER, ACL_GROUP_OBJ, ACL_GROUP, ACL_MASK, ACL_OTHER = 0, 1, 2, 4, 8, 16, 32
ACL_TYPE_ACCESS, ACL_TYPE_DEFAULT = 0x8000, 0x4000
ACL_MULTI_ERROR, ACL_DUPLICATE_ERROR, ACL_MISS_ERROR, ACL_ENTRY_ERROR = 0x1000, 0x2000, 0x3000, 0x4000
TEXT_SOME_EFFECTIVE, TEXT_ALL_EFFECTIVE, TEXT_SMART_INDENT, TEXT_NUMERIC_IDS, TEXT_ABBREVIATE = 1, 2, 4, 8, 16
HAS_ACL_CHECK = HAS_ACL_ENTRY = HAS_ACL_FROM_MODE = HAS_COPY_EXT = HAS_EQUIV_MODE = HAS_EXTENDED_CHECK = 1

# Of each tag: the word in a text, and what an entry is called.
_TAGS = {0: ("", "undefined type"), ACL_USER_OBJ: ("user", "the owner"), ACL_USER: ("user", "user with uid"),
         ACL_GROUP_OBJ: ("group", "the group"), ACL_GROUP: ("group", "group with gid"), ACL_MASK: ("mask", "the mask"),
         ACL_OTHER: ("other", "the others")}
_NAMED = (ACL_USER, ACL_GROUP)
_NUMBERS = {(word, tag in _NAMED): tag for tag, (word, _) in _TAGS.items()}
_ERRORS = {"Multi": ACL_MULTI_ERROR, "Duplicate": ACL_DUPLICATE_ERROR, "Miss": ACL_MISS_ERROR}
_ATTRIBUTES = {ACL_TYPE_ACCESS: "system.posix_acl_access", ACL_TYPE_DEFAULT: "system.posix_acl_default"}
_NO_ID = 0xFFFFFFFF

Row = Sequence[int]


@contextlib.contextmanager
def _refused_as_einval() -> Iterator[None]:
    """Raises the error of libacl in place of an exception of the module, or for a name or number that is not known."""
    try:
        yield
    except (aclck.Refused, KeyError) as fault:
        raise OSError(errno.EINVAL, str(fault)) from fault


def _of_type(value: Any, kind: type) -> Any:
    if not isinstance(value, kind):
        raise TypeError(f"{kind.__name__} is needed, and not {type(value).__name__}")
    return value


def _is_new(part: Any, parent: Any) -> bool:
    """Returns whether a part has no parent yet. Raises ValueError if it has another one."""
    if getattr(part, "parent", parent) is not parent:
        raise ValueError("Can't reinitialize with a different parent")
    return not vars(part)


def _attribute(rows: List[Row]) -> bytes:
    return struct.pack("<I", 2) + b"".join(struct.pack("<HHI", *row) for row in rows)


def _rows(acl: aclck.PosixAcl, default: bool = False) -> List[Row]:
    """Returns the entries of one part of a list as the attribute has them: each its tag, its permissions and its id."""
    return [[_NUMBERS[entry.tag, entry.id is not None], entry.perm, _NO_ID if entry.id is None else entry.id]
            for entry in acl if entry.default == default]


def _from_text(text: str) -> List[Row]:
    """Reads a text, which may use the names of the system's accounts."""
    names = re.findall(r"(?:^|[\s,])(u|g)(?:ser|roup)?:(?!\d+:)([^:,\s]+):", _of_type(text, str))
    users = {name: pwd.getpwnam(name).pw_uid for kind, name in names if kind == "u"}
    groups = {name: grp.getgrnam(name).gr_gid for kind, name in names if kind == "g"}
    acl = aclck.PosixAcl.from_text(text, users, groups)
    if _rows(acl, default=True):
        raise OSError(errno.EINVAL, "the text has entries of a default list")
    return _rows(acl)


def _target(item: Any) -> Any:
    """Returns the descriptor or the path of a file. Raises TypeError for anything else."""
    return item.fileno() if hasattr(item, "fileno") else item if isinstance(item, int) else os.fspath(item)


_SOURCES: Dict[str, Callable[[Any], List[Row]]] = {
    "file": lambda path: _rows(aclck.PosixAcl.from_file(os.fspath(path))),
    "fd": lambda item: _rows(aclck.PosixAcl.from_file(_target(item))),
    "filedef": lambda path: _rows(aclck.PosixAcl.from_file(os.fsencode(path) + b"/."), default=True),
    "text": _from_text,
    "acl": lambda acl: list(_of_type(acl, ACL)._rows()),
    "mode": lambda mode: _rows(aclck.PosixAcl.from_mode(mode)),
    "data": lambda data: [] if data == _attribute([]) else _rows(aclck.PosixAcl.from_attributes(_of_type(data, bytes))),
}


class ACL:
    """A list of entries. It can be changed, and need not be valid."""

    _entries: List[Entry]

    def __new__(cls, *args: Any, **source: Any) -> ACL:
        made = super().__new__(cls)
        made._entries = []
        return made

    def __init__(self, *args: Any, **source: Any) -> None:
        """Takes at most one of file, fd, filedef, text, acl, mode and data. Without one the list is empty."""
        if args or len(source) > 1:
            raise ValueError("a max of one keyword argument must be passed")
        if not set(source) <= set(_SOURCES):
            raise TypeError(f"no keyword argument: {source}")
        with _refused_as_einval():
            rows = [row for word, value in source.items() for row in _SOURCES[word](value)]
        self._entries = []
        for row in rows:
            Entry(self, row)

    def _rows(self) -> List[Row]:
        return [entry._row for entry in self]

    def _list(self) -> aclck.PosixAcl:
        """Returns the list of the library. Raises Refused if the entries are not valid."""
        return aclck.PosixAcl.from_attributes(self.__getstate__())

    def __iter__(self) -> Iterator[Entry]:
        """Yields the entries in the order of their tags, and then of their ids."""
        return iter(sorted(self._entries, key=lambda entry: (entry._row[0], entry._row[2])))

    def __eq__(self, other: object) -> bool:
        return isinstance(other, ACL) and self._rows() == other._rows()

    def __str__(self) -> str:
        return "".join(line + "\n" for line in self._lines("", TEXT_SOME_EFFECTIVE))

    def __getstate__(self) -> bytes:
        return _attribute(self._rows())

    def __setstate__(self, state: bytes) -> None:
        ACL.__init__(self, data=state)

    def _lines(self, prefix: str, options: int) -> Iterator[str]:
        """Yields the lines of the text with the options of acl_to_any_text(3)."""
        with _refused_as_einval():
            shown = self._list().text("shown" if options & (TEXT_SOME_EFFECTIVE | TEXT_ALL_EFFECTIVE) else "canonical")
        for line in shown.splitlines():
            word, number, rest = line.split(":", 2)
            if number and not options & TEXT_NUMERIC_IDS:
                with contextlib.suppress(KeyError):
                    number = pwd.getpwuid(int(number)).pw_name if word == "user" else grp.getgrgid(int(number)).gr_name
            word = word[:1] if options & TEXT_ABBREVIATE else word
            entry, tab, comment = f"{prefix}{word}:{number}:{rest}".partition("\t")
            yield entry + tab * (max(1, 4 - len(entry) // 8) if options & TEXT_SMART_INDENT else 1) + comment

    def to_any_text(self, prefix: str = "", separator: bytes = b"\n", options: int = 0) -> bytes:
        return separator.join(line.encode("utf-8", "surrogateescape") for line in self._lines(prefix, options))

    def valid(self) -> bool:
        return not self.check()

    def check(self) -> Union[bool, Tuple[int, int]]:
        """Returns False if the list is valid, and otherwise what is wrong, with the place of the entry."""
        try:
            self._list()
        except aclck.Refused as fault:
            place = len(self._entries) if fault.offset is None else fault.offset
            return _ERRORS.get(fault.reason, ACL_ENTRY_ERROR), place
        return False

    def equiv_mode(self) -> int:
        with _refused_as_einval():
            return self._list().mode

    def calc_mask(self) -> None:
        """Sets the mask to the union of the permissions that it limits. Adds a mask if there is none."""
        rows = [*(row for row in self._rows() if row[0] != ACL_MASK), [ACL_MASK, 0, _NO_ID]]
        with _refused_as_einval():
            made = aclck.PosixAcl.from_attributes(_attribute(sorted(rows, key=lambda row: row[0]))).calc_mask()
        for entry in [entry for entry in self if entry._row[0] == ACL_MASK] or [Entry(self)]:
            [entry._row] = [list(row) for row in _rows(made) if row[0] == ACL_MASK]

    def append(self, entry: Optional[Entry] = None) -> Entry:
        """Adds an empty entry, or a copy of another one, and returns it."""
        return Entry(self) if entry is None else Entry(self, _of_type(entry, Entry)._live())

    def delete_entry(self, entry: Entry) -> None:
        if _of_type(entry, Entry).parent is not self:
            raise ValueError("Can't remove un-owned entry")
        entry._live()
        self._entries = [other for other in self._entries if other is not entry]

    def applyto(self, item: Any, flag: int = ACL_TYPE_ACCESS) -> None:
        """Sets the access list of a file, or the default list of a directory. An empty default list removes it."""
        target = _target(item)
        with _refused_as_einval():
            name = _ATTRIBUTES[_of_type(flag, int)]
            if self._entries or flag == ACL_TYPE_ACCESS:
                self._list()
        os.setxattr(target, name, self.__getstate__())


class Entry:
    """An entry of an ACL."""

    def __init__(self, acl: ACL, row: Row = (ACL_UNDEFINED_TAG, 0, _NO_ID)) -> None:
        if _is_new(self, _of_type(acl, ACL)):
            self.parent, self._row = acl, list(row)
            acl._entries.append(self)

    def _live(self) -> List[int]:
        if not any(entry is self for entry in self.parent._entries):
            raise OSError(errno.EINVAL, "the entry is no longer in its ACL")
        return self._row

    def __str__(self) -> str:
        tag, _, number = self._live()
        return f"ACL entry for {_TAGS[tag][1]}" + (f" {number}" if tag in _NAMED else "")

    @property
    def tag_type(self) -> int:
        return self._live()[0]

    @tag_type.setter
    def tag_type(self, tag: int) -> None:
        if _of_type(tag, int) not in _TAGS or tag == ACL_UNDEFINED_TAG:
            raise OSError(errno.EINVAL, os.strerror(errno.EINVAL))
        self._live()[0] = tag

    @property
    def qualifier(self) -> int:
        if self._live()[0] not in _NAMED:
            raise TypeError("the entry has no qualifier")
        return self._row[2]

    @qualifier.setter
    def qualifier(self, number: int) -> None:
        if not 0 <= _of_type(number, int) <= _NO_ID:
            raise OverflowError("Can't assign given qualifier")
        if self._live()[0] not in _NAMED:
            raise TypeError("the entry has no qualifier")
        self._row[2] = number

    @property
    def permset(self) -> Permset:
        return Permset(self)

    @permset.setter
    def permset(self, other: Permset) -> None:
        self._live()[1] = _of_type(other, Permset).parent._live()[1]

    def copy(self, source: Entry) -> None:
        self._live()[:] = _of_type(source, Entry)._live()


class Permset:
    """The permissions of an entry. A change of them changes the entry."""

    def __init__(self, entry: Entry) -> None:
        if _is_new(self, _of_type(entry, Entry)):
            self.parent = entry

    def __str__(self) -> str:
        return "".join(letter if self.test(bit) else "-" for letter, bit in zip("rwx", (4, 2, 1)))

    def clear(self) -> None:
        self.parent._live()[1] = 0

    def add(self, perm: int) -> None:
        self.parent._live()[1] |= _of_type(perm, int) & 7

    def delete(self, perm: int) -> None:
        self.parent._live()[1] &= ~_of_type(perm, int)

    def test(self, perm: int) -> bool:
        return bool(self.parent._live()[1] & _of_type(perm, int))

    def _set(self, perm: int, value: int) -> None:
        if not isinstance(value, int):
            raise ValueError("a permission is True or False")
        (self.add if value else self.delete)(perm)

    read = property(lambda self: self.test(ACL_READ), lambda self, value: Permset._set(self, ACL_READ, value))
    write = property(lambda self: self.test(ACL_WRITE), lambda self, value: Permset._set(self, ACL_WRITE, value))
    execute = property(lambda self: self.test(ACL_EXECUTE), lambda self, value: Permset._set(self, ACL_EXECUTE, value))


def has_extended(item: Any) -> bool:
    """Returns whether a file has more entries than the three of its mode, or has a default list."""
    with _refused_as_einval():
        return len(aclck.PosixAcl.from_file(_target(item))) > 3


def delete_default(path: Union[str, bytes, "os.PathLike[str]"]) -> None:
    ACL().applyto(os.fspath(path), ACL_TYPE_DEFAULT)
