"""NFSv4 lists (RFC 8881, section 6.2.1), in the bytes of the attribute `system.nfs4_acl` (RFC 4506)."""

from __future__ import annotations

import ctypes
import os
from typing import TYPE_CHECKING, Any, Iterable, Iterator, List, Mapping, Optional, Tuple, TypeVar

from . import _library as c
from . import aces as ace_values
from . import forms
from ._library import File, Name
from .aces import Ace, AceKind
from .faults import Refused
from .forms import LeftOut, ListFlag, ListForm, TextStyle
from .prepared import Prepared, PreparedIds
from .questions import (Decided, Decision, Difference, Possible, Question, Request, Requesters, TableRow, asked_in,
                        decided, requester)
from .rights import ALL
from .tables import NamedIds, tables_in_c

if TYPE_CHECKING:
    from .posix import ToPosix

T = TypeVar("T", c.Word, c.Decided, c.Decision)


class NfsAcl:
    """A list that the library accepts. It keeps the bytes that it was made of; equality and hash are those of the
    bytes.

    Two lists that grant everybody the same can have different bytes. Use `means_the_same` or `normal` to compare them.
    """

    __slots__ = ("_bytes", "_options", "_list")

    def __init__(self, data: bytes, *, narrow: bool = False) -> None:
        """Takes the bytes of a list; with `narrow`, only those of the narrow profile (docs/reference/formats.md).

        Raises Refused, with the offset, if the bytes are not a list, and TypeError if they are not bytes.
        """
        self._bytes = memoryview(data).tobytes()  # bytes() would take a number, and make as many zeros
        self._options = c.NARROW if narrow else 0
        self._list = c.in_c(self._bytes)
        self._mode()

    @classmethod
    def from_file(cls, file: File, attribute: str = "system.nfs4_acl") -> NfsAcl:
        """Reads the list of a file on an NFSv4 mount. Raises OSError if the file has no list, and Refused."""
        return cls(os.getxattr(file, attribute))

    @classmethod
    def from_aces(cls, aces: Iterable[Ace], *, narrow: bool = False) -> NfsAcl:
        """Makes a list of ACEs, in their order. Raises Refused, with the place of the ACE from 0, ValueError if a
        number is outside 32 bits or a kind is none, and TypeError if a who is neither `str` nor `bytes`."""
        return cls(ace_values.built(aces, c.NARROW if narrow else 0), narrow=narrow)

    def to_file(self, file: File, attribute: str = "system.nfs4_acl") -> None:
        """Gives a file on an NFSv4 mount this list. It follows links: give an open descriptor where somebody else may
        exchange the file. Raises OSError."""
        os.setxattr(file, attribute, self._bytes)

    @classmethod
    def from_text(cls, text: Name, *, narrow: bool = False) -> NfsAcl:
        """Makes a list from its text, one line per ACE (docs/reference/formats.md). Raises Refused, with line and
        column."""
        given = c.encoded(text)
        data = c.bytes_of("encode", (c.in_c(given), c.NARROW if narrow else 0), 2 * len(given) + 4)
        return cls(data, narrow=narrow)

    @classmethod
    def from_form(cls, value: Name, form: ListForm) -> Tuple[NfsAcl, ListFlag]:
        """Reads the value in which another system keeps or prints a list, and returns the list and the flags of the
        whole list, which a text does not have. A who that is an id has its decimal digits; `renamed` exchanges them.

        Raises Refused, with the offset in the value, if the value spells no list in the form, and TypeError if the form
        is not a `ListForm`.
        """
        data, flags = forms.read(c.encoded(value), form)
        return cls(data), flags

    @classmethod
    def from_form_part(cls, value: Name, form: ListForm) -> Tuple[NfsAcl, ListFlag, List[LeftOut]]:
        """Reads a value as `from_form` does, but leaves out the ACEs that access does not read, and returns them too:
        AUDIT and ALARM ACEs, and ALLOW ACEs of a special identifier other than `OWNER@`, `GROUP@` and `EVERYONE@`. The
        list grants no more than the whole list.

        Raises Refused, with the offset in the value, also for a DENY of such a name, and TypeError as `from_form` does.
        """
        data, found, left_out = forms.read_part(c.encoded(value), form)
        return cls(data), found, left_out

    def to_form(self, form: ListForm, flags: int = ListFlag(0), style: int = TextStyle(0)) -> bytes:
        """Returns the value of the list and of flags of the whole list in the form of another system. Only the text of
        FreeBSD and of archives has styles.

        Raises Refused, with the place of the ACE from 0, if the form cannot hold the list or the flags: nothing is left
        out in silence. Raises ValueError if the flags are not those of `ListFlag`, the style is not one of `TextStyle`,
        or the form has no styles, and TypeError if the form is not a `ListForm`.
        """
        return forms.written(self._list, form, flags, style)

    def _mode(self) -> int:
        found, fault = ctypes.c_uint32(), c.Fault()
        c.judge(c.calls["mode"](self._list, self._options, ctypes.byref(found), ctypes.byref(fault)), fault)
        return found.value

    def _like(self, data: bytes) -> NfsAcl:
        return NfsAcl(data, narrow=bool(self._options))

    @property
    def mode(self) -> int:
        """The mode of the list, nine bits (section 6.3.2)."""
        return self._mode()

    def __bytes__(self) -> bytes:
        return self._bytes

    def __str__(self) -> str:
        """Returns the text of the list, one line per ACE."""
        return c.decoded(c.bytes_of("show", (self._list, self._options), 8 * len(self._bytes)))

    def __repr__(self) -> str:
        return f"NfsAcl.from_text({str(self)!r})"

    def __eq__(self, other: object) -> bool:
        if not isinstance(other, NfsAcl):
            return NotImplemented
        return self._bytes == other._bytes

    def __hash__(self) -> int:
        return hash(self._bytes)

    def __len__(self) -> int:
        """Returns the number of ACEs."""
        return int.from_bytes(self._bytes[:4], "big")

    def __iter__(self) -> Iterator[Ace]:
        """Yields the ACEs in their order."""
        return ace_values.each(self._list, self._options)

    def _ask(self, call: str, who: c.Requester, where: c.Object, mask: int, answer: T) -> T:
        """Asks about rights, and returns the answer, which the call writes."""
        fault = c.Fault()
        c.judge(c.calls[call](self._list, where, who, self._question(mask), ctypes.byref(answer), ctypes.byref(fault)),
                fault)
        return answer

    def _question(self, mask: int) -> c.Question:
        return c.Question(c.word(mask), self._options)

    def grants(self, *, user: Name, groups: Iterable[Name] = (), owner: Name, group: Name, mask: int) -> bool:
        """Returns whether the user, who is in these groups and no others, is granted all rights of the mask on an
        object of this owner and group (section 6.2.1).

        Raises ValueError if a name is empty or the mask has a bit that is not a right, and TypeError if `groups` is one
        name.
        """
        return self._ask("check", requester(user, groups), c.owned(owner, group), mask, c.Word()).value == 1

    def granted(self, *, user: Name, groups: Iterable[Name] = (), owner: Name, group: Name, mask: int = ALL) -> int:
        """Returns the rights of the mask that the user is granted. Reads the list once. Raises ValueError and TypeError
        as `grants` does."""
        return self._ask("granted", requester(user, groups), c.owned(owner, group), mask, c.Word()).value

    def decide(self, *, user: Name, groups: Iterable[Name] = (), owner: Name, group: Name, mask: int = ALL) -> Decided:
        """Returns which rights of the mask are allowed, denied, and undecided. Raises ValueError and TypeError as
        `grants` does."""
        found = self._ask("decide", requester(user, groups), c.owned(owner, group), mask, c.Decided())
        return decided(found, mask)

    @staticmethod
    def decide_unknown(data: bytes, *, user: Name, groups: Iterable[Name] = (), owner: Name, group: Name,
                       mask: int = ALL, narrow: bool = False) -> Possible:
        """Returns what a list answers whose special identifiers nobody knows, such as `INTERACTIVE@`: what holds
        whomever the server takes for these. AUDIT and ALARM ACEs are left out and counted. `NfsAcl` refuses such lists.

        Raises Refused, with the offset, if the bytes are not such a list, and ValueError and TypeError as `grants`
        does.
        """
        question = c.Question(c.word(mask), c.NARROW if narrow else 0)
        found, fault = c.Possible(), c.Fault()
        c.judge(c.calls["decide_unknown"](c.in_c(memoryview(data).tobytes()), c.owned(owner, group),
                                          requester(user, groups), question, ctypes.byref(found),
                                          ctypes.byref(fault)), fault)
        undecided = mask & ~(found.allowed | found.denied | found.unknown)
        return Possible(found.allowed, found.denied, undecided, found.unknown, Request(found.request), found.left_out)

    @classmethod
    def with_groups(cls, data: bytes, suffix: Name, *, narrow: bool = False) -> NfsAcl:
        """Reads a list whose special identifiers nobody knows, such as `INTERACTIVE@`: a group stands for each of them,
        whose name is that name with the suffix behind it. AUDIT and ALARM ACEs are left out. A requester of whom it is
        known which of the special identifiers match has the groups of these names.

        Raises Refused, with the offset, if the bytes are not such a list; and with the place of the ACE among those
        that stay, with the reason `UnknownName` if a special identifier with the suffix is not the name of a group, and
        with the reason `Merged` if an ACE is already for a group of such a name.
        """
        held = memoryview(data).tobytes()
        args = (c.in_c(held), c.in_c(c.encoded(suffix)), c.NARROW if narrow else 0)
        return cls(c.bytes_of("with_groups", args, 2 * len(held)), narrow=narrow)

    def prepare(self) -> Prepared:
        """Returns the list in a form that answers sooner, because it is read once. The form is bytes, which can be kept
        in a file or in memory that is shared."""
        return Prepared(c.bytes_of("prepare", (self._list, self._options), 4 * len(self._bytes) + 64))

    def prepare_ids(self, users: Optional[Mapping[str, int]] = None,
                    groups: Optional[Mapping[str, int]] = None) -> PreparedIds:
        """Returns the list in a form that is asked with ids: the tables have the ids of the names in the list, and a
        name of digits that no table has is an id.

        Raises Refused with the reason `UnknownName` and the place of the ACE if a name is neither. Raises ValueError if
        a name of a table is empty or has only digits, or an id is above 4294967294.
        """
        names = tables_in_c(users or {}, groups or {})
        return PreparedIds(c.bytes_of("prepare_ids", (self._list, names, self._options), 4 * len(self._bytes) + 64))

    def granted_many(self, requesters: Requesters, *, owner: Name, group: Name, mask: int = ALL) -> List[int]:
        """Returns for each of the requesters the rights of the mask that are granted. Reads the list once. Raises
        ValueError as `grants` does, and TypeError if the requesters are not `Requesters`."""
        if not isinstance(requesters, Requesters):
            raise TypeError("granted_many takes Requesters")
        found, fault = (c.Word * len(requesters.array))(), c.Fault()
        c.judge(c.calls["check_many"](self._list, c.owned(owner, group),
                                      c.Requesters(requesters.array, len(found)), self._question(mask),
                                      c.Masks(found, len(found)), ctypes.byref(fault)), fault)
        return list(found)

    def deciding(self, *, user: Name, groups: Iterable[Name] = (), owner: Name, group: Name,
                 right: int) -> Optional[Decision]:
        """Returns the place and the kind of the ACE that decides one right, or None if no ACE does, which denies the
        right.

        Raises ValueError if `right` is not exactly one right, or a name is empty, and TypeError if `groups` is one
        name.
        """
        found = self._ask("deciding", requester(user, groups), c.owned(owner, group), right, c.Decision())
        return None if found.kind == c.UNDECIDED else Decision(found.place, ace_values.kind_of(found.kind))

    def normal(self) -> NfsAcl:
        """Returns the one normal list that grants the same (docs/reference/lists.md, "The normal form")."""
        return self._like(c.bytes_of("normalize", (self._list, self._options), len(self._bytes)))

    def inherited(self) -> Tuple[NfsAcl, ...]:
        """Returns five normal forms: of this list, which is the list of a directory, of a new file and a new directory
        in it, and of a new file and a new directory in the latter. They are equal for two lists if and only if the
        lists grant the same, and so do the lists of everything that is ever made below the directories
        (docs/reference/lists.md, "Paths of creations")."""
        data = c.bytes_of("normalize_inherit", (self._list, self._options), 5 * len(self._bytes))
        parts = []
        while data:
            length = len(data)
            try:
                NfsAcl(data)
            except Refused as refused:  # behind the first list there are others
                if refused.reason != "TrailingBytes":
                    raise
                length = refused.offset or 0
            parts.append(self._like(data[:length]))
            data = data[length:]
        return tuple(parts)

    def child(self, *, directory: bool, mark_inherited: bool = False) -> NfsAcl:
        """Returns the list that a new file or directory gets in a directory with this list (section 6.2.1.4.1). With
        `mark_inherited`, the ACEs that it inherits have the flag INHERITED (section 6.4.3). Raises ValueError for
        `mark_inherited` with the narrow profile, which has no such flag."""
        options = self._options | (c.DIRECTORY if directory else 0)
        options |= c.MARK_INHERITED if mark_inherited else 0
        return self._like(c.bytes_of("child", (self._list, options), len(self._bytes)))

    def chmod(self, mode: int) -> NfsAcl:
        """Returns the list after the mode is set to these nine bits (section 6.4.1.1). Raises ValueError if the mode is
        above 0o777, and Refused with the reason `Limits` if the list would be too long."""
        return self._like(c.bytes_of("chmod", (self._list, c.word(mode), self._options), len(self._bytes) + 256))

    def renamed(self, users: Optional[Mapping[Name, Name]] = None, groups: Optional[Mapping[Name, Name]] = None, *,
                may_merge: bool = False) -> NfsAcl:
        """Returns the list with other names of users and groups: each name that is a key of its table is exchanged for
        the value of the key, and all others stay.

        Raises Refused with the reason `Merged` and the place of an ACE if two names would become one, unless
        `may_merge` is true. Raises ValueError if a name of a table is empty, special, or no name of a list.
        """
        rows = [c.Renaming(c.in_c(c.encoded(old)), c.in_c(c.encoded(new)), is_group)
                for is_group, table in enumerate((users or {}, groups or {})) for old, new in table.items()]
        table = c.Renamings((c.Renaming * len(rows))(*rows), len(rows))
        options = self._options | (c.MAY_MERGE if may_merge else 0)
        return self._like(c.bytes_of("renamed", (self._list, table, options), 2 * len(self._bytes)))

    def resolved(self, *, owner: Name, group: Name) -> NfsAcl:
        """Returns the list for one object: its owner, as a user, stands for `OWNER@`, its owning group, as a group, for
        `GROUP@`, and all else stays. Whatever object the new list is asked for, it grants each requester what this list
        grants for that one object. So `compare`, `exceeds` and `normalize` of new lists are about that object alone.
        New objects have another owner: take `child` of this list.

        Raises Refused with the reason `UnknownName` and the place of the ACE if an ACE needs a name that no ACE can
        have, and ValueError if a name is empty.
        """
        names = len(self) * (len(c.encoded(owner)) + len(c.encoded(group)))
        args = (self._list, c.owned(owner, group), self._options)
        return self._like(c.bytes_of("resolved", args, len(self._bytes) + names))

    def to_posix(self, names: NamedIds = (), most: int = 256) -> ToPosix:
        """Returns a POSIX ACL in place of this list, and who loses by it (docs/use/convert.md, "An NFSv4 list as a
        POSIX ACL"). It never grants more than this list: r only if this list grants READ_DATA, w only if it grants
        WRITE_DATA and APPEND_DATA, x only if it grants EXECUTE. DELETE_CHILD, which POSIX systems give with w on a
        directory, is not asked for. ACEs with INHERIT_ONLY do not count, and there are no default entries. `names` has
        the ids of names: name, id, whether it is a group. A name of digits is an id.

        Raises Refused: with the reason `UnknownName` and the place of the ACE, from 0, if a name has no id, and with
        the reason `Limits` if the list names more than `most` users and groups in ACEs that count and have a right that
        becomes r, w or x. Raises ValueError if `most` is above 65535, and for names as `PosixAcl` does.
        """
        from .posix import posix_of  # which imports this module
        return posix_of(self._list, names, most)

    def table(self, right: int) -> List[TableRow]:
        """Returns the ACEs of the normal form that have one right. Raises ValueError if it is not exactly one right."""
        text = c.bytes_of("table", (self._list, self._question(right)), 64 * (len(self) + 1))
        rows = [line.split(" ", 3) for line in c.decoded(text).split("\n")[:-1]]
        return [TableRow(int(source), AceKind(kind), flag == "GROUP", who) for source, kind, flag, who in rows]

    def holders(self, right: int) -> str:
        """Returns who has one right, in words: one line for each row of the table, from the last row to the first. Of
        the lines that are about a requester, the last one decides (docs/reference/lists.md, "Who has a right"). Raises
        ValueError if it is not exactly one right."""
        return c.decoded(c.bytes_of("holders", (self._list, self._question(right)), 64 * (len(self) + 1)))

    def needed(self) -> List[int]:
        """Returns for each ACE, in order, the rights that are needed: the list cut to these masks grants the same, and
        no right can be taken out of it (docs/reference/lists.md, "Needed rights")."""
        masks, count, fault = (c.Word * len(self))(), ctypes.c_size_t(), c.Fault()
        c.judge(c.calls["needed"](self._list, self._options, c.Masks(masks, len(masks)), ctypes.byref(count),
                                  ctypes.byref(fault)), fault)
        return list(masks)

    def means_the_same(self, other: NfsAcl) -> bool:
        """Returns whether both lists grant everybody the same, for every owner and group of the object."""
        same, fault = c.Word(), c.Fault()
        c.judge(c.calls["same"](self._list, other._list, self._options & other._options, ctypes.byref(same),
                                ctypes.byref(fault)), fault)
        return same.value == 1

    def compare(self, other: NfsAcl) -> Optional[Difference]:
        """Returns None if both lists grant everybody the same, and otherwise a requester whom they treat differently
        (docs/reference/lists.md, "Comparison")."""
        return self._found("compare", other._list, self._options & other._options)

    def exceeds(self, other: NfsAcl) -> Optional[Difference]:
        """Returns None if the other list grants everybody whatever this list grants, and otherwise a requester to whom
        this list grants a right that the other list does not grant."""
        return self._found("excess", other._list, self._options & other._options)

    def restricted(self, bound: NfsAcl, *, everywhere: bool = False) -> NfsAcl:
        """Returns what this list keeps under a bound: a right of an ALLOW goes if and only if the DENYs before it, and
        then it, grant the right to somebody whom the bound denies it. Of all lists that are made by taking rights out
        of ALLOWs, and that grant at most what the bound grants, it is the one that keeps most. Without `everywhere`, it
        is this list if and only if `exceeds` returns None. With `everywhere`, the bound counts on the object and on
        everything that is ever created below it, by the lists that `child` makes of both: so rights also go from ALLOWs
        with INHERIT_ONLY, and an ACE of the bound counts for new objects only if they inherit it."""
        call = "restricted_everywhere" if everywhere else "restricted"
        args = (self._list, bound._list, self._options & bound._options)
        return self._like(c.bytes_of(call, args, len(self._bytes)))

    def questions(self, most: int) -> List[Question]:
        """Returns the questions of this list. A list that mentions no other principals, and that grants the same as
        this list in each question, grants everybody the same. Of n principals there are at most 1 + n + n(n-1)/2
        (docs/reference/lists.md, "Comparison"). Raises Refused, with the reason TooMany, if there are more than `most`,
        and ValueError if that is outside 32 bits."""
        args = (self._list, c.word(most), self._options)
        return asked_in(c.bytes_of("questions", args, 64 * (len(self) + 1)))

    def implies(self, right: int, others: int) -> Optional[Difference]:
        """Returns None if everybody to whom this list grants a right also gets each of some others, and otherwise a
        requester who gets the right, with the lowest of the others that the list denies (docs/reference/lists.md, "What
        one right implies"). Raises ValueError if `right` is not exactly one right, or `others` is no mask."""
        asked = c.Implication(c.word(right), c.word(others), self._options)
        return self._found("implies", ctypes.byref(asked))

    def _found(self, call: str, *rest: Any) -> Optional[Difference]:
        at, fault, room = c.Difference(), c.Fault(), 512
        while True:
            out = ctypes.create_string_buffer(room)
            status = c.calls[call](self._list, *rest, ctypes.byref(at), c.Buffer(ctypes.addressof(out), room),
                                   ctypes.byref(fault))
            if status != c.SHORT:
                break
            room = at.names
        c.judge(status, fault)
        if at.same:
            return None
        owner, group, user, *groups = [c.decoded(name) for name in out.raw[:at.names].split(b"\0")[:-1]]
        return Difference(owner, group, user, tuple(groups), at.right, bool(at.first_grants))
