"""The calls of libaclck.so.1, with ctypes. include/aclck.h says what each call does."""

from __future__ import annotations

import ctypes
import operator
import os
from typing import Any, Callable, List, Sequence, Tuple, Union

from ._loading import load
from ._names import Name as Name
from ._names import decoded as decoded
from ._names import encoded as encoded
from ._names import exact as exact
from ._names import several as several
from .faults import refused

File = Union[int, str, bytes, "os.PathLike[str]"]
"""A file: its path, or the number of an open descriptor."""

DONE, REFUSED, BAD_ARGUMENT, MEMORY, SHORT = 0, 2, 3, 4, 5
UNDECIDED = 2
NARROW, DIRECTORY, SHOWN, FORM_SHORT = 0x01000000, 0x02000000, 0x04000000, 0x08000000
GROUPS_IN_ORDER, MARK_INHERITED, ADD_MASK, MAY_MERGE = 0x10000000, 0x20000000, 0x40000000, 0x00800000

Word = ctypes.c_uint32
_size, _many = ctypes.c_size_t, ctypes.POINTER(Word)


class Bytes(ctypes.Structure):
    """A pointer to bytes, and their number."""

    _fields_ = [("at", ctypes.c_char_p), ("len", _size)]


class Buffer(ctypes.Structure):
    """Room for bytes."""

    _fields_ = [("at", ctypes.c_void_p), ("cap", _size)]


class Object(ctypes.Structure):
    """The owner and the owning group of an object."""

    _fields_ = [("owner", Bytes), ("group", Bytes)]


class Requester(ctypes.Structure):
    """A user and the user's groups."""

    _fields_ = [("user", Bytes), ("groups", ctypes.POINTER(Bytes)), ("ngroups", _size)]


class Requesters(ctypes.Structure):
    """Some requesters."""

    _fields_ = [("at", ctypes.POINTER(Requester)), ("len", _size)]


class IdRequester(ctypes.Structure):
    """The id of a user, and the ids of the user's groups."""

    _fields_ = [("user", Word), ("groups", ctypes.POINTER(Word)), ("ngroups", _size)]


class IdObject(ctypes.Structure):
    """The ids of the owner and of the owning group of an object."""

    _fields_ = [("owner", Word), ("group", Word)]


class Question(ctypes.Structure):
    """The rights that are asked, and the options."""

    _fields_ = [("mask", Word), ("options", Word)]


class Implication(ctypes.Structure):
    """Whether whoever gets a right gets others, and the options."""

    _fields_ = [("right", Word), ("others", Word), ("options", Word)]


class Masks(ctypes.Structure):
    """Room for masks of rights."""

    _fields_ = [("at", ctypes.POINTER(Word)), ("len", _size)]


class Ace(ctypes.Structure):
    """One ACE: its kind (0 is ALLOW, and 1 is DENY), its flags and its mask as numbers, and the bytes of its who."""

    _fields_ = [("kind", Word), ("flags", Word), ("mask", Word), ("who", Bytes)]


class Aces(ctypes.Structure):
    """Some ACEs."""

    _fields_ = [("at", ctypes.POINTER(Ace)), ("len", _size)]


class NamedId(ctypes.Structure):
    """A name that stands for an id."""

    _fields_ = [("name", Bytes), ("id", Word), ("is_group", Word)]


class Names(ctypes.Structure):
    """A table of such names."""

    _fields_ = [("at", ctypes.POINTER(NamedId)), ("len", _size)]


class Renaming(ctypes.Structure):
    """A name, and the name in its place."""

    _fields_ = [("from", Bytes), ("to", Bytes), ("is_group", Word)]


class Renamings(ctypes.Structure):
    """A table of such pairs."""

    _fields_ = [("at", ctypes.POINTER(Renaming)), ("len", _size)]


class PosixText(ctypes.Structure):
    """The text of POSIX ACLs, and the names that it may use."""

    _fields_ = [("text", Bytes), ("names", Names)]


class PosixQuestion(ctypes.Structure):
    """What is asked of a POSIX ACL."""

    _fields_ = [("owner", Word), ("group", Word), ("user", Word), ("want", Word), ("groups", _many), ("ngroups", _size)]


class Entry(ctypes.Structure):
    """An entry of a POSIX ACL."""

    _fields_ = [("tag", Word), ("id", Word), ("perm", Word)]


class Entries(ctypes.Structure):
    """Some entries."""

    _fields_ = [("at", ctypes.POINTER(Entry)), ("len", _size)]


class EntryBuffer(ctypes.Structure):
    """Room for entries."""

    _fields_ = [("at", ctypes.POINTER(Entry)), ("cap", _size)]


class Creation(ctypes.Structure):
    """How a new object is created."""

    _fields_ = [("mode", Word), ("umask", Word), ("options", Word)]


class PosixDecision(ctypes.Structure):
    """The entry that decides a request."""

    _fields_ = [("place", ctypes.c_uint64), ("granted", Word), ("tag", Word), ("masked", Word)]


class PosixDifference(ctypes.Structure):
    """What one POSIX ACL grants and another denies."""

    _fields_ = [(name, Word) for name in "same owner group user want ngroups first_group second_group".split()]


class PosixLoss(ctypes.Structure):
    """What an NFSv4 list grants and a POSIX ACL denies. The first field says that this is nothing."""

    _fields_ = [("exact", Word), *PosixDifference._fields_[1:], ("third_group", Word)]


class Fault(ctypes.Structure):
    """Why and where something is refused."""

    _fields_ = [("offset", ctypes.c_uint64), ("line", ctypes.c_uint64), ("column", ctypes.c_uint64),
                ("reason", Word), ("list", Word), ("part", Word), ("tag", Word)]


class Decided(ctypes.Structure):
    """The rights that are allowed, and those that are denied."""

    _fields_ = [("allowed", Word), ("denied", Word)]


class DecidedList(ctypes.Structure):
    """Room for answers."""

    _fields_ = [("at", ctypes.POINTER(Decided)), ("len", _size)]


class Decision(ctypes.Structure):
    """The ACE that decides a right."""

    _fields_ = [("place", ctypes.c_uint64), ("kind", Word)]


class Possible(ctypes.Structure):
    """What a list with unknown identifiers answers."""

    _fields_ = [("allowed", Word), ("denied", Word), ("unknown", Word), ("request", Word), ("left_out", Word)]


class LeftOut(ctypes.Structure):
    """An ACE that is left out."""

    _fields_ = [("place", ctypes.c_uint64), ("offset", ctypes.c_uint64), ("reason", Word)]


class Part(ctypes.Structure):
    """The number of bytes of a list, the number of the ACEs that are left out, and the flags of the list."""

    _fields_ = [("needed", ctypes.c_uint64), ("left_out", ctypes.c_uint64), ("flags", Word)]


class LeftOuts(ctypes.Structure):
    """Room for ACEs that are left out."""

    _fields_ = [("at", ctypes.POINTER(LeftOut)), ("cap", _size)]


class Difference(ctypes.Structure):
    """Whether two lists grant the same, and if not, the right on which they differ."""

    _fields_ = [("names", ctypes.c_uint64), ("same", Word), ("right", Word), ("first_grants", Word)]


lib = load()
_fault, _words = ctypes.POINTER(Fault), ctypes.POINTER(Word)
_asked = [Bytes, ctypes.POINTER(Object), ctypes.POINTER(Requester), ctypes.POINTER(Question)]
_asked_by_ids = [ctypes.POINTER(IdObject), ctypes.POINTER(IdRequester), ctypes.POINTER(Question)]
_posix, _out = ctypes.POINTER(PosixText), [Buffer, ctypes.POINTER(_size)]
_entries, _posix_asked = [EntryBuffer, ctypes.POINTER(_size), _fault], [Entries, ctypes.POINTER(PosixQuestion)]
_CALLS: "List[Tuple[str, List[Any]]]" = [
    ("decide", [*_asked, ctypes.POINTER(Decided), _fault]),
    ("check granted", [*_asked, _words, _fault]),
    ("decide_unknown", [*_asked, ctypes.POINTER(Possible), _fault]),
    ("deciding", [*_asked, ctypes.POINTER(Decision), _fault]),
    ("prepare_ids", [Bytes, ctypes.POINTER(Names), Word, *_out, _fault]),
    ("decide_ids", [Bytes, *_asked_by_ids, ctypes.POINTER(Decided)]),
    ("check_many", [Bytes, ctypes.POINTER(Object), Requesters, ctypes.POINTER(Question), Masks, _fault]),
    ("prepare child show encode normalize normalize_inherit", [Bytes, Word, *_out, _fault]),
    ("decide_prepared", [*_asked, ctypes.POINTER(Decided)]),
    ("decide_prepared_many", [Bytes, ctypes.POINTER(Object), Requesters, ctypes.POINTER(Question), DecidedList]),
    ("mode", [Bytes, Word, _words, _fault]),
    ("chmod questions write_form", [Bytes, Word, Word, *_out, _fault]),
    ("build", [Aces, Word, *_out, _fault]),
    ("next", [Bytes, Word, ctypes.POINTER(_size), ctypes.POINTER(Ace), _fault]),
    ("renamed", [Bytes, ctypes.POINTER(Renamings), Word, *_out, _fault]),
    ("resolved", [Bytes, ctypes.POINTER(Object), Word, *_out, _fault]),
    ("restricted restricted_everywhere with_groups", [Bytes, ctypes.POINTER(Bytes), Word, *_out, _fault]),
    ("read_form", [Bytes, Word, *_out, _words, _fault]),
    ("read_part", [Bytes, Word, ctypes.POINTER(Part), Buffer, LeftOuts, _fault]),
    ("table holders", [Bytes, ctypes.POINTER(Question), *_out, _fault]),
    ("needed", [Bytes, Word, Masks, ctypes.POINTER(_size), _fault]),
    ("same", [Bytes, Bytes, Word, _words, _fault]),
    ("compare excess", [Bytes, Bytes, Word, ctypes.POINTER(Difference), Buffer, _fault]),
    ("implies", [Bytes, ctypes.POINTER(Implication), ctypes.POINTER(Difference), Buffer, _fault]),
    ("read_mask", [Bytes, _words]),
    ("mask_text reason_text", [Word, *_out]),
    ("posix_check", [_posix, ctypes.POINTER(PosixQuestion), _words, _fault]),
    ("posix_show posix_chmod", [_posix, Word, *_out, _fault]),
    ("posix_calc_mask posix_bridge", [_posix, *_out, _fault]),
    ("posix_create", [_posix, ctypes.POINTER(Creation), *_out, _fault]),
    ("entries_check", [*_posix_asked, _words, _fault]),
    ("entries_deciding", [*_posix_asked, ctypes.POINTER(PosixDecision), _fault]),
    ("entries_mode", [Entries, _words, _fault]),
    ("entries_excess", [Entries, Entries, ctypes.POINTER(PosixDifference), _fault]),
    ("entries_sorted entries_chmod", [Entries, Word, *_entries]),
    ("entries_calc_mask", [Entries, *_entries]),
    ("entries_create", [Entries, ctypes.POINTER(Creation), *_entries]),
    ("entries_bridge entries_to_attribute", [Entries, *_out, _fault]),
    ("entries_from_attribute", [Bytes, *_entries]),
    ("entries_from_form", [_posix, Word, *_entries]),
    ("entries_to_form", [Entries, ctypes.POINTER(Names), Word, *_out, _fault]),
    ("to_posix", [Bytes, ctypes.POINTER(Names), Word, *_entries[:-1], ctypes.POINTER(PosixLoss), _fault]),
    ("version", []),
]
"""The names of calls, and the types of their arguments."""


def _declare() -> "dict[str, Any]":
    found = {}
    for name, types in ((name, types) for names, types in _CALLS for name in names.split()):
        try:
            call = getattr(lib, "aclck_" + name)
        except AttributeError:
            raise ImportError(f"the installed libaclck.so.1 is too old: it has no aclck_{name}") from None
        call.argtypes, call.restype = types, Word
        found[name] = call
    return found


calls = _declare()
_number = calls["version"]()
VERSION = f"{_number >> 16}.{_number >> 8 & 255}.{_number & 255}"
"""The version of the library's interface."""


def in_c(held: bytes) -> Bytes:
    """Returns some bytes for C."""
    copied = exact(held)
    return Bytes(copied, len(copied))


def found_in(spelled: Bytes) -> bytes:
    """Returns the bytes that C found. They may have zeros behind them or not."""
    return ctypes.string_at(ctypes.c_void_p.from_buffer(spelled).value or 0, spelled.len)


def owned(owner: Name, group: Name) -> Object:
    """Returns an object of this owner and owning group for C."""
    return Object(in_c(encoded(owner)), in_c(encoded(group)))


def word(number: int) -> int:
    """Returns a number that C gets in 32 bits. ctypes itself would cut a larger number in silence, and a subclass of
    `int` can compare as another number. Raises ValueError if the number is outside 32 bits, and TypeError if it is not
    an `int`."""
    found = int.__index__(operator.index(number))
    if not 0 <= found <= 0xFFFFFFFF:
        raise ValueError(f"outside 32 bits: {found:#x}")
    return found


def short_text(name: str, number: int) -> str:
    """Makes a call that writes a short text about a number, and returns the text. Returns an empty text if the number
    means nothing."""
    out, needed = ctypes.create_string_buffer(256), _size()
    if calls[name](number, Buffer(ctypes.addressof(out), 256), ctypes.byref(needed)):
        return ""
    return out.raw[:needed.value].decode()


def judge(status: int, fault: Fault) -> None:
    """Raises the exception for a status, if the call failed."""
    if status == REFUSED:
        reason = short_text("reason_text", fault.reason) or f"reason {fault.reason}"
        raise refused(reason, fault.offset, fault.line, fault.column, fault.list, fault.part, fault.tag)
    if status == BAD_ARGUMENT:
        raise ValueError("a name is empty, or a number is outside its range")
    if status != DONE:
        raise MemoryError


def bytes_of(name: str, args: Sequence[Any], room: int, *answers: Any) -> bytes:
    """Makes a call that writes bytes, and returns them. The first buffer has `room` bytes. The call writes each of the
    answers too."""
    def written(size: int) -> Tuple[Any, Buffer]:
        out = ctypes.create_string_buffer(size or 1)
        return out, Buffer(ctypes.addressof(out), size)
    out, length = _filled(name, args, room, written, answers)
    return bytes(out.raw[:length])


def entries_of(name: str, args: Sequence[Any], room: int, *answers: Any) -> List[Entry]:
    """Makes a call that writes entries, and returns them, as `bytes_of` does. `room` is a number of entries."""
    def written(size: int) -> Tuple[Any, EntryBuffer]:
        out = (Entry * size)()
        return out, EntryBuffer(out, size)
    out, length = _filled(name, args, room, written, answers)
    return list(out[:length])


def _filled(name: str, args: Sequence[Any], room: int, written: Callable[[int], Tuple[Any, Any]],
            answers: Sequence[Any]) -> Tuple[Any, int]:
    """Makes a call with a buffer that is long enough. Returns the buffer, and how much of it was written."""
    call, needed, fault = calls[name], _size(), Fault()
    while True:
        out, buffer = written(room)
        status = call(*args, buffer, ctypes.byref(needed), *answers, ctypes.byref(fault))
        if status != SHORT:
            judge(status, fault)
            return out, needed.value
        room = needed.value
