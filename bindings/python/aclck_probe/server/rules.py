"""The rules of servers that are known to differ from lists. Each explains some differences."""

from __future__ import annotations

from typing import Callable, NamedTuple, Optional, Tuple

from aclck import ADD_FILE, APPEND_DATA, DELETE_CHILD, EXECUTE, WRITE_DATA, Ace, AceFlag, NfsAcl

from . import meanings as asked


class Mismatch(NamedTuple):
    """An answer of a server that is not that of a list: what it is about, whether the server grants it, whether the
    owner asks, the rights that the list grants, the list that is expected, and the list and the mode that the server
    has, and had before."""

    word: str
    is_granted: bool = False
    is_owner: bool = False
    granted: int = 0
    expected: Optional[NfsAcl] = None
    found: Optional[NfsAcl] = None
    before: Optional[NfsAcl] = None
    mode: Optional[int] = None
    mode_before: Optional[int] = None


class Rule(NamedTuple):
    """A rule: its name, what it says, and whether it explains a difference."""

    name: str
    says: str
    explains: Callable[[Mismatch], bool]


LIST, NEW_FILE, NEW_DIRECTORY = "list", "list of a new file", "list of a new directory"
MODE, MODE_OF_LIST = "mode", "mode of the list"
"""What a difference is about, besides requests."""

_OF_OWNERS = tuple(one.word for one in (asked.READ_LIST, asked.SET_LIST, asked.SET_MODE, asked.SET_TIME))
_REMOVALS = asked.REMOVE.word, asked.REMOVE_BY_DELETE.word


def _is_owner(found: Mismatch) -> bool:
    return found.is_granted and found.is_owner and found.word in _OF_OWNERS


def _lacks(word: str, right: int) -> Callable[[Mismatch], bool]:
    """Returns whether a server refuses a request for want of a right that the list need not grant."""
    return lambda found: found.word == word and not found.is_granted and not found.granted & right


def _needs_add_file(found: Mismatch) -> bool:
    """Whether a server takes no notice of a right to remove: ADD_FILE decides where DELETE_CHILD is not denied."""
    is_by_delete = found.word == asked.REMOVE_BY_DELETE.word and not found.granted & DELETE_CHILD
    return found.word in _REMOVALS and not found.is_granted and (is_by_delete or not found.granted & ADD_FILE)


def _is_removal(found: Mismatch) -> bool:
    return found.word in _REMOVALS


def _is_kept_empty(found: Mismatch) -> bool:
    is_kept = found.found is not None and found.found == found.before
    return found.word == LIST and found.expected is not None and not len(found.expected) and is_kept


def _has_no_list(found: Mismatch) -> bool:
    return found.word in (NEW_FILE, NEW_DIRECTORY) and found.found is None and not len(found.expected or ())


def _keeps_inherit_only(found: Mismatch) -> bool:
    """Whether only flags are wrong: without INHERIT_ONLY the list of a new file grants what it should."""
    if found.word != NEW_FILE or found.expected is None or found.found is None:
        return False
    aces = [ace._replace(flags=AceFlag(ace.flags & ~AceFlag.INHERIT_ONLY)) for ace in found.found]
    return NfsAcl.from_aces(aces).means_the_same(found.expected)


def _drops_file_inherit(found: Mismatch) -> bool:
    """Whether only ACEs are missing that are for files."""
    if found.word != NEW_DIRECTORY or found.expected is None:
        return False
    there = found.found or NfsAcl.from_aces(())
    return NfsAcl.from_aces([*filter(_is_for_directories, found.expected)]).inherited() == there.inherited()


def _is_for_directories(ace: Ace) -> bool:
    return not ace.flags & AceFlag.FILE_INHERIT or bool(ace.flags & AceFlag.DIRECTORY_INHERIT)


def _keeps_list(found: Mismatch) -> bool:
    return found.word == MODE_OF_LIST and found.found is not None and found.found == found.before


def _keeps_mode(found: Mismatch) -> bool:
    return found.word == MODE and found.mode is not None and found.mode == found.mode_before


def _has_mode_of_last(found: Mismatch) -> bool:
    acl = found.expected
    return found.word == MODE and acl is not None and found.mode == NfsAcl.from_aces([*reversed([*acl])]).mode


RULES: Tuple[Rule, ...] = (
    Rule("owner", "the owner reads and sets the list, the mode and the times whatever the list says", _is_owner),
    Rule("append", "who writes needs APPEND_DATA too", _lacks(asked.WRITE_FILE.word, APPEND_DATA)),
    Rule("times", "who sets the times to that of the server needs WRITE_DATA", _lacks(asked.SET_TIME.word, WRITE_DATA)),
    Rule("search", "who lists a directory needs EXECUTE too", _lacks(asked.LIST_NAMES.word, EXECUTE)),
    Rule("remove by ADD_FILE", "DELETE and DELETE_CHILD need ADD_FILE too", _needs_add_file),
    Rule("remove by mode", "EXECUTE and the mode of the directory decide who removes", _is_removal),
    Rule("empty list", "an empty list leaves the list before it in place", _is_kept_empty),
    Rule("no list", "a new object that inherits nothing has no list", _has_no_list),
    Rule("INHERIT_ONLY", "the ACEs of a new file keep INHERIT_ONLY", _keeps_inherit_only),
    Rule("FILE_INHERIT", "a new directory does not get the ACEs for files", _drops_file_inherit),
    Rule("list before mode", "a new mode leaves the list as it is", _keeps_list),
    Rule("mode before list", "a new list leaves the mode as it is", _keeps_mode),
    Rule("last ACE", "the last ACE decides the mode of a list", _has_mode_of_last))
"""The known rules, in the order in which they are tried. docs/reference/others.md names their servers."""


def rule_of(found: Mismatch) -> Optional[Rule]:
    """Returns the first known rule that explains a difference, or None."""
    return next((rule for rule in RULES if rule.explains(found)), None)
