"""The questions about two lists: `at-most` and `same`."""

from __future__ import annotations

import argparse
from typing import List, Optional, Tuple, Union

from aclck import Difference, NfsAcl, PosixAcl, PosixDifference
from aclck_form.accounts import SystemIds
from aclck_form.values import POSIX
from aclck_tree.output.errors import NO, YES, TreeError
from aclck_tree.output.text import quoted

from .answer import Reply, ShownDifference
from .lists import SPECIAL, Given, read_lists

INHERITANCE = "what new objects inherit does not count"
"""The line for lists by which new objects inherit something."""


def at_most(args: argparse.Namespace, accounts: Optional[SystemIds]) -> Reply:
    """Answers whether the new list grants at most what the old one grants. Raises TreeError if that is not known."""
    old, new = compared(args, accounts)
    found = _excess(new, old)
    return _answer(("at most", "more"), (old, new), found, ("old denied", "new granted"))


def same(args: argparse.Namespace, accounts: Optional[SystemIds]) -> Reply:
    """Answers whether two lists grant everybody the same. Raises TreeError if that is not known."""
    first, second = compared(args, accounts)
    found, first_grants = _difference(first, second)
    ends = ("first granted", "second denied") if first_grants else ("first denied", "second granted")
    return _answer(("same", "differ"), (first, second), found, ends)


def _excess(one: Given, other: Given) -> Union[Difference, PosixDifference, None]:
    """Returns a requester to whom one list grants what the other one does not grant, or None."""
    if isinstance(one.acl, NfsAcl) and isinstance(other.acl, NfsAcl):
        return one.acl.exceeds(other.acl)
    assert isinstance(one.acl, PosixAcl) and isinstance(other.acl, PosixAcl)
    return one.acl.exceeds(other.acl)


def _difference(first: Given, second: Given) -> Tuple[Union[Difference, PosixDifference, None], bool]:
    """Returns a requester whom two lists treat differently, or None, and whether the first list grants the right."""
    if isinstance(first.acl, NfsAcl) and isinstance(second.acl, NfsAcl):
        found = first.acl.compare(second.acl)
        return found, found is not None and found.first_grants
    more = _excess(first, second)
    return (more, True) if more else (_excess(second, first), False)


def compared(args: argparse.Namespace, accounts: Optional[SystemIds]) -> List[Given]:
    """Returns two lists whose users and groups are named in one way. Raises TreeError if they are not."""
    if len({form in POSIX for form in args.forms}) > 1:
        raise TreeError("one list is an NFSv4 list, and the other one is a POSIX ACL")
    lists = read_lists(args, accounts)
    if len({one.has_ids for one in lists}) > 1:
        raise TreeError("not known: one list has ids, and the other one has names: --names or --system exchanges them")
    for one in lists:
        if one.has_ids:
            one.require_ids()
        elif accounts:
            one.require_names()
    _require_one_domain(lists)
    return lists


def _require_one_domain(lists: List[Given]) -> None:
    """Raises TreeError if the lists have one name with a domain and without one: these may be one user or group."""
    aces = [ace for one in lists if isinstance(one.acl, NfsAcl) for ace in one.acl if ace.who not in SPECIAL]
    alone = {(ace.is_group, ace.who) for ace in aces if "@" not in ace.who}
    for ace in aces:
        name, at, _ = ace.who.partition("@")
        if at and (ace.is_group, name) in alone:
            raise TreeError(f"not known: the lists have {quoted(name)} with a domain and without one")


def _answer(words: Tuple[str, str], lists: Tuple[Given, Given], found: Union[Difference, PosixDifference, None],
            ends: Tuple[str, str]) -> Reply:
    """Returns the first of the words if no requester was found, and otherwise the second one with the requester. `ends`
    says what each list answers to the requester."""
    inherits = any(one.inherits for one in lists)
    note = INHERITANCE if inherits else ""
    if found is None:
        return Reply(YES, {"answer": True, "difference": None, "inherits": inherits}, [words[0]], note)
    shown = ShownDifference.of(found)
    [granted_by] = [end.split()[0] for end in ends if end.endswith("granted")]
    difference = {**shown._asdict(), "granted_by": granted_by}
    values = {"answer": False, "difference": difference, "inherits": inherits}
    return Reply(NO, values, [words[1], *shown.lines(), *ends], note)
