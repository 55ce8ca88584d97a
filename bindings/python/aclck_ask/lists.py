"""The lists of a question, each with its place and its form."""

from __future__ import annotations

import argparse
import re
from typing import Callable, List, NamedTuple, Optional, Union

from aclck import AceFlag, NfsAcl, PosixAcl, Refused
from aclck_form import streams
from aclck_form.accounts import SystemIds, exchanged, posix_with_names, suffix_of
from aclck_form.values import OF_DEFAULT, POSIX, WITH_IDS, read_nfs
from aclck_tree.output.errors import TreeError
from aclck_tree.output.text import quoted
from aclck_tree.people.people import read_id

STANDARD_INPUT = "-"

INHERITED = AceFlag.FILE_INHERIT | AceFlag.DIRECTORY_INHERIT
"""With one of these flags, new objects inherit an ACE."""

SPECIAL = ("OWNER@", "GROUP@", "EVERYONE@")
"""The special identifiers of lists that are asked about."""


class Given(NamedTuple):
    """A list, where it was read, and its form. `has_ids` says that its users and groups are ids, which were not
    exchanged for names."""

    place: str
    form: str
    has_ids: bool
    acl: Union[NfsAcl, PosixAcl]

    @property
    def inherits(self) -> bool:
        """Whether new objects inherit something by this list. No question is about that."""
        if isinstance(self.acl, NfsAcl):
            return any(ace.flags & INHERITED for ace in self.acl)
        return any(entry.default for entry in self.acl)

    def require_ids(self) -> None:
        """Raises TreeError if a user or a group of an NFSv4 list is no id."""
        self._refuse(lambda who: read_id(who) is None, "has a name, and no id")

    def require_names(self) -> None:
        """Raises TreeError if a user or a group of an NFSv4 list is an id in digits: nobody knows who that is."""
        self._refuse(is_digits, "has an id, and no name")

    def _refuse(self, is_wrong: Callable[[str], bool], what: str) -> None:
        if isinstance(self.acl, NfsAcl):
            for place, ace in enumerate(self.acl):
                if ace.who not in SPECIAL and is_wrong(ace.who):
                    raise _not_known(self.place, f"ACE {place} {what}")


def is_digits(name: str) -> bool:
    """Whether a name is one of digits alone, which may be an id."""
    return re.fullmatch("[0-9]+", name) is not None


def read_lists(args: argparse.Namespace, accounts: Optional[SystemIds]) -> List[Given]:
    """Returns the lists that the command line names. Raises TreeError if a list is refused or too long, or is in no
    regular file, and OSError."""
    return [Given(place, form, form in POSIX or form in WITH_IDS and accounts is None,
                  _read(place, form, args, accounts)) for place, form in zip(args.lists, args.forms)]


def _read(place: str, form: str, args: argparse.Namespace, accounts: Optional[SystemIds]) -> Union[NfsAcl, PosixAcl]:
    """Returns a list. With accounts, the ids of an NFSv4 list become the names that the accounts have for them."""
    data = streams.read(0) if place == STANDARD_INPUT else streams.read_file(place, "the list is")
    try:
        if form in POSIX:
            return _asked_part(place, form, posix_with_names(form, data, None, accounts))
        acl, _ = read_nfs(form, data, args.kind)
        return exchanged(acl, accounts, False, suffix_of(args)) if accounts else acl
    except Refused as refused:
        raise _not_known(place, refused) from None


def _asked_part(place: str, form: str, acl: PosixAcl) -> PosixAcl:
    """Returns the list that is asked about: of a form of default entries, the one that these entries are."""
    if form not in OF_DEFAULT:
        return acl
    entries = [entry._replace(default=False) for entry in acl if entry.default]
    if not entries:
        raise _not_known(place, "there are no default entries")
    return PosixAcl.from_entries(entries)


def _not_known(place: str, reason: object) -> TreeError:
    """Returns the error for a list about which nothing is answered."""
    return TreeError(f"not known: {quoted(place)}: {reason}")
