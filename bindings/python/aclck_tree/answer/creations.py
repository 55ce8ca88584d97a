"""The lists of what is created in a directory, by anybody."""

from __future__ import annotations

from typing import Dict, Iterator, List, NamedTuple, Tuple

from aclck import ALL, ALLOW, Ace, AceFlag, NfsAcl, PosixAcl

from aclck_tree.answer.lists import AskableList, as_linux
from aclck_tree.answer.sides import HEIRS
from aclck_tree.snapshot.snapshot import StoredList

_ANYTHING = AskableList(NfsAcl.from_aces([Ace(ALLOW, AceFlag(0), ALL, "EVERYONE@")]))


class Creations(NamedTuple):
    """What is created in a directory (`on`), and lists of which one grants whatever it will grant. `may_be_less` says
    why it may grant less than that, and `may_be_other` why this is all that is known."""

    on: str
    lists: Tuple[AskableList, ...]
    may_be_less: str = ""
    may_be_other: str = ""


def creations(asked: AskableList, stored: StoredList, linux: bool) -> List[Creations]:
    """Returns what is created in a directory with a list. Raises Refused if a bridge would be too long."""
    return [_of_posix(stored, linux)] if asked.posix else list(_of_nfs(asked))


def _of_nfs(asked: AskableList) -> Iterator[Creations]:
    """Yields the distinct lists of new files and directories, and of those in the latter: the list of what is created
    deeper is one of these (docs/proofs/proofs.md, "Paths of creations")."""
    below = asked.acl.child(directory=True)
    lists = [acl.child(directory=is_directory) for acl in (asked.acl, below) for is_directory in (False, True)]
    found: Dict[Tuple[NfsAcl, bool], List[str]] = {}
    for on, form, one in zip(HEIRS, asked.acl.inherited()[1:], lists):
        found.setdefault((form, len(one) > 0), []).append(on)
    for (form, inherits), words in found.items():
        on = "new objects" if len(words) == len(HEIRS) else ", ".join(words)
        if inherits:
            yield Creations(on, (AskableList(form, None, asked.specials),))
        else:
            reason = "they inherit nothing, and the server decides by their mode"
            yield Creations(on, (_ANYTHING,), reason, reason)


def _of_posix(stored: StoredList, linux: bool) -> Creations:
    """Returns the lists of what programs create with any mode. No mode leaves more than 0777, unless Linux does not
    look at the list, because the group has no permissions."""
    acl = PosixAcl.from_attributes(stored.access, stored.default, stored.mode)
    made = [acl.create(mode=mode, umask=0, directory=True) for mode in ((0o777, 0o707) if linux else (0o777,))]
    lists = tuple(AskableList(one.bridge(), one) for one in dict.fromkeys(map(as_linux, made) if linux else made))
    if any(entry.default for entry in acl):
        return Creations("new objects", lists, "the mode that a program gives decides")
    reason = "they inherit nothing, and the mode and the umask of a program decide"
    return Creations("new objects", lists, reason, reason)
