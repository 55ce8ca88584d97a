"""What is asked for: rights of NFSv4 lists, and permissions of POSIX ACLs."""

from __future__ import annotations

from typing import NamedTuple, Union

from aclck import APPEND_DATA, EXECUTE, READ_DATA, WRITE_DATA, mask_text, read_mask
from aclck.entries import PERMISSIONS, perm_of

from aclck_tree.answer.lists import POSIX_MASKS, AskableList, Kind, RefusedList
from aclck_tree.output.errors import UsageError


class Want(NamedTuple):
    """What is asked for: rights of NFSv4 lists, and permissions of POSIX ACLs, or the reason why these have none."""

    text: str
    mask: int
    perms: int
    missing: int
    any: bool

    @property
    def posix_mask(self) -> int:
        """The rights that stand for the permissions in the bridge of a POSIX ACL."""
        return sum(rights for bit, rights in POSIX_MASKS.items() if self.perms & bit)


def want_of(text: str, any_of: bool = False) -> Want:
    """Reads what is asked for: some of the letters r, w and x, or names of rights with `|` between them.

    Raises UsageError if the text is neither, or is empty.
    """
    if text and set(text) <= set(PERMISSIONS):
        perms = perm_of(text)
        return Want(text, sum(mask for bit, mask in POSIX_MASKS.items() if perms & bit), perms, 0, any_of)
    try:
        mask = read_mask(text)
    except ValueError:
        mask = 0
    if not mask:
        raise UsageError(f"--may takes letters of rwx, or names of rights with | between them, and not {text!r}")
    perms = sum(bit for bit, rights in POSIX_MASKS.items() if mask & rights)
    known = READ_DATA | WRITE_DATA | APPEND_DATA | EXECUTE
    return Want(text, mask, perms, mask & ~known, any_of)


def put_to(asked: AskableList, want: Want) -> Union[RefusedList, Want]:
    """Returns what is asked of a list of its kind, or why it has no such right."""
    if asked.kind is Kind.POSIX:
        if want.missing and not (want.any and want.perms):
            return RefusedList(f"a POSIX ACL has no {mask_text(want.missing)}")
        return want._replace(mask=want.posix_mask)
    return want
