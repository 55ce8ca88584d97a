"""The questions about one NFSv4 list: `holders` and `needed`."""

from __future__ import annotations

import argparse
from typing import Any, Dict, List, Optional

from aclck import NfsAcl, mask_text, read_mask
from aclck_form.accounts import SystemIds
from aclck_form.values import POSIX
from aclck_tree.output.errors import YES, TreeError, UsageError
from aclck_tree.output.text import table

from .answer import Reply
from .lists import INHERITED, read_lists


def holders(args: argparse.Namespace, accounts: Optional[SystemIds]) -> Reply:
    """Answers who has one right, in the words of the library. Raises UsageError if it is no right, and TreeError if the
    list is refused."""
    right = mask_of(args.right)
    if right & (right - 1):
        raise UsageError(f"holders takes one right, and not {args.right!r}")
    lines = _nfs_list(args, accounts).holders(right).split("\n")[:-1]
    return Reply(YES, {"right": mask_text(right), "holders": lines}, lines)


def needed(args: argparse.Namespace, accounts: Optional[SystemIds]) -> Reply:
    """Answers which rights of which ACEs decide something, and which can go. Raises TreeError if the list is
    refused."""
    acl = _nfs_list(args, accounts)
    rows: List[Dict[str, Any]] = []
    for place, (ace, text, mask) in enumerate(zip(acl, str(acl).split("\n"), acl.needed())):
        rows.append({"ace": place, "needed": mask_text(mask), "can_go": mask_text(ace.mask & ~mask),
                     "inherits": bool(ace.flags & INHERITED), "text": text})
    heads = [("ACE", "NEEDED", "CAN GO", "INHERITED", "TEXT")]
    cells = [(str(row["ace"]), row["needed"], row["can_go"], "yes" if row["inherits"] else "no", row["text"])
             for row in rows]
    is_inherited = any(row["inherits"] and row["can_go"] != "-" for row in rows)
    note = "new objects inherit rights that can go, which may be needed there" if is_inherited else ""
    return Reply(YES, {"aces": rows}, table([*heads, *cells], right=[0]), note)


def mask_of(text: str) -> int:
    """Returns the mask of the names of rights, at least one. Raises UsageError if the text has no such names."""
    try:
        mask = read_mask(text)
    except ValueError:
        mask = 0
    if not mask:
        raise UsageError(f"not a right, or rights with | between: {text!r}")
    return mask


def _nfs_list(args: argparse.Namespace, accounts: Optional[SystemIds]) -> NfsAcl:
    """Returns the one NFSv4 list of the command line. Raises TreeError if it is a POSIX ACL, or is refused."""
    if args.forms[0] in POSIX:
        raise TreeError(f"{args.question} asks NFSv4 lists")
    acl = read_lists(args, accounts)[0].acl
    assert isinstance(acl, NfsAcl)
    return acl
