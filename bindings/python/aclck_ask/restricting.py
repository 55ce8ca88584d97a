"""The question about a list and a bound: `restrict`."""

from __future__ import annotations

import argparse
from typing import Any, Dict, List, Optional

from aclck import NfsAcl, mask_text
from aclck_form.accounts import SystemIds
from aclck_form.values import POSIX
from aclck_tree.output.errors import YES, TreeError
from aclck_tree.output.text import table

from .answer import Reply
from .comparing import INHERITANCE, compared
from .lists import INHERITED


def restrict(args: argparse.Namespace, accounts: Optional[SystemIds]) -> Reply:
    """Answers what a list keeps under a bound, and which rights of which ACEs it loses. With --inherit, the bound also
    counts for everything that is created. Raises TreeError if that is not known."""
    if any(form in POSIX for form in args.forms):
        raise TreeError(f"{args.question} asks NFSv4 lists")
    given = compared(args, accounts)
    acl, bound = given[0].acl, given[1].acl
    assert isinstance(acl, NfsAcl) and isinstance(bound, NfsAcl)
    kept = acl.restricted(bound, everywhere=args.inherit)
    rows: List[Dict[str, Any]] = []
    for place, (ace, left, text) in enumerate(zip(acl, kept, str(kept).split("\n"))):
        rows.append({"ace": place, "taken": mask_text(ace.mask & ~left.mask), "inherits": bool(ace.flags & INHERITED),
                     "text": text})
    heads = [("ACE", "TAKEN", "INHERITED", "TEXT")]
    cells = [(str(row["ace"]), row["taken"], "yes" if row["inherits"] else "no", row["text"]) for row in rows]
    inherits = any(one.inherits for one in given)
    return Reply(YES, {"aces": rows, "inherits": inherits}, table([*heads, *cells], right=[0]),
                 INHERITANCE if inherits and not args.inherit else "")
