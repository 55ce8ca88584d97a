"""The questions of a list with their answers, for other programs to ask."""

from __future__ import annotations

import argparse
import json
from typing import Any, Dict, List, Optional

from aclck import PosixAcl, mask_text
from aclck.entries import letters_of
from aclck_ask.lists import read_lists
from aclck_form.accounts import SystemIds
from aclck_tree.answer.lists import POSIX_MASKS

from .questions import questions


def listed(args: argparse.Namespace, accounts: Optional[SystemIds]) -> bytes:
    """Returns one object of JSON with the questions of a list, and what the list grants in each of them. Raises
    TreeError if the list is refused or has too many questions, and OSError."""
    [given] = read_lists(args, accounts)
    is_posix = isinstance(given.acl, PosixAcl)
    acl = given.acl.bridge() if isinstance(given.acl, PosixAcl) else given.acl
    shown = _letters if is_posix else _words
    rows = [{**question._asdict(), "granted": shown(acl.granted(**question._asdict()))}
            for question in questions(acl, args.most)]
    found: Dict[str, Any] = {"list": "posix" if is_posix else "nfs4", "questions": rows}
    return json.dumps(found, ensure_ascii=True).encode() + b"\n"


def _words(granted: int) -> List[str]:
    return mask_text(granted).split("|") if granted else []


def _letters(granted: int) -> List[str]:
    """Returns the permissions of a POSIX ACL whose rights its bridge grants, each by itself."""
    return [*letters_of(sum(bit for bit, mask in POSIX_MASKS.items() if granted & mask == mask), absent="")]
