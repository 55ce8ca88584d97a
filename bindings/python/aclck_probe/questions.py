"""The questions that examine a list completely."""

from __future__ import annotations

from typing import List

from aclck import NfsAcl, Question, Refused
from aclck_tree.output.errors import TreeError

_MOST = 0xFFFFFFFF
"""The greatest number of questions that the library can be asked for."""


def questions(acl: NfsAcl, most: int) -> List[Question]:
    """Returns the questions of a list, in each of which each right is asked. If another list mentions no other
    principals, and grants the same in each question, then both lists grant everybody the same
    (`acl_contain::laws::questions_suffice`). Raises TreeError if there are more than `most`."""
    try:
        return acl.questions(min(most, _MOST))
    except Refused as refused:
        raise TreeError(f"the list has more than {most:,} questions (--most)") from refused
