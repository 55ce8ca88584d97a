"""Answers, as lines for people and as one object of JSON, and how a difference of two lists is shown."""

from __future__ import annotations

import json
from typing import Any, Dict, List, NamedTuple, Sequence, Union

from aclck import Difference, PosixDifference, mask_text
from aclck.entries import letters_of
from aclck_tree.output.text import quoted, quoted_line


class Reply(NamedTuple):
    """The answer to a question: the exit status, the values of the object of JSON, the lines for people, and a line for
    standard error, if it is not empty."""

    status: int
    values: Dict[str, Any]
    lines: Sequence[str]
    note: str = ""

    def text(self, question: str, is_json: bool) -> bytes:
        """Returns what is written. No character of it controls a terminal."""
        if is_json:
            return json.dumps({"question": question, **self.values}, ensure_ascii=True).encode() + b"\n"
        return "".join(f"{quoted_line(line)}\n" for line in self.lines).encode()


class ShownDifference(NamedTuple):
    """A difference as it is shown: a requester, and a right that one of two lists grants. In a POSIX ACL, all names are
    ids, and the right is some of `rwx` at once."""

    owner: Union[str, int]
    group: Union[str, int]
    user: Union[str, int]
    groups: Sequence[Union[str, int]]
    right: str

    @classmethod
    def of(cls, found: Union[Difference, PosixDifference]) -> ShownDifference:
        """Returns what is shown of a difference that the library found."""
        right = mask_text(found.right) if isinstance(found, Difference) else letters_of(found.want, absent="")
        return cls(found.owner, found.group, found.user, found.groups, right)

    def lines(self) -> List[str]:
        """Returns the lines for people, with names as bash reads them."""
        members = [f"member {quoted(str(group))}" for group in self.groups]
        return [f"owner {quoted(str(self.owner))}", f"group {quoted(str(self.group))}",
                f"user {quoted(str(self.user))}", *members, f"right {self.right}"]
