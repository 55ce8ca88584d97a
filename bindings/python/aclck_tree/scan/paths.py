"""The paths of the members of archives, and which members the system does not make."""

from __future__ import annotations

from typing import List, Sequence

from aclck_tree.output.text import quoted_path
from aclck_tree.scan.archives import Member
from aclck_tree.scan.listed import LONGEST_PATH, names_of_path
from aclck_tree.scan.records import SHOWN

LONGEST_TAKEN = 4095
"""How many bytes of a path the calls of the system take (PATH_MAX)."""

LONGEST_NAME = 255
"""How many bytes of a name they take."""

PLAIN, WITH_SLASH = 1, 2
"""How a path begins: without a slash, or with one."""


def split(path: bytes) -> List[bytes]:
    """Returns the names of the path of a member. Whether it begins with a slash makes no difference. Raises ValueError,
    with the reason, if a part is `..`, or if it cannot be a path."""
    if len(path) > LONGEST_PATH:
        raise ValueError(f"it has more than {LONGEST_PATH:,} bytes")
    return names_of_path(path.lstrip(b"/"))


def left_of(path: bytes) -> bytes:
    """Returns the key of what programs may restore for a path that is none: GNU tar takes what is behind the last part
    `..`, and a text of C ends at its first zero byte."""
    names = [name for name in path.partition(b"\0")[0].split(b"/") if name not in (b"", b".")]
    return b"\0".join(names[len(names) - names[::-1].index(b"..") if b".." in names else 0:])


def not_made(member: Member, names: Sequence[bytes]) -> str:
    """Returns why the system does not make a member, or nothing. An earlier member of its path then stays."""
    if len(member.path) > LONGEST_TAKEN or any(len(name) > LONGEST_NAME for name in names):
        return "its path, or a name in it, is longer than the system takes, and programs may leave what was there"
    if len(member.target) > LONGEST_TAKEN or b"\0" in member.target:
        return "its target is longer than the system takes, or has a zero byte"
    if member.kind == "h" and member.target.endswith((b"/", b"/.")):
        return f"it is a hard link to {quoted_path(member.target[:SHOWN])}, which can only be a directory"
    return ""


def slashes(path: bytes) -> int:
    """Returns whether a path begins with a slash: `PLAIN` or `WITH_SLASH`."""
    return WITH_SLASH if path.startswith(b"/") else PLAIN
