"""The rules beside the list that systems are known to have. Each explains some differences."""

from __future__ import annotations

import errno
import os
from typing import Callable, NamedTuple, Optional, Tuple

from aclck_tree.answer.lists import as_linux
from aclck_tree.scan.mounts import kind_of

from .asking import GRANTED
from .objects import Probed
from .requesters import Requester

WRITE, EXECUTE = 2, 1

_NFS = 0x6969  # statfs(2)
_NOEXEC = 8  # statvfs(3), ST_NOEXEC
_STICKY = 0o1000
_ROOT = 0


class Mismatch(NamedTuple):
    """An answer of the system that is not that of the list: who asked for which permissions of an object, whether a
    child of the object was to be removed, and the answer."""

    probed: Probed
    requester: Requester
    want: int
    removes: bool
    answer: int

    @property
    def is_granted(self) -> bool:
        """Whether the system grants what the list denies. Otherwise it denies what the list grants."""
        return self.answer == GRANTED


class Rule(NamedTuple):
    """A rule: its name, what it says, and whether it explains a difference. The last raises OSError."""

    name: str
    says: str
    explains: Callable[[Mismatch], bool]


def _is_on_server(found: Mismatch) -> bool:
    return found.probed.resolved.posix is None or kind_of(found.probed.handle) == _NFS


def _is_root(found: Mismatch) -> bool:
    return found.is_granted and found.requester.user == _ROOT


def _is_owner(found: Mismatch) -> bool:
    is_owner = found.requester.user == found.probed.status.st_uid
    return found.is_granted and is_owner and not found.want & EXECUTE and _is_on_server(found)


def _is_read_only(found: Mismatch) -> bool:
    return found.answer == errno.EROFS


def _is_noexec(found: Mismatch) -> bool:
    is_execution = bool(found.want & EXECUTE) and not found.probed.is_directory
    return found.answer == errno.EACCES and is_execution and bool(os.fstatvfs(found.probed.handle).f_flag & _NOEXEC)


def _is_sticky(found: Mismatch) -> bool:
    return not found.is_granted and found.removes and bool(found.probed.status.st_mode & _STICKY)


def _is_immutable(found: Mismatch) -> bool:
    return found.answer == errno.EPERM and bool(found.want & WRITE)


def _is_squashed(found: Mismatch) -> bool:
    return not found.is_granted and found.requester.user == _ROOT and _is_on_server(found)


def _has_empty_mask(found: Mismatch) -> bool:
    acl, status = found.probed.resolved.posix, found.probed.status
    return acl is not None and found.is_granted == as_linux(acl).check(
        user=found.requester.user, groups=found.requester.groups, owner=status.st_uid, group=status.st_gid,
        want=found.want)


RULES: Tuple[Rule, ...] = (
    Rule("root", "user 0 passes most lists (capabilities(7), CAP_DAC_OVERRIDE)", _is_root),
    Rule("owner", "servers let the owner read and write whatever the list says (docs/reference/others.md)", _is_owner),
    Rule("read-only", "the mount or the file system is read-only (mount(8))", _is_read_only),
    Rule("noexec", "no file of the mount is executed (mount(8))", _is_noexec),
    Rule("sticky", "in a directory with the sticky bit only owners remove (inode(7))", _is_sticky),
    Rule("immutable", "the object is immutable (chattr(1))", _is_immutable),
    Rule("root squash", "servers take user 0 for nobody (exports(5), root_squash)", _is_squashed),
    Rule("empty mask", "Linux ignores a list with an empty mask (docs/reference/others.md)", _has_empty_mask))
"""The known rules, in the order in which they are tried."""


def rule_of(found: Mismatch) -> Optional[Rule]:
    """Returns the first known rule that explains a difference, or None. Raises OSError."""
    return next((rule for rule in RULES if rule.explains(found)), None)
