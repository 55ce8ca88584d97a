"""Reads what must have been true at one time. The time of the last change (ctime) says whether an object changed, but
it is no finer than a tick of the clock of the kernel, and on some file systems no finer than a second. So two changes
can leave the same time, and an object is at rest only if its last change is older than that. All times are in
nanoseconds."""

from __future__ import annotations

import errno
import os
import time
from typing import Callable, Optional, Tuple, TypeVar

T = TypeVar("T")

SECOND = 10**9
LONGEST = 8 * SECOND
"""How long one object is waited for."""

_CLOCK = 5
"""CLOCK_REALTIME_COARSE (clock_gettime(2)): the clock from which file systems take the time of a change."""

_TICK = round(time.clock_getres(_CLOCK) * SECOND)

_GRAINS: Tuple[int, ...] = (2 * SECOND, *(10**power for power in range(9, -1, -1)))
"""How fine the times of file systems may be: FAT has two seconds, ext3 one, and others fractions."""

_MOST_READINGS = 50
"""How often an object is read that changes while it is read."""

CHANGING = "changing: its owner, mode or list changed whenever it was read, or just before"
AHEAD = "changing: its last change is later than the clock of this system says"


def clock() -> int:
    """Returns the time. Every change from now on gets this time or a later one, cut to a grain."""
    return time.clock_gettime_ns(_CLOCK)


def _settled(changed: int) -> int:
    """Returns the time from which on an object is at rest that was changed last at some time: whatever is changed then
    gets another time. A time that is a whole number of seconds may be one of a file system with coarse times."""
    return changed + _TICK + next(grain for grain in _GRAINS if changed % grain == 0)


def is_at_rest(changed: int, now: int) -> bool:
    """Whether an object that was changed last at some time was at rest at another one."""
    return now - changed >= _GRAINS[0] + _TICK or now >= _settled(changed)


def left(changed: int) -> int:
    """Returns how long to wait for an object that was changed last at some time: after that, `clock` says a time at
    which it is at rest. `clock` may be late by a tick."""
    return max(0, _settled(changed) - clock() + _TICK)


def sleep(nanoseconds: int) -> bool:
    """Waits, and returns True."""
    time.sleep(nanoseconds / SECOND)
    return True


def at_one_time(handle: int, read: Callable[[os.stat_result], T], first: Optional[Tuple[int, os.stat_result]] = None,
                wait: Callable[[int], bool] = sleep) -> Tuple[os.stat_result, T]:
    """Returns the status of the object of a handle and what `read` reads of it, as both were at one time: the mode of
    one time and the list of another may grant what the object never granted. `first` is a status that was read before,
    and what `clock` said before that. `wait` waits, or returns False if it is too long.

    Raises OSError if the object is never at rest: if it is changed all the time, by whomever, also if only its content
    is.
    """
    waited = 0
    for _ in range(_MOST_READINGS):
        now, status = first or (clock(), os.fstat(handle))
        value, after = read(status), os.fstat(handle)
        if _decisive(status) == _decisive(after) and is_at_rest(after.st_ctime_ns, now):
            return status, value
        rest = left(after.st_ctime_ns)
        if rest > LONGEST:
            raise OSError(errno.EBUSY, AHEAD)
        waited += rest
        if waited > LONGEST or rest > 0 and not wait(rest):
            break
        first = None
    raise OSError(errno.EBUSY, CHANGING)


def is_same(one: os.stat_result, other: os.stat_result) -> bool:
    """Whether two statuses of an object have the same owner, group, mode and time of the last change."""
    return _decisive(one) == _decisive(other)


def _decisive(status: os.stat_result) -> Tuple[int, int, int, int]:
    """Returns what of the status of an object a list is asked with, and when it was changed last."""
    return status.st_mode, status.st_uid, status.st_gid, status.st_ctime_ns
