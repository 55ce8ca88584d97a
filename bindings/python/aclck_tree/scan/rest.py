"""How long a scan waits for objects at rest, and what a directory says about the names in it."""

from __future__ import annotations

import os
import threading
from typing import Optional

from aclck.rest import LONGEST, SECOND, clock, is_at_rest, left, sleep

PATIENCE = 60 * SECOND
"""For how many nanoseconds one scan waits, all in all, for objects that changed just before they were read."""

MOVED = "changing: names may have come or gone since they were read"


class Patience:
    """How long a scan may still wait for objects at rest. Who changes objects all the time makes a scan slower by that
    much, and no more. Any number of threads can use it."""

    def __init__(self) -> None:
        self._left = PATIENCE
        self._lock = threading.Lock()

    def wait(self, nanoseconds: int) -> bool:
        """Waits, or returns False if it would take more than is left."""
        with self._lock:
            if nanoseconds > self._left:
                return False
            self._left -= nanoseconds
        return sleep(nanoseconds)


def changed_last(handle: int, patience: Patience) -> Optional[int]:
    """Returns when a directory was changed last, after waiting until each later change gets another time. Returns None
    if it is changed all the time, or if nobody can wait that long. Raises OSError."""
    for _ in range(2):
        now, changed = clock(), os.fstat(handle).st_ctime_ns
        if is_at_rest(changed, now):
            return changed
        rest = left(changed)
        if rest > LONGEST or not patience.wait(rest):
            break
    return None
