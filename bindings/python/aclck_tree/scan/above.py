"""Reads the directories above the root of a tree: each is opened from the one above it, by one name, and a link is
never followed."""

from __future__ import annotations

import os
from typing import List, Optional, Tuple

from aclck.rest import CHANGING, clock, is_at_rest, is_same

from aclck_tree.scan.handles import OBJECT
from aclck_tree.scan.reader import Reader, ScanOptions, reason_of
from aclck_tree.snapshot.others import UNREAD
from aclck_tree.snapshot.snapshot import Above

_MOVED = "another object has this name now"

_MOST_READINGS = 10
"""How often a directory is read whose owner, mode or list changes while it is read."""


def read_above(place: bytes, root: Tuple[int, int], options: ScanOptions) -> List[Above]:
    """Returns the directories above a place, from `/` down. `root` is the device and inode of what was opened there. If
    a directory cannot be read, or another object is at the place now, the message says so."""
    names = place.split(b"/")[1:] if place != b"/" else []
    reader = Reader(b"/", options)
    handle = os.dup(reader.root_handle)
    found: List[Above] = []
    try:
        for at, name in enumerate(names):
            found.append(_read(reader, handle, b"/" + b"/".join(names[:at])))
            below = os.open(name, OBJECT | (os.O_DIRECTORY if at + 1 < len(names) else 0), dir_fd=handle)
            os.close(handle)
            handle = below
        if names and _identity(handle) != root:
            found[-1] = Above(found[-1].path, message=_MOVED)
    except OSError as error:  # nothing is known of the directories from here on, nor whether the last one read is above
        found = [*found[:-1], *(Above(b"/" + b"/".join(names[:at]), message=reason_of(error))
                                for at in range(len(found) - 1, len(names)))]
    finally:
        os.close(handle)
        reader.close()
    return found


def _identity(handle: int) -> Tuple[int, int]:
    status = os.fstat(handle)
    return status.st_dev, status.st_ino


def _read(reader: Reader, handle: int, path: bytes) -> Above:
    """Reads one directory. Each new name in it changes it, as in /tmp, so it may never be at rest. Then nobody waits:
    what is read twice in a row counts, if the owner, the group and the mode were the same before and after each."""
    before: Optional[Above] = None
    try:
        for _ in range(_MOST_READINGS):
            now, status = clock(), os.fstat(handle)
            stored, other = reader.read_list(handle, status, path)
            found = (Above(path, message=f"{UNREAD}: {other}") if other else
                     Above(path, status.st_uid, status.st_gid, stored))
            after = os.fstat(handle)
            is_kept = (status.st_mode, status.st_uid, status.st_gid) == (after.st_mode, after.st_uid, after.st_gid)
            if is_kept and found == before or is_same(status, after) and is_at_rest(status.st_ctime_ns, now):
                return found
            before = found if is_kept else None
    except OSError as error:
        return Above(path, message=reason_of(error))
    return Above(path, message=CHANGING)
