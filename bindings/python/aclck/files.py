"""The attributes of files that hold POSIX ACLs, read as they were at one time."""

from __future__ import annotations

import errno
import os
import stat
from typing import Optional, Tuple

from . import rest
from ._library import File

ACCESS, DEFAULT = "system.posix_acl_access", "system.posix_acl_default"


def at_one_time(file: File) -> Tuple[Optional[bytes], Optional[bytes], int]:
    """Returns both attributes of a file and its mode, all read from one handle: a name may lead to another file at
    another time."""
    if isinstance(file, int):
        return _read(file, file)
    handle = os.open(file, os.O_PATH)
    try:
        return _read(handle, f"/proc/self/fd/{handle}")
    except OSError as error:
        raise OSError(error.errno, error.strerror, file) from None
    finally:
        os.close(handle)


def _read(handle: int, place: File) -> Tuple[Optional[bytes], Optional[bytes], int]:
    """Returns the attributes and the mode of a file that a handle has. `place` is where its attributes are read."""
    def attributes(status: os.stat_result) -> Tuple[Optional[bytes], Optional[bytes]]:
        access = _attribute(place, ACCESS)
        return access, _attribute(place, DEFAULT) if stat.S_ISDIR(status.st_mode) else None
    status, (access, default) = rest.at_one_time(handle, attributes)
    return access, default, status.st_mode


def _attribute(file: File, name: str) -> Optional[bytes]:
    try:
        return os.getxattr(file, name)
    except OSError as error:
        if error.errno not in (errno.ENODATA, errno.ENOTSUP):
            raise
    return None


def remove_attribute(file: File, name: str) -> None:
    try:
        os.removexattr(file, name)
    except OSError as error:
        if error.errno != errno.ENODATA:
            raise
