"""What the mount of an object decides about its lists: whether the file system has lists of its own that no attribute
here shows, and whether the ids of an attribute are other ones here than on the disk."""

from __future__ import annotations

import contextlib
import ctypes
import os
from typing import Dict, Optional, Tuple

LISTS = frozenset((
    "security.NTACL", "user.NTACL",  # Samba (vfs_acl_xattr(8))
    "system.cifs_acl", "system.cifs_ntsd", "system.cifs_ntsd_full", "system.smb3_acl", "system.smb3_ntsd",
    "system.smb3_ntsd_full", "system.ntfs_acl", "system.ntfs_security", "system.richacl", "trusted.SGI_ACL_FILE",
    "trusted.SGI_ACL_DEFAULT", "afs.acl", "afs.yfs.acl"))
"""The attributes with lists that are not read."""

_FILE_SYSTEMS = {
    0xFF534D42: "cifs", 0xFE534D42: "cifs", 0x517B: "smbfs", 0x5346544E: "ntfs", 0x7366746E: "ntfs3",
    0x5346414F: "afs", 0x6B414653: "afs", 0x73757245: "coda", 0x47504653: "gpfs", 0x564C: "ncpfs"}
"""File systems that decide by lists of their own, by their numbers (statfs(2), linux/magic.h). The mode of an object is
then made up, or does not decide alone."""

_FUSE, _NTFS_BY_FUSE = 0x65735546, "system.ntfs_acl"
"""A file system of a program may be NTFS: ntfs-3g then shows this attribute."""

_IDENTITY = ("0", "0", "4294967295")

_LIBC = ctypes.CDLL(None, use_errno=True)
_ROOM = 512  # bytes: more than struct statfs has anywhere


def kind_of(handle: int) -> int:
    """Returns the number of the kind of file system that an object is on. Raises OSError."""
    found = ctypes.create_string_buffer(_ROOM)
    if _LIBC.fstatfs(handle, found):
        number = ctypes.get_errno()
        raise OSError(number, os.strerror(number))
    return ctypes.c_ulong.from_buffer(found).value & 0xFFFFFFFF


def mount_of(handle: int) -> bytes:
    """Returns the number of the mount that an object is on (proc(5), /proc/PID/fdinfo). Raises OSError."""
    with open(f"/proc/self/fdinfo/{handle}", "rb") as file:
        return next(line.split()[1] for line in file if line.startswith(b"mnt_id:"))


class Mounts:
    """The mounts that a scan meets. Each is asked once. Any number of threads can use it."""

    def __init__(self) -> None:
        self._systems: Dict[int, Optional[str]] = {}  # by the number of the device
        self._maps: Dict[bytes, bool] = {}  # by the number of the mount
        self._has_own_ids = any(_words(f"/proc/self/{name}_map") != _IDENTITY for name in ("uid", "gid"))

    def another(self, handle: int, device: int) -> Optional[str]:
        """Returns the name of the file system that an object is on if it has lists of its own, or None. Raises
        OSError."""
        if device not in self._systems:
            kind = kind_of(handle)
            is_ntfs = kind == _FUSE and _has(handle, _NTFS_BY_FUSE)
            self._systems[device] = "ntfs" if is_ntfs else _FILE_SYSTEMS.get(kind)
        return self._systems[device]

    def has_other_ids(self, handle: int) -> bool:
        """Whether the ids of an attribute that the kernel does not know are other ones here than on the disk, or may
        be: on a mount that maps ids (mount_setattr(2)), and in a user namespace that does (user_namespaces(7)). Raises
        OSError."""
        if self._has_own_ids:
            return True
        mount = mount_of(handle)
        if mount not in self._maps:
            self._maps[mount] = _maps_ids(mount)
        return self._maps[mount]


def _maps_ids(mount: bytes) -> bool:
    """Whether a mount maps ids. A mount that this process does not see may do so."""
    with open("/proc/self/mountinfo", "rb") as file:
        options = next((words[5] for words in map(bytes.split, file) if words[0] == mount), b"idmapped")
    return b"idmapped" in options.split(b",")


def _has(handle: int, name: str) -> bool:
    with contextlib.suppress(OSError):
        os.getxattr(f"/proc/self/fd/{handle}", name)
        return True
    return False


def _words(place: str) -> Tuple[str, ...]:
    with open(place, encoding="ascii") as file:
        return tuple(file.read().split())
