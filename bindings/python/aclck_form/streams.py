"""Files and the standard streams of a program: all bytes that it reads and writes."""

from __future__ import annotations

import contextlib
import os
import stat

from aclck_tree.output.errors import DeviceError, TreeError
from aclck_tree.output.files import is_pipe_without_name
from aclck_tree.output.text import quoted, quoted_line

LONGEST = 1 << 27
"""How many bytes are read at most. Each value that a program writes is shorter: a list has at most 65,536 ACEs."""

SHORTER = 1 << 24
"""How many bytes a POSIX ACL, and a file of names, may have: each of them takes up to 50 times as much memory."""


def read(handle: int) -> bytes:
    """Returns the bytes of an open file, up to its end. Raises TreeError if there are more than any list has, and
    OSError."""
    data = bytearray()
    while part := os.read(handle, 1 << 20):
        data += part
        if len(data) > LONGEST:
            raise TreeError(f"more than {LONGEST} bytes")
    return bytes(data)


def read_file(path: str, what: str) -> bytes:
    """Returns the bytes of a file. Raises TreeError, which says `what` it has, if it is something that may never end,
    such as a device or a FIFO, and OSError. A pipe without a name, such as that of `<(..)`, is open already."""
    with open(path, "rb", buffering=0, opener=_opened) as file:
        handle = file.fileno()
        if not stat.S_ISREG(os.fstat(handle).st_mode) and not is_pipe_without_name(handle):
            raise TreeError(f"{quoted(path)}: {what} in no regular file")
        os.set_blocking(handle, True)
        return read(handle)


def _opened(path: str, flags: int) -> int:
    return os.open(path, flags | os.O_NONBLOCK | os.O_NOCTTY)


def short(data: bytes) -> bytes:
    """Returns a POSIX ACL, or a file of names. Raises TreeError if it is longer than any that is used."""
    if len(data) > SHORTER:
        raise TreeError(f"more than {SHORTER} bytes")
    return data


def write(data: bytes) -> None:
    """Writes bytes to standard output. Raises DeviceError if that fails."""
    try:
        while data:
            data = data[os.write(1, data):]
    except OSError:
        raise DeviceError("write failed") from None


def tell(program: str, line: str) -> None:
    """Writes a line of a program to standard error, if that can be written."""
    with contextlib.suppress(OSError):
        os.write(2, f"{program}: {quoted_line(line)}\n".encode())
