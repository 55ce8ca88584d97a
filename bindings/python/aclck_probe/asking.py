"""Asks the system as other users: a process of its own becomes each of them, one after the other."""

from __future__ import annotations

import contextlib
import ctypes
import errno
import os
import select
import signal
import struct
import time
from typing import Callable, Generator, Iterator, NoReturn, Sequence, Tuple

from aclck_tree.output.errors import TreeError
from aclck_tree.scan.handles import OBJECT

from .requesters import Requester

GRANTED = 0
"""The answer of a system that grants. Any other answer is the number of an error."""

DENIED = (errno.EACCES, errno.EPERM, errno.EROFS)
"""The answers of a system that denies."""

_FACCESSAT2 = 439  # its number on all machines that Python and Debian 12 run on
_AT_EACCESS, _AT_EMPTY_PATH = 0x200, 0x1000
_EXISTS = 0
_GET_SECUREBITS, _NO_SETUID_FIXUP = 27, 4  # prctl(2), capabilities(7)
_ROOT, _KEPT = 0, -1

_MOMENT = 0.001  # seconds
_MOMENTS = 1000
"""How long the end of the process is waited for."""

_SIGNALS = (signal.SIGINT, signal.SIGTERM, signal.SIGHUP)

_LIBC = ctypes.CDLL(None, use_errno=True)

Ask = Callable[[], Sequence[int]]
"""Makes all requests as the user that this process is now, and returns the answers."""


def require_root() -> None:
    """Raises TreeError if this process cannot ask as other users, or would keep its capabilities as one of them, or if
    the system has no faccessat2(2), which a filter of system calls may deny (seccomp(2)). Raises OSError."""
    if os.geteuid() != _ROOT or os.getuid() != _ROOT:
        raise TreeError("only root can ask as other users")
    if _LIBC.prctl(_GET_SECUREBITS, 0, 0, 0, 0) & _NO_SETUID_FIXUP:
        raise TreeError("this process would keep its capabilities as another user (capabilities(7), securebits)")
    handle = os.open("/", OBJECT)
    try:
        answer = access(handle, _EXISTS)
    finally:
        os.close(handle)
    if answer != GRANTED:
        raise TreeError(f"the system does not answer faccessat2(2): {os.strerror(answer)}")


def access(handle: int, want: int) -> int:
    """Returns the answer of the system about some permissions of an object (4 r, 2 w, 1 x), for the user that this
    process is now. The object, which is not opened, is that of the handle, wherever its names lead now."""
    if _LIBC.syscall(_FACCESSAT2, handle, b"", want, _AT_EACCESS | _AT_EMPTY_PATH) == 0:
        return GRANTED
    return ctypes.get_errno()


@contextlib.contextmanager
def undisturbed() -> Iterator[None]:
    """Lets the signals that end the program wait."""
    mask = signal.pthread_sigmask(signal.SIG_BLOCK, _SIGNALS)
    try:
        yield
    finally:
        signal.pthread_sigmask(signal.SIG_SETMASK, mask)


def answers(requesters: Sequence[Requester], ask: Ask, count: int, patience: float,
            prepare: Callable[[], None] = lambda: None) -> Generator[Tuple[int, ...], None, None]:
    """Yields the `count` answers to each requester. `prepare` runs before each of them, as root. The process that asks
    is ended if one requester takes more than `patience` seconds.

    Raises TreeError if it takes longer, if the process cannot become a requester, or if it ends early, and OSError.
    """
    with contextlib.ExitStack() as at_end:
        out, into = os.pipe()
        at_end.callback(os.close, out)
        try:
            with undisturbed():
                child = os.fork()
                if child == 0:
                    os.close(out)  # so that it ends when nobody reads its answers
                    _answer(requesters, ask, into, prepare, count)
                at_end.callback(_end, child)
        finally:
            os.close(into)
        for _ in requesters:
            yield _row(out, count, time.monotonic() + patience)


def _answer(requesters: Sequence[Requester], ask: Ask, into: int, prepare: Callable[[], None],
            count: int) -> NoReturn:
    """Writes a row for each requester, and ends this process. It must not return: it is a copy of its parent."""
    try:
        for number in (*_SIGNALS, signal.SIGPIPE):
            signal.signal(number, signal.SIG_DFL)
        signal.pthread_sigmask(signal.SIG_UNBLOCK, _SIGNALS)
        for requester in requesters:
            prepare()
            try:
                _become(requester)
            except OSError as error:
                os.write(into, _packed([-(error.errno or errno.EPERM), *[GRANTED] * (count - 1)]))  # no answers
                break
            found = ask()
            os.setresuid(_KEPT, _ROOT, _KEPT)
            os.write(into, _packed(found))
    finally:
        os._exit(0)


def _become(requester: Requester) -> None:
    """Makes this process one of a user, without capabilities, except for user 0. The real user stays root, so that the
    user cannot send signals to this process. Raises OSError."""
    os.setgroups(requester.groups)
    os.setresgid(_KEPT, requester.own, _KEPT)
    os.setresuid(_KEPT, requester.user, _KEPT)


def _packed(numbers: Sequence[int]) -> bytes:
    return struct.pack(f"{len(numbers)}i", *numbers)


def _row(out: int, count: int, until: float) -> Tuple[int, ...]:
    """Reads the answers to one requester."""
    data = b""
    size = struct.calcsize(f"{count}i")
    poll = select.poll()
    poll.register(out, select.POLLIN)
    while len(data) < size:
        left = until - time.monotonic()
        if left <= 0 or not poll.poll(left * 1000):
            raise TreeError("the system did not answer in time")
        part = os.read(out, size - len(data))
        if not part:
            raise TreeError("the process that asked the system ended early")
        data += part
    found = struct.unpack(f"{count}i", data)
    if found[0] < 0:
        raise TreeError(f"this process cannot become another user: {os.strerror(-found[0])}")
    return found


def _end(child: int) -> None:
    """Ends the process that asks. One that hangs in the kernel ends when the kernel lets it."""
    with contextlib.suppress(OSError):
        os.kill(child, signal.SIGKILL)
    for _ in range(_MOMENTS):
        with contextlib.suppress(OSError):
            if os.waitpid(child, os.WNOHANG) == (0, 0):
                time.sleep(_MOMENT)
                continue
        return
