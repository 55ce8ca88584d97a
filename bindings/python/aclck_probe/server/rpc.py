"""Calls of ONC RPC (RFC 5531) over TCP, as a user of AUTH_SYS. A server cannot make a call last longer than its bound,
and cannot make it take more memory than the longest reply."""

from __future__ import annotations

import contextlib
import os
import secrets
import socket
import struct
import time
from typing import NamedTuple, Tuple

from aclck_tree.output.errors import DeviceError

from .xdr import WORD, BadReply, Reader, array, opaque, word

LONGEST = 1 << 20
"""How many bytes a reply may have. A reply has one list of this program at most, which is shorter."""

_CALL, _REPLY = 0, 1
_RPC_VERSION, _NFS, _NFS_VERSION = 2, 100003, 4
_AUTH_NONE, _AUTH_SYS = 0, 1
_MOST_VERIFIER = 400  # RFC 5531, section 8.2
_LAST = 1 << 31
"""The mark of the last part of a record (RFC 5531, section 11)."""

_RESERVED = range(1023, 664, -1)
"""The ports from which servers expect root (exports(5), secure)."""

LATE = "the server did not answer in time"


class Address(NamedTuple):
    """Where a server is, and what it exports."""

    host: str
    port: int
    export: str


class Credentials(NamedTuple):
    """The user, the group and the other groups of a call by AUTH_SYS."""

    user: int
    group: int
    groups: Tuple[int, ...] = ()

    def encoded(self) -> bytes:
        """Returns the credentials as a call has them (RFC 5531, section 8.2 and appendix A)."""
        body = [word(0), opaque(b"aclck-probe"), word(self.user), word(self.group), array(map(word, self.groups))]
        return word(_AUTH_SYS) + opaque(b"".join(body))


class Connection:
    """A connection to a server. After an error it is of no use."""

    def __init__(self, address: Address, seconds: float) -> None:
        """Connects. Raises DeviceError if that fails or takes too long."""
        try:
            self._socket = _connected(address, time.monotonic() + seconds)
        except TimeoutError:
            raise DeviceError(LATE) from None
        except (OSError, UnicodeError) as error:
            raise DeviceError(f"no connection to the server: {getattr(error, 'strerror', None) or error}") from None

    def close(self) -> None:
        """Closes the connection."""
        self._socket.close()

    def call(self, who: Credentials, procedure: int, body: bytes, until: float) -> Reader:
        """Calls a procedure of NFSv4, and returns what it answers. Raises DeviceError if there is no answer until a
        time, or it is no answer to this call."""
        number = secrets.randbits(32)
        head = [number, _CALL, _RPC_VERSION, _NFS, _NFS_VERSION, procedure]
        sent = b"".join([*map(word, head), who.encoded(), word(_AUTH_NONE), opaque(b""), body])
        try:
            self._wait(until)
            self._socket.sendall(word(_LAST | len(sent)) + sent)
            record = self._record(until)
        except TimeoutError:
            raise DeviceError(LATE) from None
        except OSError as error:
            raise DeviceError(f"the connection to the server failed: {error.strerror or error}") from None
        return _accepted(Reader(record), number)

    def _wait(self, until: float) -> None:
        """Bounds how long the next part of a call may take."""
        left = until - time.monotonic()
        if left <= 0:
            raise TimeoutError
        self._socket.settimeout(left)

    def _record(self, until: float) -> bytes:
        found = bytearray()
        while True:
            mark, = struct.unpack(">I", self._bytes(WORD, until))
            if len(found) + (mark & ~_LAST) > LONGEST:
                raise BadReply(f"the server sent a reply of more than {LONGEST} bytes")
            found += self._bytes(mark & ~_LAST, until)
            if mark & _LAST:
                return bytes(found)

    def _bytes(self, count: int, until: float) -> bytes:
        found = bytearray()
        while len(found) < count:
            self._wait(until)
            part = self._socket.recv(count - len(found))
            if not part:
                raise BadReply("the server ended the connection")
            found += part
        return bytes(found)


def _connected(address: Address, until: float) -> socket.socket:
    """Connects to the first place of a server that answers. Raises OSError and UnicodeError."""
    last: OSError = OSError("the name of the server has no address")
    for family, kind, protocol, _, place in socket.getaddrinfo(address.host, address.port, type=socket.SOCK_STREAM):
        made = socket.socket(family, kind, protocol)
        try:
            made.settimeout(max(0.001, until - time.monotonic()))
            if os.geteuid() == 0:
                _bind_reserved(made)
            made.connect(place)
            return made
        except OSError as error:
            made.close()
            last = error
        except BaseException:
            made.close()
            raise
    raise last


def _bind_reserved(made: socket.socket) -> None:
    """Takes a port of root, if one is free."""
    for port in _RESERVED:
        with contextlib.suppress(OSError):
            made.bind(("", port))
            return


def _accepted(reply: Reader, number: int) -> Reader:
    """Returns what follows the head of a reply. Raises BadReply if it is the reply of another call, and DeviceError if
    the server refuses the call."""
    if (reply.word(), reply.word()) != (number, _REPLY):
        raise BadReply("the server sent the reply of another call")
    if reply.word():  # MSG_DENIED
        raise DeviceError("the server refuses AUTH_SYS" if reply.word() else "the server has another version of RPC")
    reply.word(), reply.opaque(_MOST_VERIFIER)
    if status := reply.word():
        raise DeviceError(f"the server does not answer NFSv4: accept_stat {status} (RFC 5531)")
    return reply
