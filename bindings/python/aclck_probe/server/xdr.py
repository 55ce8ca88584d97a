"""XDR (RFC 4506): words that are sent, and words that are read from what a server sent, each length with a bound."""

from __future__ import annotations

import struct
from typing import Iterable

from aclck_tree.output.errors import DeviceError

WORD = 4


class BadReply(DeviceError):
    """What a server sent is no reply to what it was asked."""


def word(number: int) -> bytes:
    """Returns a number of 32 bits."""
    return struct.pack(">I", number)


def long(number: int) -> bytes:
    """Returns a number of 64 bits."""
    return struct.pack(">Q", number)


def opaque(data: bytes) -> bytes:
    """Returns bytes behind their number, and zero bytes up to a whole word."""
    return word(len(data)) + data + bytes(-len(data) % WORD)


def array(items: Iterable[bytes]) -> bytes:
    """Returns items behind their number."""
    held = [*items]
    return word(len(held)) + b"".join(held)


class Reader:
    """Reads what a server sent from the front. Raises BadReply if it ends too early."""

    def __init__(self, data: bytes) -> None:
        self._data, self._at = data, 0

    def take(self, count: int) -> bytes:
        """Returns some bytes."""
        end = self._at + count
        if end > len(self._data):
            raise BadReply("the server cut its reply short")
        found, self._at = self._data[self._at:end], end
        return found

    def word(self) -> int:
        """Returns a number of 32 bits."""
        return int.from_bytes(self.take(WORD), "big")

    def long(self) -> int:
        """Returns a number of 64 bits."""
        return int.from_bytes(self.take(2 * WORD), "big")

    def count(self, most: int) -> int:
        """Returns the number of what follows. Raises BadReply if it is above `most`."""
        found = self.word()
        if found > most:
            raise BadReply(f"the server sent a length of {found}, and {most} is the longest that it may send here")
        return found

    def opaque(self, most: int) -> bytes:
        """Returns the bytes behind their number. Raises BadReply if there are more than `most`."""
        length = self.count(most)
        return self.take(length + -length % WORD)[:length]

    def rest(self) -> bytes:
        """Returns all that is left."""
        return self.take(len(self._data) - self._at)

    def require_end(self) -> None:
        """Raises BadReply if something is left."""
        if self._at != len(self._data):
            raise BadReply("the server sent more than a reply")
