"""A client of NFSv4.0. The server has a bound of time for each question, and cannot make a call go on beyond it."""

from __future__ import annotations

import secrets
import time
from typing import Any, Callable, List, Optional, Tuple, TypeVar

from aclck_tree.output.errors import DeviceError

from . import operations as nfs
from .operations import Client, Failed, Opened, Operation
from .rpc import LATE, Address, Connection, Credentials

T = TypeVar("T")

_PAUSE, _LONGEST_PAUSE = 0.01, 1.0
"""Seconds between two attempts, at first and later."""


class Session:
    """A connection with a client that opens files."""

    def __init__(self, address: Address, maker: Credentials, seconds: float) -> None:
        """Connects as the user who makes the scratch directory. Raises DeviceError."""
        self._connection = Connection(address, seconds)
        self._maker, self._seconds = maker, seconds
        self._client: Optional[Client] = None

    def close(self) -> None:
        """Closes the connection."""
        self._connection.close()

    def call(self, who: Credentials, *operations: Operation[Any]) -> List[Any]:
        """Does operations, and returns their results. Raises Failed if the server does not do one, and DeviceError if
        it does not answer, or not in time, or puts them off for so long."""
        return self._patiently(lambda until: self._done(who, until, operations))

    def make(self, *operations: Operation[Any]) -> List[Any]:
        """Does operations as the user who makes the scratch directory. Raises Failed and DeviceError."""
        return self.call(self._maker, *operations)

    def open(self, who: Credentials, directory: bytes, name: bytes, share: int, makes: bool = False) -> bytes:
        """Opens a file of a directory, closes it, and returns its handle. Raises Failed and DeviceError."""
        opened, handle = self._patiently(lambda until: self._opened(who, until, directory, name, share, makes))
        state, sequence = opened.state, 1
        try:
            if opened.is_unconfirmed:
                _, state = self.call(who, nfs.put_handle(handle), nfs.confirm_open(opened))
                sequence = 2
            self.call(who, nfs.put_handle(handle), nfs.close_file(state, sequence))
        except Failed as failed:  # after OPEN, which may have made the file
            raise DeviceError(f"an open file: {failed}") from None
        return handle

    def _opened(self, who: Credentials, until: float, directory: bytes, name: bytes, share: int,
                makes: bool) -> Tuple[Opened, bytes]:
        if self._client is None:
            self._client = self._new_client(until)
        owner = secrets.token_bytes(8)  # of this attempt alone, so that the first number of its sequence is known
        operation = nfs.open_file(self._client, owner, name, share, makes)
        _, opened, handle = self._done(who, until, (nfs.put_handle(directory), operation, nfs.GET_HANDLE))
        return opened, handle

    def _new_client(self, until: float) -> Client:
        client: Client
        [client] = self._done(self._maker, until, (nfs.set_client(secrets.token_bytes(16), secrets.token_bytes(8)),))
        self._done(self._maker, until, (nfs.confirm_client(client),))
        return client

    def _done(self, who: Credentials, until: float, operations: Tuple[Operation[Any], ...]) -> List[Any]:
        reply = self._connection.call(who, nfs.COMPOUND, nfs.request(operations), until)
        return nfs.results(reply, operations)

    def _patiently(self, attempt: Callable[[float], T]) -> T:
        """Returns what an attempt returns. While the server puts it off, or has forgotten the client, it is made again
        within the bound of time."""
        until, pause = time.monotonic() + self._seconds, _PAUSE
        while True:
            try:
                return attempt(until)
            except Failed as failed:
                if failed.answer in (nfs.EXPIRED, nfs.STALE_CLIENT):
                    self._client = None
                elif failed.answer not in (nfs.DELAY, nfs.GRACE):
                    raise
                if time.monotonic() + pause >= until:
                    raise DeviceError(f"{LATE}: it puts off its answer by {nfs.status_name(failed.answer)}") from None
            time.sleep(pause)
            pause = min(2 * pause, _LONGEST_PAUSE)
