"""The scratch directory on an export, and the objects in it. Nothing else of the export is changed."""

from __future__ import annotations

import contextlib
import secrets
from typing import Callable, Dict, Iterator, List, Mapping, NamedTuple, Optional, Tuple

from aclck import NfsAcl
from aclck_tree.output.errors import TreeError
from aclck_tree.output.text import quoted
from aclck_tree.people.people import read_id

from ..asking import undisturbed
from . import operations as nfs
from .operations import Failed
from .people import People
from .rpc import Credentials
from .session import Session
from .vectors import OPEN_TO_OWNER, PASSED_BY_ALL
from .xdr import opaque, word

_INNER = b"inner"
_OUTER_MODE, _INNER_MODE = 0o700, 0o711
_ROOT = 0

Connect = Callable[[], Session]
"""Makes a session, as the user who makes the scratch directory."""


class Object(NamedTuple):
    """A file or a directory: its handle, its owner and its owning group, and its directory and its name there."""

    handle: bytes
    is_directory: bool
    owner: int
    group: int
    place: bytes
    name: bytes


class Scratch:
    """A directory that only its maker enters, and in it one in which the objects are. Requesters reach the objects by
    their handles, and that directory too."""

    def __init__(self, connect: Connect, maker: Credentials, export: str) -> None:
        """Raises TreeError if the export is not reached."""
        self._connect, self._maker = connect, maker
        self._made: Dict[Tuple[bytes, bytes], Optional[bytes]] = {}
        self._name = f".aclck-probe.{secrets.token_hex(16)}"
        self.inner = b""
        path = [nfs.lookup(part.encode("utf-8", "surrogateescape")) for part in export.split("/") if part]
        self.session = connect()
        try:
            with said(f"the export {quoted(export)}"):
                *_, self._export, supported = self.session.make(nfs.ROOT, *path, nfs.GET_HANDLE, nfs.GET_SUPPORTED)
        except BaseException:
            self.session.close()
            raise
        self.keeps_lists = any(nfs.ACL in numbers for numbers in supported)

    def make(self) -> None:
        """Makes the two directories. Raises TreeError."""
        outer = self._directory(self._export, self._name.encode(), _OUTER_MODE, OPEN_TO_OWNER)
        self.inner = self._directory(outer, _INNER, _INNER_MODE, PASSED_BY_ALL)

    def _directory(self, place: bytes, name: bytes, mode: int, acl: NfsAcl) -> bytes:
        with said("the scratch directory"):
            handle = self.new(place, name, True, {nfs.MODE: word(mode)})
            if self.keeps_lists:
                self.set(handle, {nfs.ACL: bytes(acl)})
        return handle

    def new(self, place: bytes, name: bytes, is_directory: bool, values: Mapping[int, bytes] = {}) -> bytes:
        """Makes a file, or a directory with some attributes, and returns its handle. Raises Failed."""
        with self.noted(place, name):
            if is_directory:
                made = self.session.make(nfs.put_handle(place), nfs.create_directory(name, values), nfs.GET_HANDLE)
                handle: bytes = made[-1]
            else:
                handle = self.session.open(self._maker, place, name, nfs.SHARE_WRITE, True)
        self._made[place, name] = handle
        return handle

    @contextlib.contextmanager
    def noted(self, place: bytes, name: bytes) -> Iterator[None]:
        """Notes a name that is removed at the end, before something is made by the second operation of a call: perhaps
        no answer comes."""
        self._made[place, name] = None
        try:
            yield
        except Failed as failed:
            if failed.done < 2:
                del self._made[place, name]
            raise

    def new_object(self, name: bytes, is_directory: bool, people: People) -> Object:
        """Makes an object. If root makes it, its owner and its group become those of `people`. Raises TreeError if that
        fails, or the server sends names in place of ids."""
        with said("a new object"):
            handle = self.new(self.inner, name, is_directory)
        with said("the owner of a new object"):
            if self._maker.user == _ROOT:
                self.set(handle, {nfs.OWNER: opaque(b"%d" % people.owner),
                                  nfs.OWNER_GROUP: opaque(b"%d" % people.group)})
            _, *found = self.session.make(nfs.put_handle(handle), nfs.GET_OWNER, nfs.GET_GROUP)
        owner, group = map(_id_of, found)
        if owner != (self._maker.user or people.owner):
            raise TreeError(f"the owner of a new object: the server says that it is {owner}")
        return Object(handle, is_directory, owner, group, self.inner, name)

    def set(self, handle: bytes, values: Mapping[int, bytes]) -> None:
        """Sets attributes. Raises Failed."""
        self.session.make(nfs.put_handle(handle), nfs.set_attributes(values))

    def remove(self, place: bytes, name: bytes) -> None:
        """Removes a file or an empty directory, if it is there. Raises Failed."""
        _remove(self.session, place, name)
        self._made.pop((place, name), None)

    def close(self) -> None:
        """Removes all that was made, by a new connection, because the old one may have failed. Raises TreeError if that
        fails."""
        self.session.close()
        with undisturbed():
            try:
                if self._made:
                    with contextlib.closing(self._connect()) as session:
                        self._remove_all(session)
            except TreeError as error:
                raise type(error)(f"{self._name} could not be removed: {error}") from None

    def _remove_all(self, session: Session) -> None:
        for (place, name), handle in reversed([*self._made.items()]):
            if place == self._export and handle is not None:
                *_, found = session.make(nfs.put_handle(place), nfs.lookup(name), nfs.GET_HANDLE)
                if found != handle:
                    raise TreeError("it was exchanged for another one")
            elif handle is not None and self.keeps_lists:  # so that the maker may remove what is in it
                with contextlib.suppress(Failed):
                    session.make(nfs.put_handle(handle), nfs.set_attributes({nfs.ACL: bytes(OPEN_TO_OWNER)}))
            _remove(session, place, name)


def _remove(session: Session, place: bytes, name: bytes) -> None:
    try:
        session.make(nfs.put_handle(place), nfs.remove(name))
    except Failed as failed:
        if failed.answer != nfs.NO_ENTRY:
            raise


def _id_of(found: List[bytes]) -> int:
    text = b"".join(found).decode("utf-8", "surrogateescape")
    number = read_id(text)
    if number is None:
        raise TreeError(f"the server sends the name {quoted(text)} in place of an id")
    return number


@contextlib.contextmanager
def said(what: str) -> Iterator[None]:
    """Says at what the server failed."""
    try:
        yield
    except Failed as failed:
        raise TreeError(f"{what}: {failed}") from None
