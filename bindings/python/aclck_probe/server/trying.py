"""Operations that are tried as a requester, on an object whose list decides them."""

from __future__ import annotations

from typing import Any, Callable, List, Tuple

from aclck import ALL, ALLOW, DELETE, Ace, NfsAcl
from aclck_tree.output.errors import TreeError

from . import meanings as asked
from . import operations as nfs
from .meanings import Meaning
from .operations import DENIED, Failed, Operation
from .rpc import Credentials
from .scratch import Object, Scratch, said
from .vectors import NO_FLAGS, OPEN_TO_ALL
from .xdr import word

_OLD, _KEPT, _NEW, _NEW_DIRECTORY = b"old", b"kept", b"new", b"new-directory"
_ROOM = 4096
"""How many bytes of names a server may send."""

_KEEPS = NfsAcl.from_aces([Ace(ALLOW, NO_FLAGS, ALL & ~DELETE, "EVERYONE@")])
"""The list of a file that only its directory lets somebody remove."""

_MODE = 0o777

Try = Tuple[Meaning, Callable[[Credentials], bool]]


class Trial:
    """The operations on one object."""

    def __init__(self, scratch: Scratch, place: Object) -> None:
        self._scratch, self._session, self._object = scratch, scratch.session, place

    def prepare(self, acl: NfsAcl) -> None:
        """Gives the object a list, and a directory files to remove. Takes away what a requester made. Raises
        TreeError."""
        handle = self._object.handle
        with said("the preparation of a trial"):
            if self._object.is_directory:
                self._scratch.set(handle, {nfs.ACL: bytes(OPEN_TO_ALL)})
                for name in (_NEW, _NEW_DIRECTORY, _OLD, _KEPT):
                    self._scratch.remove(handle, name)
                for name, one in ((_OLD, OPEN_TO_ALL), (_KEPT, _KEEPS)):
                    self._scratch.set(self._scratch.new(handle, name, False), {nfs.ACL: bytes(one)})
            self._scratch.set(handle, {nfs.MODE: word(_MODE)})  # before the list, which then decides alone
            self._scratch.set(handle, {nfs.ACL: bytes(acl)})

    def tries(self, acl: NfsAcl) -> List[Try]:
        """Returns the operations, each of which says whether the server does it. Those that may change the list are the
        last ones. They raise TreeError if the server neither does nor denies them."""
        if self._object.is_directory:
            return [self._call(asked.LIST_NAMES, nfs.read_names(_ROOM)), self._call(asked.LOOK_UP, nfs.lookup(_OLD)),
                    (asked.ADD_A_FILE, self._adds_a_file),
                    self._call(asked.ADD_A_DIRECTORY, nfs.create_directory(_NEW_DIRECTORY, {}), _NEW_DIRECTORY),
                    self._call(asked.REMOVE_BY_DELETE, nfs.remove(_OLD)), self._call(asked.REMOVE, nfs.remove(_KEPT))]
        return [self._opens(asked.READ_FILE, nfs.SHARE_READ), self._opens(asked.WRITE_FILE, nfs.SHARE_WRITE),
                self._call(asked.READ_LIST, nfs.GET_LIST),
                self._call(asked.SET_TIME, nfs.set_attributes(nfs.SERVER_TIME)),
                self._call(asked.SET_LIST, nfs.set_attributes({nfs.ACL: bytes(acl)})),
                self._call(asked.SET_MODE, nfs.set_attributes({nfs.MODE: word(_MODE)}))]

    def _call(self, meaning: Meaning, operation: Operation[Any], made: bytes = b"") -> Try:
        """Returns an operation on the object, which may make something of a name."""
        handle = nfs.put_handle(self._object.handle)
        return meaning, lambda who: self._answer(meaning, lambda: self._session.call(who, handle, operation), made)

    def _opens(self, meaning: Meaning, share: int) -> Try:
        place, name = self._object.place, self._object.name
        return meaning, lambda who: self._answer(meaning, lambda: self._session.open(who, place, name, share))

    def _adds_a_file(self, who: Credentials) -> bool:
        handle = self._object.handle
        return self._answer(asked.ADD_A_FILE, lambda: self._session.open(who, handle, _NEW, nfs.SHARE_READ, True), _NEW)

    def _answer(self, meaning: Meaning, call: Callable[[], object], made: bytes = b"") -> bool:
        """Returns whether the server does an operation. Raises TreeError if it neither does nor denies it."""
        try:
            if made:
                with self._scratch.noted(self._object.handle, made):
                    call()
            else:
                call()
        except Failed as failed:
            if failed.answer not in DENIED:
                raise TreeError(f"{meaning.word}: {failed}") from None
            return False
        return True
