"""What the answers of a server mean in rights of a list (RFC 7530 and RFC 8881, section 6.2.1.3; ACCESS: section 16.1
of the one, and section 18.1 of the other). What the standard leaves to servers, no list decides."""

from __future__ import annotations

from typing import Mapping, NamedTuple, Optional, Tuple

from aclck import (ADD_FILE, ADD_SUBDIRECTORY, APPEND_DATA, DELETE_CHILD, EXECUTE, LIST_DIRECTORY, READ_ACL,
                   READ_DATA, WRITE_ACL, WRITE_ATTRIBUTES, WRITE_DATA)

from . import operations as nfs


class Meaning(NamedTuple):
    """A request: its word, sets of rights of which each one is enough, and rights of which one is needed, or none."""

    word: str
    enough: Tuple[int, ...]
    needed: int

    def granted_by(self, granted: int) -> Optional[bool]:
        """Whether a list grants this to a requester to whom it grants some rights, or None if that is left to the
        server."""
        if any(granted & rights == rights for rights in self.enough):
            return True
        return False if self.needed and not granted & self.needed else None


def exactly(word: str, right: int) -> Meaning:
    """Returns a request for which one right is both enough and needed."""
    return Meaning(word, (right,), right)


_GROWS = WRITE_DATA | APPEND_DATA
_ADDS = ADD_FILE | ADD_SUBDIRECTORY

ACCESS: Mapping[bool, Mapping[int, Meaning]] = {
    False: {nfs.READ: exactly("READ", READ_DATA),
            nfs.MODIFY: exactly("MODIFY", WRITE_DATA),
            nfs.EXTEND: Meaning("EXTEND", (_GROWS,), _GROWS),
            nfs.EXECUTE: exactly("EXECUTE", EXECUTE)},
    True: {nfs.READ: exactly("READ", LIST_DIRECTORY),
           nfs.LOOKUP: exactly("LOOKUP", EXECUTE),
           nfs.MODIFY: Meaning("MODIFY", (_ADDS | DELETE_CHILD | EXECUTE,), _ADDS | DELETE_CHILD),
           nfs.EXTEND: Meaning("EXTEND", (_ADDS | EXECUTE,), _ADDS),
           nfs.DELETE: Meaning("DELETE", (DELETE_CHILD | EXECUTE,), DELETE_CHILD | ADD_FILE)}}
"""The bits of ACCESS, of files and of directories. A server may ask for EXECUTE of whoever changes a directory."""

READ_FILE = Meaning("read", (READ_DATA,), READ_DATA | EXECUTE)
WRITE_FILE = Meaning("write", (WRITE_DATA,), _GROWS)
READ_LIST = exactly("read the list", READ_ACL)
SET_LIST = exactly("set the list", WRITE_ACL)
SET_MODE = exactly("set the mode", WRITE_ACL)
SET_TIME = Meaning("set the time", (WRITE_DATA, WRITE_ATTRIBUTES), WRITE_DATA | WRITE_ATTRIBUTES)
LIST_NAMES = exactly("list the names", LIST_DIRECTORY)
LOOK_UP = exactly("look up a name", EXECUTE)
ADD_A_FILE = Meaning("add a file", (ADD_FILE | EXECUTE,), ADD_FILE)
ADD_A_DIRECTORY = Meaning("add a directory", (ADD_SUBDIRECTORY | EXECUTE,), ADD_SUBDIRECTORY)
REMOVE = Meaning("remove", (DELETE_CHILD | EXECUTE,), DELETE_CHILD | ADD_FILE)
"""Of a file whose list denies DELETE (section 6.2.1.3.2)."""
REMOVE_BY_DELETE = Meaning("remove by DELETE", (EXECUTE,), 0)
"""Of a file whose list grants DELETE."""
