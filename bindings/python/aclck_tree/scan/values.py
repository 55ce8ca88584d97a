"""Reads lists that are not in the form of `system.nfs4_acl`: the attributes of other systems."""

from __future__ import annotations

import functools
import re
import struct
from typing import Dict, List, NamedTuple, Optional, Tuple

from aclck import ALLOW, Ace, AceFlag, ListFlag, ListForm, NfsAcl, Refused

from aclck_tree.answer.lists import AceType, Piece, asked_nfs, decoded, joined, pieces
from aclck_tree.people.accounts import System
from aclck_tree.snapshot import snapshot
from aclck_tree.snapshot.snapshot import StoredList

FORMS = {"system.nfs4_dacl": ListForm.NFS_ACL41, "security.nfs4acl_xdr": ListForm.NFS_ACL41_IDS,
         "system.nfs4_acl_xdr": ListForm.NFS_ACL41_IDS}
"""The forms of attributes. Any other attribute has the form of `system.nfs4_acl`."""

_SPECIAL = {4: b"INTERACTIVE@", 5: b"NETWORK@", 6: b"DIALUP@", 7: b"BATCH@", 8: b"ANONYMOUS@", 9: b"AUTHENTICATED@",
            10: b"SERVICE@"}
"""The special identifiers that the library refuses (RFC 8881, section 6.2.1.5), by their numbers in Samba's
attribute."""

_ID = re.compile(rb"0|[1-9][0-9]{0,9}")
_EVERYONE = 3
_FLAGS = 4  # bytes
_IDS = struct.Struct(">IIIII")
"""An ACE of Samba's attribute: its type, its flags, 1 for a special identifier, its mask, and its number or id."""


def read_value(attribute: str, value: bytes, accounts: System) -> StoredList:
    """Returns the list of an attribute. Ids get the names of accounts. A value that is no list is one that the scan
    refused."""
    form = FORMS.get(attribute)
    if form is None:
        return StoredList(snapshot.StoredForm.NFS4, 0, value, None)
    try:
        data, flags = _read(value, form)
        if form is ListForm.NFS_ACL41:
            return StoredList(snapshot.StoredForm.NFS4, int(flags), data, None)
        return StoredList(snapshot.StoredForm.ACCOUNTS, int(flags), with_names(data, accounts), None)
    except Refused as refused:
        return refused_value(attribute, value, str(refused))


def refused_value(attribute: str, value: bytes, reason: str) -> StoredList:
    """Returns a value that the scan refuses, with the reason."""
    line = f"{attribute}: {reason}".encode("utf-8", "surrogateescape")
    return StoredList(snapshot.StoredForm.REFUSED, 0, value, line)


def _read(value: bytes, form: ListForm) -> Tuple[bytes, ListFlag]:
    """Returns the bytes of the list that a value spells, and the flags of the list. The list may have what the library
    refuses and `ready` takes: AUDIT and ALARM ACEs, and special identifiers. Raises Refused, with the offset in the
    value."""
    try:
        acl, flags = NfsAcl.from_form(value, form)
        return bytes(acl), flags
    except Refused as refused:
        if refused.reason not in ("AuditOrAlarm", "SpecialWho"):
            raise
    flags = ListFlag(int.from_bytes(value[:_FLAGS], "big"))  # which are judged before any ACE is
    return (_dacl(value) if form is ListForm.NFS_ACL41 else _with_ids(value)), flags


def _dacl(value: bytes) -> bytes:
    """Returns the list behind the flags."""
    data = value[_FLAGS:]
    try:
        asked_nfs(data)
    except Refused as refused:
        raise Refused(refused.reason, offset=(refused.offset or 0) + _FLAGS) from None
    return data


class _Hidden(NamedTuple):
    """What an ACE has where the library was given something else."""

    kind: int
    who: Optional[bytes]


def _with_ids(value: bytes) -> bytes:
    """Returns the list of a value with ids. The library judges the value with ALLOW in place of AUDIT and ALARM, and
    with EVERYONE@ in place of special identifiers: so all else is judged, at its own place."""
    data = bytearray(value)
    hidden: Dict[int, _Hidden] = {}
    for place, at in enumerate(range(2 * _FLAGS, len(value) - _IDS.size + 1, _IDS.size)):
        kind, flags, is_special, mask, who = _IDS.unpack_from(value, at)
        name = _SPECIAL.get(who) if is_special == 1 else None
        decides = kind not in (AceType.AUDIT, AceType.ALARM)
        if name or not decides:
            hidden[place] = _Hidden(kind, name)
            _IDS.pack_into(data, at, kind if decides else AceType.ALLOW, flags, is_special, mask,
                           _EVERYONE if name else who)
    found = pieces(bytes(NfsAcl.from_form(bytes(data), ListForm.NFS_ACL41_IDS)[0]))
    return joined([_shown(piece, hidden.get(place)) for place, piece in enumerate(found)])


def _shown(piece: Piece, hidden: Optional[_Hidden]) -> Piece:
    return piece._replace(kind=hidden.kind, who=hidden.who or piece.who) if hidden else piece


def with_names(data: bytes, accounts: System) -> bytes:
    """Returns a list with the names of accounts in place of ids. An id without an account stays in digits."""
    whos: Dict[Tuple[bool, bytes], Optional[bytes]] = {}
    found: List[Piece] = []
    for piece in pieces(data):
        key = piece.is_group, piece.who
        if key not in whos and _ID.fullmatch(piece.who):
            whos[key] = accounts.name_of(piece.is_group, int(piece.who))
        name = whos.get(key)
        found.append(piece._replace(who=name) if name and _is_who(name) else piece)
    return joined(found)


@functools.lru_cache(maxsize=1 << 16)
def _is_who(name: bytes) -> bool:
    """Whether a list can have a name."""
    try:
        return bool(NfsAcl.from_aces([Ace(ALLOW, AceFlag(0), 0, decoded(name))]))
    except Refused:
        return False
