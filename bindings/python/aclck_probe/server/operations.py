"""The operations of NFSv4.0 that a probe needs (RFC 7530, section 16, and RFC 7531), as they are sent and answered."""

from __future__ import annotations

from dataclasses import dataclass
from typing import Any, Callable, FrozenSet, Generic, List, Mapping, NamedTuple, Sequence, TypeVar

from aclck_tree.output.errors import TreeError

from .xdr import BadReply, Reader, array, long, opaque, word

T = TypeVar("T")

COMPOUND = 1
"""The procedure of all operations."""

READ, LOOKUP, MODIFY, EXTEND, DELETE, EXECUTE = (1 << bit for bit in range(6))
"""The bits of ACCESS (section 16.1)."""

SUPPORTED, ACL, MODE, OWNER, OWNER_GROUP, TIME_SET = 0, 12, 33, 36, 37, 54
"""The numbers of attributes (section 5.8). The last one is time_modify_set."""

SHARE_READ, SHARE_WRITE = 1, 2

OK, DENIED = 0, (13, 1, 30)
"""The status of success, and those of a server that denies: ACCESS, PERM and ROFS."""

REFUSES_LIST = (22, 10004, 10032)
"""The statuses of a server that does not keep a list: INVAL, NOTSUPP and ATTRNOTSUPP (section 6.4.1.2)."""

NO_ENTRY, DELAY, GRACE, EXPIRED, STALE_CLIENT = 2, 10008, 10013, 10011, 10022

_STATUSES: Mapping[int, str] = {
    1: "PERM", 2: "NOENT", 5: "IO", 6: "NXIO", 13: "ACCESS", 17: "EXIST", 18: "XDEV", 20: "NOTDIR", 21: "ISDIR",
    22: "INVAL", 27: "FBIG", 28: "NOSPC", 30: "ROFS", 31: "MLINK", 63: "NAMETOOLONG", 66: "NOTEMPTY", 69: "DQUOT",
    70: "STALE", 10001: "BADHANDLE", 10004: "NOTSUPP", 10005: "TOOSMALL", 10006: "SERVERFAULT", 10007: "BADTYPE",
    10008: "DELAY", 10011: "EXPIRED", 10012: "LOCKED", 10013: "GRACE", 10014: "FHEXPIRED", 10015: "SHARE_DENIED",
    10016: "WRONGSEC", 10017: "CLID_INUSE", 10018: "RESOURCE", 10019: "MOVED", 10020: "NOFILEHANDLE",
    10021: "MINOR_VERS_MISMATCH", 10022: "STALE_CLIENTID", 10023: "STALE_STATEID", 10024: "OLD_STATEID",
    10025: "BAD_STATEID", 10026: "BAD_SEQID", 10032: "ATTRNOTSUPP", 10036: "BADXDR", 10039: "BADOWNER",
    10040: "BADCHAR", 10041: "BADNAME", 10044: "OP_ILLEGAL"}
"""The names of statuses, without `NFS4ERR_` (section 13)."""

_MOST_HANDLE, _MOST_TAG, _MOST_WORDS, _MOST_VALUES = 128, 1024, 8, 1 << 20
_VERIFIER, _STATEID = 8, 16
_DIRECTORY_TYPE = 2


class Failed(TreeError):
    """A server does not do an operation, after it did some. `answer` is the status of the server."""

    def __init__(self, answer: int, done: int) -> None:
        super().__init__(f"the server answers {status_name(answer)}")
        self.answer, self.done = answer, done


def status_name(answer: int) -> str:
    """Returns the name of a status, or its number."""
    return f"NFS4ERR_{_STATUSES[answer]}" if answer in _STATUSES else f"the status {answer}"


@dataclass(frozen=True)
class Operation(Generic[T]):
    """An operation: its number, its arguments, and what reads its result."""

    number: int
    arguments: bytes
    read: Callable[[Reader], T]


def request(operations: Sequence[Operation[Any]]) -> bytes:
    """Returns the arguments of COMPOUND (section 14.2), of minor version 0."""
    return opaque(b"") + word(0) + array(word(one.number) + one.arguments for one in operations)


def results(reply: Reader, operations: Sequence[Operation[Any]]) -> List[Any]:
    """Returns the results of operations. Raises Failed with the status of the one that was not done, and BadReply if
    these are not the results of these operations."""
    status = reply.word()
    reply.opaque(_MOST_TAG)
    count = reply.count(len(operations))
    found: List[Any] = []
    for operation in operations[:count]:
        if reply.word() != operation.number:
            raise BadReply("the server sent the result of another operation")
        answer = reply.word()
        if answer != OK:
            if answer != status or len(found) + 1 != count:
                raise BadReply("the server sent results that disagree")
            raise Failed(answer, len(found))
        found.append(operation.read(reply))
    if status != OK:
        raise Failed(status, len(found))
    if count != len(operations):
        raise BadReply("the server sent too few results")
    reply.require_end()
    return found


def _nothing(_: Reader) -> None:
    return None


def _plain(number: int, arguments: bytes = b"") -> Operation[None]:
    return Operation(number, arguments, _nothing)


ROOT = _plain(24)  # PUTROOTFH


def put_handle(handle: bytes) -> Operation[None]:
    """PUTFH."""
    return _plain(22, opaque(handle))


def lookup(name: bytes) -> Operation[None]:
    """LOOKUP."""
    return _plain(15, opaque(name))


GET_HANDLE: Operation[bytes] = Operation(10, b"", lambda reply: reply.opaque(_MOST_HANDLE))


class Granted(NamedTuple):
    """What ACCESS answers: the bits that the server can verify, and those of them that it grants."""

    supported: int
    granted: int


def access(wanted: int) -> Operation[Granted]:
    """ACCESS."""
    def read(reply: Reader) -> Granted:
        found = Granted(reply.word(), reply.word())
        if found.granted & ~found.supported or found.supported & ~wanted:
            raise BadReply("the server answers ACCESS with bits that it was not asked")
        return found
    return Operation(3, word(wanted), read)


def _bitmap(numbers: Sequence[int]) -> bytes:
    words = [0] * (max(numbers, default=-1) // 32 + 1)
    for number in numbers:
        words[number // 32] |= 1 << number % 32
    return array(map(word, words))


def _numbers(reply: Reader) -> FrozenSet[int]:
    words = [reply.word() for _ in range(reply.count(_MOST_WORDS))]
    return frozenset(32 * place + bit for place, held in enumerate(words) for bit in range(32) if held >> bit & 1)


def attribute(number: int, read: Callable[[Reader], T]) -> Operation[List[T]]:
    """GETATTR of one attribute: a list of its value, or an empty list if the object has none."""
    def values(reply: Reader) -> List[T]:
        found, data = _numbers(reply), Reader(reply.opaque(_MOST_VALUES))
        if found - {number}:
            raise BadReply("the server sent an attribute that it was not asked for")
        value = [read(data) for _ in found]
        data.require_end()
        return value
    return Operation(9, _bitmap([number]), values)


GET_LIST = attribute(ACL, Reader.rest)  # which the library reads
GET_MODE = attribute(MODE, Reader.word)
GET_OWNER = attribute(OWNER, lambda reply: reply.opaque(_MOST_TAG))
GET_GROUP = attribute(OWNER_GROUP, lambda reply: reply.opaque(_MOST_TAG))
GET_SUPPORTED = attribute(SUPPORTED, _numbers)


def attributes(values: Mapping[int, bytes]) -> bytes:
    """Returns the values of attributes as operations send them (section 3.2, fattr4)."""
    numbers = sorted(values)
    return _bitmap(numbers) + opaque(b"".join(values[number] for number in numbers))


SERVER_TIME: Mapping[int, bytes] = {TIME_SET: word(0)}
"""The time of the server, as a time that is set."""

_ANY_STATE = bytes(_STATEID)


def set_attributes(values: Mapping[int, bytes]) -> Operation[FrozenSet[int]]:
    """SETATTR. The result has the attributes that were set."""
    return Operation(34, _ANY_STATE + attributes(values), _numbers)


def _skip_change(reply: Reader) -> None:
    reply.word(), reply.long(), reply.long()


def create_directory(name: bytes, values: Mapping[int, bytes]) -> Operation[FrozenSet[int]]:
    """CREATE of a directory with some attributes."""
    def read(reply: Reader) -> FrozenSet[int]:
        _skip_change(reply)
        return _numbers(reply)
    return Operation(6, word(_DIRECTORY_TYPE) + opaque(name) + attributes(values), read)


def remove(name: bytes) -> Operation[None]:
    """REMOVE."""
    return Operation(28, opaque(name), _skip_change)


def read_names(most: int) -> Operation[None]:
    """READDIR, of which only the status counts."""
    return Operation(26, long(0) + bytes(_VERIFIER) + word(most) + word(most) + word(0), _skip_names)


def _skip_names(reply: Reader) -> None:
    reply.take(_VERIFIER)
    while reply.word():
        reply.long(), reply.opaque(_MOST_TAG), _numbers(reply), reply.opaque(_MOST_VALUES)
    reply.word()


class Client(NamedTuple):
    """What SETCLIENTID answers: a number, and a word by which it is confirmed."""

    number: int
    verifier: bytes


def set_client(name: bytes, verifier: bytes) -> Operation[Client]:
    """SETCLIENTID. The server cannot call back, so it delegates nothing."""
    callback = word(0) + opaque(b"tcp") + opaque(b"0.0.0.0.0.0") + word(0)
    return Operation(35, verifier + opaque(name) + callback,
                     lambda reply: Client(reply.long(), reply.take(_VERIFIER)))


def confirm_client(client: Client) -> Operation[None]:
    """SETCLIENTID_CONFIRM."""
    return _plain(36, long(client.number) + client.verifier)


class Opened(NamedTuple):
    """What OPEN answers: the state, and whether it is to be confirmed."""

    state: bytes
    is_unconfirmed: bool


def open_file(client: Client, owner: bytes, name: bytes, share: int, makes: bool = False) -> Operation[Opened]:
    """OPEN of a file by its name in the directory, which is made if it must be new."""
    how = word(1) + word(1) + attributes({}) if makes else word(0)  # GUARDED4, with no attributes
    owned = long(client.number) + opaque(owner)
    return Operation(18, word(0) + word(share) + word(0) + owned + how + word(0) + opaque(name), _opened)


def _opened(reply: Reader) -> Opened:
    state = reply.take(_STATEID)
    _skip_change(reply)
    flags = reply.word()
    _numbers(reply)
    if reply.word():
        raise BadReply("the server delegates a file to a client that it cannot call back")
    return Opened(state, bool(flags & 2))


def confirm_open(opened: Opened) -> Operation[bytes]:
    """OPEN_CONFIRM. The result is the new state."""
    return Operation(20, opened.state + word(1), lambda reply: reply.take(_STATEID))


def close_file(state: bytes, sequence: int) -> Operation[bytes]:
    """CLOSE."""
    return Operation(4, word(sequence) + state, lambda reply: reply.take(_STATEID))
