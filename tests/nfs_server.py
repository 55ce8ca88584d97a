"""A small server of NFSv4.0 for tests/probe_server (RFC 7530), which keeps lists in memory and answers by them as the
library does, with the mode and the inheritance of the library. A test changes one of its methods, and so makes it lie in
one place. It serves one connection at a time on the loopback device."""
import socket
import struct
import threading

import aclck
from aclck import NfsAcl

READ, WRITE, APPEND, EXECUTE, DELETE_CHILD = 1, 2, 4, 0x20, 0x40
WRITE_ATTRIBUTES, DELETE, READ_ACL, WRITE_ACL = 0x100, 0x10000, 0x20000, 0x40000
OK, NOENT, ACCESS, EXIST, NOTEMPTY, INVAL, GRACE, DELAY = 0, 2, 13, 17, 66, 22, 10013, 10008
ALL_BITS = (1, 2, 4, 8, 16, 32)
BITS = {False: {1: READ, 4: WRITE, 8: APPEND, 32: EXECUTE},
        True: {1: READ, 2: EXECUTE, 4: DELETE_CHILD, 8: WRITE, 16: DELETE_CHILD}}
"""The rights of the bits of ACCESS, of files and of directories (RFC 7530, section 16.1)."""


class Cut(Exception):
    """A request ends early."""


class Words:
    """Reads a request."""

    def __init__(self, data):
        self.data = data

    def take(self, count):
        if count > len(self.data):
            raise Cut
        found, self.data = self.data[:count], self.data[count:]
        return found

    def word(self):
        return int.from_bytes(self.take(4), "big")

    def long(self):
        return int.from_bytes(self.take(8), "big")

    def opaque(self):
        count = self.word()
        return self.take(count + -count % 4)[:count]

    def numbers(self):
        words = [self.word() for _ in range(self.word())]
        return [32 * place + bit for place, one in enumerate(words) for bit in range(32) if one >> bit & 1]


def word(*numbers):
    return struct.pack(f">{len(numbers)}I", *numbers)


def opaque(data):
    return word(len(data)) + data + bytes(-len(data) % 4)


def bitmap(*numbers):
    words = [sum(1 << one % 32 for one in numbers if one // 32 == place) for place in (0, 1)]
    return word(2, *words)


class Failure(Exception):
    """A status that is not OK."""


class Object:
    """A file or a directory."""

    def __init__(self, is_directory, user, group, acl):
        self.children = {} if is_directory else None
        self.owner, self.group, self.acl, self.mode = user, group, acl, acl.mode

    @property
    def is_directory(self):
        return self.children is not None


EVERYBODY = NfsAcl.from_text("ALLOW - READ_DATA|WRITE_DATA|APPEND_DATA|EXECUTE|DELETE_CHILD|READ_ACL|WRITE_ACL EVERYONE@\n")


class Server:
    """A server with an export `/export`."""

    CHANGE = word(1) + bytes(16)

    def __init__(self):
        self.root = Object(True, 0, 0, EVERYBODY)
        self.root.children[b"export"] = self.export = Object(True, 0, 0, EVERYBODY)
        self.objects = [self.root, self.export]
        self.calls, self.seen = 0, []
        self.listener = socket.create_server(("127.0.0.1", 0))
        self.port = self.listener.getsockname()[1]
        self.thread = threading.Thread(target=self.serve, daemon=True)
        self.thread.start()

    def stop(self):
        self.listener.shutdown(socket.SHUT_RDWR)
        self.listener.close()
        self.thread.join(10)

    # The transport (RFC 5531).

    def serve(self):
        while True:
            try:
                connection = self.listener.accept()[0]
            except OSError:
                return
            with connection:
                try:
                    while True:
                        self.talk(connection)
                except (OSError, Cut):
                    pass

    def talk(self, connection):
        """Reads a call and answers it."""
        mark = int.from_bytes(self.read(connection, 4), "big")
        assert mark >> 31, "the client sends calls in one part"
        call = Words(self.read(connection, mark & 0x7fffffff))
        number, kind, *head = [call.word() for _ in range(6)]
        assert (kind, head) == (0, [2, 100003, 4, 1]), head
        assert call.word() == 1, "AUTH_SYS"
        who = Words(call.opaque())
        who.word(), who.opaque()
        self.user, self.gid = who.word(), who.word()
        self.groups = [self.gid, *(who.word() for _ in range(who.word()))]
        assert (call.word(), call.opaque()) == (0, b"")
        self.calls += 1
        self.send(connection, word(number, 1, 0, 0, 0, 0) + self.compound(call))

    @staticmethod
    def read(connection, count):
        data = b""
        while len(data) < count:
            part = connection.recv(count - len(data))
            if not part:
                raise Cut
            data += part
        return data

    def send(self, connection, reply):
        connection.sendall(word(1 << 31 | len(reply)) + reply)

    # Compounds, and the operations by their numbers (RFC 7530, section 16).

    def compound(self, call):
        call.opaque()
        assert call.word() == 0, "the minor version"
        self.current, done, status = None, [], OK
        for _ in range(call.word()):
            number = call.word()
            try:
                result = getattr(self, f"op_{number}")(call)
            except Failure as failure:
                status = failure.args[0]
                done.append(word(number, status))
                break
            done.append(word(number, OK) + result)
        return word(status) + opaque(b"") + word(len(done)) + b"".join(done)

    def need(self, right, target=None):
        if not self.granted(target or self.current) & right == right:
            raise Failure(ACCESS)

    def granted(self, target):
        """Returns the rights of who calls. User 0 has all."""
        if self.user == 0:
            return aclck.ALL
        return target.acl.granted(user=str(self.user), groups=[str(one) for one in self.groups], owner=str(target.owner),
                                  group=str(target.group))

    def handle(self, target):
        return word(self.objects.index(target))

    def op_24(self, _):  # PUTROOTFH
        self.current = self.root
        return b""

    def op_22(self, call):  # PUTFH
        self.current = self.objects[int.from_bytes(call.opaque(), "big")]
        return b""

    def op_10(self, _):  # GETFH
        return opaque(self.handle(self.current))

    def op_15(self, call):  # LOOKUP
        name = call.opaque()
        self.need(EXECUTE)
        self.current = self.child(name)
        return b""

    def child(self, name):
        if name not in self.current.children:
            raise Failure(NOENT)
        return self.current.children[name]

    def op_3(self, call):  # ACCESS
        wanted, granted = call.word(), self.granted(self.current)
        meanings = BITS[self.current.is_directory]
        supported = wanted & sum(meanings)
        return word(supported, supported & self.access(granted, meanings))

    def access(self, granted, meanings):
        return sum(bit for bit, right in meanings.items() if granted & right)

    def op_9(self, call):  # GETATTR
        [number] = call.numbers()
        if number == 12:
            self.need(READ_ACL)
        value = self.attribute(number)
        return (bitmap(number) if value is not None else word(0)) + opaque(value or b"")

    def attribute(self, number):
        found = self.current
        return {0: lambda: bitmap(0, 12, 33, 36, 37, 54), 12: lambda: self.list_of(found), 33: lambda: word(found.mode),
                36: lambda: opaque(b"%d" % found.owner), 37: lambda: opaque(b"%d" % found.group)}[number]()

    def list_of(self, found):
        return bytes(found.acl)

    def op_34(self, call):  # SETATTR
        call.take(16)
        numbers, values = call.numbers(), Words(call.opaque())
        for number in numbers:
            self.set(number, values)
        return bitmap(*numbers)

    def set(self, number, values):
        found = self.current
        if number == 12:
            self.need(WRITE_ACL)
            self.set_list(found, NfsAcl(values.data))
        elif number == 33:
            self.need(WRITE_ACL)
            self.set_mode(found, values.word())
        elif number == 54:
            assert values.word() == 0
            if not self.granted(found) & (WRITE | WRITE_ATTRIBUTES):
                raise Failure(ACCESS)
        else:
            assert self.user == 0
            setattr(found, "owner" if number == 36 else "group", int(values.opaque()))

    def set_list(self, found, acl):
        found.acl, found.mode = acl, acl.mode

    def set_mode(self, found, mode):
        found.acl, found.mode = found.acl.chmod(mode), mode

    def new(self, name, is_directory):
        if name in self.current.children:
            raise Failure(EXIST)
        self.need(EXECUTE | (APPEND if is_directory else WRITE))
        made = Object(is_directory, self.user, self.gid, self.inherited(self.current.acl, is_directory))
        self.current.children[name] = made
        self.objects.append(made)
        return made

    def inherited(self, acl, is_directory):
        return acl.child(directory=is_directory)

    def op_6(self, call):  # CREATE
        assert call.word() == 2, "a directory"
        self.seen.append(call.opaque())
        made = self.new(self.seen[-1], True)
        numbers, values = call.numbers(), Words(call.opaque())
        self.current = made
        if numbers:
            assert numbers == [33]
            made.mode = values.word()
        return self.CHANGE + bitmap(*numbers)

    def op_28(self, call):  # REMOVE
        name, place = call.opaque(), self.current
        found = self.child(name)
        if not self.may_remove(self.granted(place), self.granted(found)):
            raise Failure(ACCESS)
        if found.children:
            raise Failure(NOTEMPTY)
        del place.children[name]
        return self.CHANGE

    def may_remove(self, of_directory, of_file):
        """RFC 8881, section 6.2.1.3.2."""
        return of_directory & EXECUTE and (of_directory & DELETE_CHILD or of_file & DELETE)

    def op_26(self, call):  # READDIR
        call.take(16), call.word(), call.word(), call.numbers()
        self.need(READ)
        names = [*self.current.children]
        entries = b"".join(word(1) + bytes(8) + opaque(name) + word(0) + opaque(b"") for name in names)
        return bytes(8) + entries + word(0, 1)

    def op_35(self, call):  # SETCLIENTID
        call.take(8), call.opaque(), call.word(), call.opaque(), call.opaque(), call.word()
        return bytes(8) + b"confirm!"

    def op_36(self, call):  # SETCLIENTID_CONFIRM
        assert call.take(16) == bytes(8) + b"confirm!"
        return b""

    def op_18(self, call):  # OPEN
        assert call.word() == 0
        share, _, _, owner = call.word(), call.word(), call.long(), call.opaque()
        makes = call.word()
        if makes:
            assert (call.word(), call.numbers(), call.opaque()) == (1, [], b"")
        assert call.word() == 0
        name = call.opaque()
        self.need(EXECUTE)
        if makes:
            self.current = self.new(name, False)
        else:
            self.current = self.child(name)
            self.open(share)
        return bytes(4) + owner.ljust(12, b"-") + self.CHANGE + word(2) + bitmap() + word(0)

    def open(self, share):
        self.need(READ if share == 1 else WRITE)

    def op_20(self, call):  # OPEN_CONFIRM
        state = call.take(16)
        assert call.word() == 1
        return b"done" + state[4:]

    def op_4(self, call):  # CLOSE
        assert (call.word(), call.take(4)) == (2, b"done")
        return bytes(4) + call.take(12)
