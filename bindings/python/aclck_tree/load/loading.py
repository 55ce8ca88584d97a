"""The command `load`, which puts snapshots into a database of PostgreSQL. The program psql(1) talks to the server: it
reads a script, in which everything from a snapshot is data of COPY, and never a part of a statement.

All snapshots of a run are one transaction, which the last line of the script ends. So if anything fails, or this
process is killed, nothing is loaded. `begin.sql` has what comes before the data: it judges the role, the extension and
the schema. `tables.sql` and `views.sql` have the tables and the views. `objects.sql` has what comes before the objects
of a scan, and `tree.sql` what comes after its data.
"""

from __future__ import annotations

import argparse
import contextlib
import datetime
import hashlib
import itertools
import os
import re
import shutil
import subprocess
import sys
import tempfile
from binascii import hexlify
from typing import Dict, Iterable, Iterator, List, NamedTuple, Optional, Sequence, Tuple

from aclck_tree.answer.ask import Answers, AskOptions, Asker
from aclck_tree.answer.commands import opened, people_of, status_of, tell_linux
from aclck_tree.answer.lists import Kind
from aclck_tree.answer.reach import reached, tell_above
from aclck_tree.output.errors import YES, DeviceError, TreeError, UsageError
from aclck_tree.output.text import plural, quoted, quoted_line, quoted_path
from aclck_tree.people.people import HIGHEST_ID, Person
from aclck_tree.snapshot.snapshot import TIME, Face, Snapshot, Tree

LONGEST_NAME = 1000
"""How many bytes the name of a host may have, which is a key of a table."""


_WHY = re.compile(r"psql:<stdin>:[0-9]+: [^:]*: +aclck-tree: (.*)")
"""How psql reports an error that the script raises. The word for an error is in the language of the server."""

_KNOWN = re.compile(r"scan (\d+) is loaded already")


def field(value: object) -> bytes:
    """Returns a value as the text format of COPY has it: bytes in hexadecimal digits, and a text with its backslashes
    and its ends of lines escaped."""
    if value is None:
        return b"\\N"
    if isinstance(value, bytes):
        return b"\\\\x" + value.hex().encode()
    if isinstance(value, bool):
        return b"t" if value else b"f"
    if isinstance(value, int):
        return b"%d" % value
    text = str(value).replace("\\", "\\\\")
    for letter, escaped in (("\t", "\\t"), ("\n", "\\n"), ("\r", "\\r")):
        text = text.replace(letter, escaped)
    return text.encode()


def line(values: Iterable[object]) -> bytes:
    """Returns a row as a line of COPY."""
    return b"\t".join(map(field, values)) + b"\n"


def as_text(name: str) -> Optional[str]:
    """Returns a name if a function of SQL can be given it, and otherwise None."""
    try:
        return name if name.encode() and "\0" not in name else None
    except UnicodeEncodeError:  # bytes that are not UTF-8
        return None


def as_id(number: Optional[int]) -> Optional[int]:
    """Returns an id, or None if the number is no id."""
    return number if number is not None and number <= HIGHEST_ID else None


class _Psql:
    """A run of psql(1) that reads a script from this process."""

    def __init__(self, dsn: Optional[str]) -> None:
        """Raises DeviceError if psql is not installed."""
        program = shutil.which("psql")
        if not program:
            raise DeviceError("psql is not installed: it is in the package postgresql-client")
        words = [program, "-X", "-q", "-w", "-A", "-t", "-v", "ON_ERROR_STOP=1", "-f", "-"]
        words += [f"--dbname={dsn}"] if dsn is not None else []
        self._errors = tempfile.TemporaryFile()
        self._child = subprocess.Popen(words, stdin=subprocess.PIPE, stdout=subprocess.DEVNULL, stderr=self._errors,
                                       bufsize=1 << 20, env={**os.environ, "PGCLIENTENCODING": "UTF8"})

    def write(self, data: bytes) -> None:
        """Gives psql a part of the script. Raises BrokenPipeError if it has ended."""
        assert self._child.stdin
        self._child.stdin.write(data)

    def end(self) -> Tuple[int, str]:
        """Ends the script, and returns the exit status and what psql wrote to standard error."""
        assert self._child.stdin
        with contextlib.suppress(BrokenPipeError):
            self._child.stdin.close()
        status = self._child.wait()
        self._errors.seek(0)
        return status, self._errors.read().decode(errors="surrogateescape")

    def kill(self) -> None:
        """Ends psql, if it runs still, before it can read the end of the script."""
        self._child.kill()
        self._child.wait()
        self._errors.close()


def _sql(name: str) -> str:
    with open(os.path.join(os.path.dirname(__file__), name), encoding="utf-8") as file:
        return file.read()


_END = "ANALYZE trees, lists, faces, ways, people, unread;\nCOMMIT;\n"


_Reached = Iterator[Tuple[int, bytes, int, Answers]]
"""The objects of a snapshot, each with who gets past the directories above it, as `reach.reached` yields them."""


class _Source(NamedTuple):
    """A scan of a tree to be loaded: its snapshot, the tree, what knows its people and the names of its owners, and who
    gets past its directories, if that is loaded too. The trees of a snapshot share the last two."""

    snapshot: Snapshot
    tree: Tree
    asker: Asker
    domain: str
    reached: Optional[_Reached]


class _Hash:
    """The digest of what is in a scan, apart from who is asked about it."""

    def __init__(self) -> None:
        self.hash = hashlib.blake2b(digest_size=16)

    def add(self, data: bytes) -> bytes:
        """Adds data to what the digest is of. Returns the same data, so that a row can be hashed as it is written."""
        self.hash.update(data)
        return data


def _time(source: _Source, text: str) -> str:
    try:
        return datetime.datetime.strptime(text, TIME).isoformat() + "Z"
    except ValueError:
        raise TreeError(f"{source.snapshot.place}: {quoted(text)} is no time at which a scan began or ended") from None


def _head(source: _Source) -> List[object]:
    """Returns the row of a tree."""
    tree = source.tree
    host = tree.host.encode("utf-8", "surrogateescape")
    if len(host) > LONGEST_NAME:
        raise TreeError(f"{source.snapshot.place}: the name of a host is longer than {LONGEST_NAME:,} bytes")
    ended = None if tree.ended is None else _time(source, tree.ended)
    return [host, tree.root, tree.place, _time(source, tree.began), ended,
            tree.whole, quoted_line(tree.version), tree.links]


def _ordered_faces(source: _Source) -> List[Tuple[Face, bytes]]:
    """Returns the faces of a tree with the digests of their lists, in an order that does not depend on the numbers that
    the snapshot has."""
    asker = source.asker
    found = [face for face in asker.faces.values() if face.tree == source.tree.tree]
    digests = {number: asker.loadable(number).digest for number in {face.list for face in found}}
    return sorted(((face, digests[face.list]) for face in found),
                  key=lambda pair: (pair[0].uid, pair[0].gid, pair[1]))


class _Counts:
    """How many objects each face has, and the first path."""

    def __init__(self, faces: int) -> None:
        self.objects = [0] * (faces + 1)
        self.firsts = [b""] * (faces + 1)


class _Ways:
    """The different answers to who gets past the directories above an object of a tree, each with a number from 1."""

    def __init__(self, source: _Source) -> None:
        self.source = source
        self.numbers: Dict[Answers, int] = {}

    def fields(self) -> Iterator[bytes]:
        """Yields the last field of the line of each object, in the order of paths: nothing if reach is not loaded."""
        if self.source.reached is None:
            return itertools.repeat(b"")
        return (b"\t%d" % self.numbers.setdefault(above, len(self.numbers) + 1)
                for _, _, _, above in self.source.reached)

    def lines(self) -> Iterator[bytes]:
        """Yields the lines of the ways."""
        for above, number in self.numbers.items():
            yield line([number, *map(_places, (above.granted, above.denied, above.unknown))])


def _places(bits: int) -> str:
    """Returns the places of the bits that are set, counted from 1, as an array of PostgreSQL."""
    return f"{{{','.join(str(place) for place, bit in enumerate(reversed(f'{bits:b}'), 1) if bit == '1')}}}"


def _object_lines(source: _Source, numbers: Dict[int, int], counts: _Counts, ways: _Ways,
                  seen: _Hash) -> Iterator[bytes]:
    """Yields the lines of all objects, some thousand at a time, and counts them. Who gets past the directories above
    does not count for the digest, because it depends on who is asked about."""
    objects, firsts = counts.objects, counts.firsts
    own: List[bytes] = []
    lines: List[bytes] = []
    for (path, kind, mode, face), way in zip(source.snapshot.objects_in(source.tree.tree), ways.fields()):
        number = numbers.get(face, 0)
        if not number:
            raise TreeError(f"{source.snapshot.place}: damaged: an object has the owner and the list of another tree")
        if not objects[number]:
            firsts[number] = path
        objects[number] += 1
        own.append(b"\\\\x%b\t%b\t%d\t%d" % (hexlify(path), kind, mode, number))
        lines.append(own[-1] + way)
        if len(lines) == 5000:
            yield _joined(own, lines, seen)
    yield _joined(own, lines, seen)


def _joined(own: List[bytes], lines: List[bytes], seen: _Hash) -> bytes:
    """Returns the lines, adds those of `own` to the digest, and empties both."""
    seen.add(b"".join(one + b"\n" for one in own))
    joined = b"".join(one + b"\n" for one in lines)
    own.clear()
    lines.clear()
    return joined


def _face_lines(source: _Source, faces: Sequence[Tuple[Face, bytes]], counts: _Counts, seen: _Hash) -> Iterator[bytes]:
    asker = source.asker
    for number, (face, digest) in enumerate(faces, 1):
        if counts.objects[number]:
            own = seen.add(line([number, as_id(face.uid), as_id(face.gid), digest]))[:-1]
            owner, group = asker.owner_and_group(face, Kind.NFS4)
            rest = line([as_text(owner), as_text(group), counts.objects[number], counts.firsts[number]])
            yield own + b"\t" + rest


def _list_lines(source: _Source, faces: Sequence[Tuple[Face, bytes]]) -> Iterator[bytes]:
    stored = {digest: source.asker.loadable(face.list) for face, digest in faces}
    for digest, one in stored.items():
        yield line([digest, one.kind.value, one.mode, one.access, one.default])


def _unread_lines(source: _Source, seen: _Hash) -> Iterator[bytes]:
    for tree, path, step, message in source.snapshot.errors():
        if tree == source.tree.tree:
            yield seen.add(line([path, step, quoted_line(message)]))


def _people_lines(source: _Source) -> Iterator[bytes]:
    """Yields the people, with the ids that they have in the tree. A person whom this host does not list, and another
    one does, has no id here."""
    asker, tree = source.asker, source.tree.tree
    for number, person in enumerate(asker.people, 1):
        is_known = person.groups_in(tree) is not None
        uid = asker.id(person, person.name, False, tree) if is_known else None
        yield line([number, os.fsencode(person.name), as_text(asker.full_name(person.name)), as_id(uid)])


def _membership_lines(source: _Source) -> Iterator[bytes]:
    for number, person in enumerate(source.asker.people, 1):
        listed = set(person.groups_in(source.tree.tree) or ())
        for group in person.groups:
            yield line([number, *_membership(source, person, group), group in listed])


def _membership(source: _Source, person: Person, group: str) -> List[object]:
    asker = source.asker
    return [os.fsencode(group), as_text(asker.full_name(group)), as_id(asker.id(person, group, True, source.tree.tree))]


def _parts(number: int, source: _Source) -> Iterator[bytes]:
    """Yields the script that loads a tree."""
    seen = _Hash()
    faces = _ordered_faces(source)
    numbers = {face.face: place for place, (face, _) in enumerate(faces, 1)}
    counts, ways = _Counts(len(faces)), _Ways(source)

    def copied(table: str, lines: Iterable[bytes]) -> Iterator[bytes]:
        yield f"COPY {table} FROM STDIN;\n".encode()
        yield from lines
        yield b"\\.\n"

    head = _head(source)
    seen.add(line(head))
    yield from copied("pg_temp.new_tree", [line([number, *head, source.domain])])
    columns = "path, kind, mode, face" + (", way" if source.reached else "")
    yield _sql("objects.sql").replace("{columns}", columns).encode()
    yield from _object_lines(source, numbers, counts, ways, seen)
    yield b"\\.\n"
    yield from copied("pg_temp.new_faces", _face_lines(source, faces, counts, seen))
    yield from copied("pg_temp.new_lists", _list_lines(source, faces))
    yield from copied("pg_temp.new_ways", ways.lines())
    yield from copied("pg_temp.new_unread", _unread_lines(source, seen))
    yield from copied("pg_temp.new_people", _people_lines(source))
    yield from copied("pg_temp.new_memberships", _membership_lines(source))
    yield _sql("tree.sql").replace("{digest}", seen.hash.hexdigest()).encode()


def script(sources: Sequence[_Source], as_superuser: bool = False) -> Iterator[bytes]:
    """Yields the whole script, which is one transaction. psql takes the end of its input for the end of a COPY, so
    only the last line may end the transaction. `as_superuser` lets a superuser load."""
    begin = _sql("begin.sql").replace("{as_superuser}", str(as_superuser).lower())
    yield begin.replace("{tables}", _sql("tables.sql")).replace("{views}", _sql("views.sql")).encode()
    for number, source in enumerate(sources):
        yield from _parts(number, source)
    yield _END.encode()


def _sources(args: argparse.Namespace) -> List[_Source]:
    """Opens the snapshots. Raises TreeError if one has only a portion of a tree."""
    found: List[_Source] = []
    if args.domain and as_text(args.domain) is None:
        raise UsageError("--domain takes a text in UTF-8")
    for place in args.snapshot:
        snapshot = opened(args, place)
        for portion in snapshot.portions.values():
            hint = "" if portion.is_list else ": merge joins all shards of a tree"
            raise TreeError(f"{place}: {portion.words()} is not loaded{hint}")
        asker = Asker(snapshot, people_of(args, snapshot), AskOptions(args.domain or ""))
        tell_linux(asker, "")
        reached_objects = reached(asker) if args.reach else None
        if args.reach:
            tell_above(asker)
        found += [_Source(snapshot, tree, asker, args.domain or "", reached_objects)
                  for tree in snapshot.trees.values()]
    return found


def _failure(status: int, errors: str, sources: Sequence[_Source]) -> TreeError:
    """Makes the error for what psql wrote. Only its first line counts: a name of a role can have line feeds."""
    lines = errors.splitlines() or [f"psql ended with status {status}"]
    first = next((one for one in lines if one.startswith("psql:")), lines[0])
    why = _WHY.match(first)
    known = _KNOWN.fullmatch(why[1]) if why else None
    if known:
        source = sources[int(known[1])]
        return TreeError(f"{source.snapshot.place}: the scan of {quoted_path(source.tree.place)} that began at "
                         f"{source.tree.began} is loaded already")
    if why:
        return TreeError(why[1])
    return DeviceError(f"nothing is loaded: {re.sub('^psql:<stdin>:[0-9]+: ', '', first)}")


def load(args: argparse.Namespace) -> int:
    """Loads snapshots into a database, all of them or none."""
    sources = _sources(args)
    psql = _Psql(args.dsn)
    try:
        with contextlib.suppress(BrokenPipeError):
            for data in script(sources, args.as_superuser):
                psql.write(data)
        status, errors = psql.end()
        if status:
            raise _failure(status, errors, sources)
    finally:
        psql.kill()
    snapshots: Dict[str, Snapshot] = {source.snapshot.place: source.snapshot for source in sources}
    for place, snapshot in snapshots.items():
        sys.stderr.write(f"{quoted(place)}: {plural(snapshot.count, 'object')} of "
                         f"{plural(len(snapshot.trees), 'tree')} loaded\n")
    return status_of(YES, *snapshots.values())
