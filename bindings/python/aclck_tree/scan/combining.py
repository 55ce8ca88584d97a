"""Joins the snapshots of portions of a tree: shards into what one scan gives, and lists into one list.

A snapshot can come from anybody. Shards are joined only if they are all there, each once, were cut alike, and each has
only objects that its shard has. So no snapshot can hide or replace an object of another one, and none changes the paths
or the accounts of another one, or names ids that only another one has.
"""

from __future__ import annotations

import datetime
import heapq
import itertools
import os
from dataclasses import replace
from typing import Dict, Iterator, List, NamedTuple, Optional, Sequence, Set, Tuple

from aclck_tree.output.errors import TreeError
from aclck_tree.output.text import first_few, quoted, quoted_path
from aclck_tree.people.accounts import ids_in_lists
from aclck_tree.people.people import read_id
from aclck_tree.snapshot.portions import MIXED, Device, Portion, above
from aclck_tree.snapshot.snapshot import TIME, Above, Found, Snapshot, Tree
from aclck_tree.snapshot.writer import Writer

MOST_LINKS = 2**53
"""How many links a snapshot can count."""

_OTHER_ABOVE = "the scans of the portions found other owners, groups, modes or lists"

AT_ONCE = 1000
"""How many objects are written at once."""

APART = datetime.timedelta(hours=1)
"""How long it may be that no portion of a tree is read, until `merge` says that their scans are far apart."""


class Source(NamedTuple):
    """A tree of a snapshot, and what portion of a tree it is, or None for a whole tree."""

    snapshot: Snapshot
    tree: Tree
    portion: Optional[Portion]

    @property
    def place(self) -> str:
        """The name of the snapshot in messages."""
        return quoted(self.snapshot.place)

    def name(self) -> str:
        """Returns the host and the place of the tree."""
        return self.tree.words()


def gathered(snapshots: Sequence[Snapshot]) -> List[List[Source]]:
    """Returns the trees of some snapshots, the portions of one tree together. Raises TreeError if a shard is absent or
    there twice, or if portions of one tree do not fit each other."""
    found: Dict[object, List[Source]] = {}
    for place, snapshot in enumerate(snapshots):
        for number, tree in snapshot.trees.items():
            portion = snapshot.portions.get(number)
            key = (tree.host, tree.place, portion.is_list) if portion else (place, number)
            found.setdefault(key, []).append(Source(snapshot, tree, portion))
    for sources in found.values():
        _judge(sources)
    return list(found.values())


def _judge(sources: List[Source]) -> None:
    """Judges the portions of one tree, and puts shards in order."""
    first, *others = sources
    if not first.portion:
        return
    for other in others:
        assert other.portion
        if replace(other.portion, shard=first.portion.shard) != first.portion:
            raise TreeError(f"{first.place} and {other.place} have portions of {first.name()} that were cut otherwise: "
                            "with another number of shards, key, --attribute or --one-file-system")
    if not first.portion.is_list:
        _judge_shards(sources, first.portion.shards)


def _judge_shards(sources: List[Source], shards: int) -> None:
    known: Dict[int, Source] = {}
    for source in sources:
        assert source.portion
        twin = known.setdefault(source.portion.shard, source)
        if twin is not source:
            raise TreeError(f"{twin.place} and {source.place} both have {source.portion.words()}, {source.name()}")
    absent = [number for number in range(1, shards + 1) if number not in known]
    if absent:
        raise TreeError(f"of the {shards} shards of {sources[0].name()}, "
                        f"{first_few(absent, str)} {'is' if len(absent) == 1 else 'are'} absent")
    sources.sort(key=lambda source: source.portion.shard if source.portion else 0)


def far_apart(sources: Sequence[Source]) -> Optional[str]:
    """Returns a line about the longest time between two scans of the portions of one tree, if it is long. Raises
    TreeError if a time is none."""
    if len(sources) == 1:
        return None
    spans = sorted((_span(source), place) for place, source in enumerate(sources))
    (_, latest), before = spans[0]
    longest, line = APART, None
    for (began, ended), place in spans[1:]:
        if began - latest > longest:
            longest, one, other = began - latest, sources[before], sources[place]
            line = (f"{one.place} and {other.place} have portions of {one.name()} of two times: one scan ended at "
                    f"{quoted(one.tree.ended or one.tree.began)}, and the other began at {quoted(other.tree.began)}")
        if ended > latest:
            latest, before = ended, place
    return line


def _span(source: Source) -> Tuple[datetime.datetime, datetime.datetime]:
    """Returns when the scan of a portion began and ended. One that was killed has no end, and a clock that was set back
    can give an end before the beginning."""
    tree = source.tree
    try:
        began, ended = (datetime.datetime.strptime(text, TIME) for text in (tree.began, tree.ended or tree.began))
    except ValueError:
        words = " or ".join(map(quoted, filter(None, (tree.began, tree.ended))))
        raise TreeError(f"{source.place}: {words} is no time at which a scan began or ended") from None
    return began, max(began, ended)


_Row = Tuple[bool, int, bytes]
_Member = Tuple[bytes, bytes]
"""An account: whether it is a group, its id and its name."""


class _Rows:
    """The accounts of one kind that several scans knew: those with which all of them begin, and the others."""

    def __init__(self) -> None:
        self.others: Set[_Row] = set()
        self._common: Optional[List[_Row]] = None

    def add(self, rows: List[_Row]) -> None:
        """Adds the accounts of a scan."""
        known = rows if self._common is None else self._common
        size = len(os.path.commonprefix([known, rows]))
        self.others.update(known[size:], rows[size:])
        self._common = known[:size]

    def common(self) -> List[_Row]:
        """Returns the accounts with which all scans begin."""
        return self._common or []


def _meanings(rows: Sequence[_Row]) -> Dict[object, object]:
    """Returns the name of each id and the id of each name. If an account is there twice, the first counts."""
    found: Dict[object, object] = {}
    for is_group, number, name in rows:
        found.setdefault((is_group, number), name)
        found.setdefault((is_group, name), number)
    return found


class _PortionAccounts:
    """The accounts that the scans of portions knew. Each scan first has the users and the groups that its host lists,
    and then, in the order of their ids, those that the host does not list and that the portion has."""

    def __init__(self) -> None:
        self.meanings: Dict[object, object] = {}
        self._members: List[_Member] = []
        self._further: Dict[bytes, List[_Member]] = {}  # of the users whom the host does not list
        self._users: Optional[List[_Row]] = None
        self._groups, self._more = _Rows(), _Rows()
        self._listed: Optional[int] = None  # how many groups the host lists: those in front of further users

    def add(self, source: Source) -> bool:
        """Adds those of a portion, and returns whether they can be those of one host: it lists the same users, the
        groups have the same members, and what two portions know means the same."""
        tree = source.tree.tree
        rows = [row[1:] for row in source.snapshot.names() if row[0] == tree]
        members = [row[1:] for row in source.snapshot.members() if row[0] == tree]
        leading = next((place for place, row in enumerate(rows) if row[0]), len(rows))
        groups = [row for row in rows if row[0]]
        more = [row for row in rows[leading:] if not row[0]]
        names = {row[2] for row in rows[:leading]}
        further: Dict[bytes, List[_Member]] = {name: [] for _, _, name in more if name not in names}
        listed = [row for row in members if row[0] not in further]
        for row in members:
            if row[0] in further:
                further[row[0]].append(row)
        if self._users is None:
            self._users, self._members = rows[:leading], listed
        self._groups.add(groups)
        self._more.add(more)
        if more:
            self._listed = next(place for place, row in enumerate(rows[leading:]) if not row[0])
        return (self._users, self._members) == (rows[:leading], listed) and all(
            self.meanings.setdefault(key, one) == one for key, one in _meanings(rows).items()) and all(
            self._further.setdefault(name, found) == found for name, found in further.items())

    def fits(self, source: Source) -> bool:
        """Whether a portion names just those of its own ids that any portion names, and groups of the users whom it
        names, apart from the accounts with which all of them begin. Otherwise a portion would name the ids of another
        one."""
        tree, seen = source.tree.tree, _seen(source)
        names = {row[1:] for row in source.snapshot.names() if row[0] == tree}
        numbers: Dict[bytes, Set[int]] = {}
        for is_group, one, name in names:
            if is_group:
                numbers.setdefault(name, set()).add(one)
        for user, group in (*self._members, *itertools.chain.from_iterable(self._further.values())):
            if (False, self.meanings.get((False, user)), user) in names:
                number = read_id(os.fsdecode(group))
                seen.update((True, one) for one in (numbers.get(group, ()) if number is None else (number,)))
        return all((row in names) == (row[:2] in seen) for row in self._groups.others | self._more.others)

    def members(self) -> List[_Member]:
        """Returns the memberships in the order in which one scan has them."""
        further = sorted({*self._more.common(), *self._more.others})
        return [*self._members, *(row for _, _, name in further for row in self._further.get(name, ()))]

    def rows(self) -> List[_Row]:
        """Returns the accounts in the order in which one scan has them."""
        groups = self._groups.common()
        listed = len(groups) if self._listed is None else self._listed
        return [*(self._users or ()), *groups[:listed], *sorted({*self._more.common(), *self._more.others}),
                *sorted({*groups[listed:], *self._groups.others})]


def _seen(source: Source) -> Set[Tuple[bool, int]]:
    """Returns the ids of a portion, and whether they are those of groups: its scan asked for the names of these."""
    users, groups = ids_in_lists(source.snapshot.posix_acls())
    for face in source.snapshot.faces().values():
        if face.tree == source.tree.tree:
            users.add(face.uid)
            groups.add(face.gid)
    for one in source.snapshot.above(source.tree.tree) or ():
        if one.stored:
            users.add(one.uid)
            groups.add(one.gid)
    return {*((False, number) for number in users), *((True, number) for number in groups)}


def _joined_accounts(sources: Sequence[Source]) -> _PortionAccounts:
    """Returns the accounts that one scan finds. Raises TreeError if the portions are of hosts with other accounts."""
    accounts = _PortionAccounts()
    other = next((source for source in sources if not accounts.add(source)), None)
    if not other and _meanings(accounts.rows()) != accounts.meanings:
        other = sources[-1]
    if not other and len(sources) > 1:
        other = next((source for source in sources if not accounts.fits(source)), None)
    if other:
        first = sources[1 if other is sources[0] and len(sources) > 1 else 0]
        raise TreeError(f"{first.place} and {other.place} have portions of {other.name()}, but their hosts list other "
                        "accounts")
    return accounts


def join(writer: Writer, sources: Sequence[Source]) -> None:
    """Adds the portions of one tree to a new snapshot: as a whole tree if they are its shards. Raises TreeError if an
    object is not in the portion that has it, or if two lists found something else at one path."""
    trees = [source.tree for source in sources]
    ends = [tree.ended for tree in trees]
    links = min(sum(tree.links for tree in trees), MOST_LINKS)
    accounts = _joined_accounts(sources)
    # Who scanned one portion cannot change the paths of the others by another way to type the tree.
    is_typed_alike = len({os.path.normpath(tree.root) for tree in trees}) == 1
    number = writer.add_tree(replace(
        trees[0], root=trees[0].root if is_typed_alike else trees[0].place,
        began=min(tree.began for tree in trees), ended=None if None in ends else max(filter(None, ends)),
        whole=all(tree.whole for tree in trees), links=links))
    portion = sources[0].portion
    devices = _joined_devices(sources)
    objects = _joined_objects(sources)
    for batch in iter(lambda: list(itertools.islice(objects, AT_ONCE)), []):
        writer.add_objects(number, batch)
    writer.add_above(number, _joined_above(sources))
    writer.add_names((number, *row) for row in accounts.rows())
    writer.add_members((number, *row) for row in accounts.members())
    for path, step, message in _joined_errors(sources, devices):
        writer.add_error(number, path, step, message)
    if portion and portion.is_list:
        writer.add_portion(number, portion)
        writer.add_devices(number, devices)


def _objects(source: Source) -> Iterator[Tuple[bytes, Source, Found]]:
    """Yields the objects of a portion in the order of their paths."""
    directory, is_own = b"/", True
    for found in source.snapshot.objects_of(source.tree.tree):
        if source.portion and above(found.path) != directory:
            directory = above(found.path)
            is_own = source.portion.has(directory)
        if not is_own:
            raise TreeError(f"{source.place}: damaged: {quoted_path(found.path)} is in another shard")
        yield found.path, source, found


def _joined_objects(sources: Sequence[Source]) -> Iterator[Found]:
    before: Optional[Tuple[bytes, Source, Found]] = None
    for one in heapq.merge(*map(_objects, sources), key=lambda row: row[0]):
        if before is None or one[0] != before[0]:
            yield one[2]
        elif one[2] != before[2]:
            places = " and ".join(dict.fromkeys((before[1].place, one[1].place)))
            raise TreeError(f"{places}: {quoted_path(one[0])} is there twice, and not alike")
        before = one


def _joined_above(sources: Sequence[Source]) -> Optional[List[Above]]:
    """Returns the directories above the root, or None if a scan did not ask them. Each scan asked them at another time,
    and perhaps on another host: one that is not the same for all of them is not known."""
    found = [source.snapshot.above(source.tree.tree) for source in sources]
    asked = [one for one in found if one is not None]
    if len(asked) < len(found):
        return None
    return [rows[0] if len(set(rows)) == 1 else next((one for one in rows if one.message), Above(
        rows[0].path, message=_OTHER_ABOVE)) for rows in zip(*asked)]


def _joined_devices(sources: Sequence[Source]) -> List[Device]:
    found: Dict[bytes, Device] = {}
    for source in sources:
        for one in source.snapshot.devices_of(source.tree.tree):
            known = found.get(one.place, one)
            without = [path for path in (known.without, one.without) if path is not None]
            found[one.place] = Device(one.place, known.has_lists or one.has_lists, min(without, default=None))
    return [found[place] for place in sorted(found)]


def _joined_errors(sources: Sequence[Source], devices: Sequence[Device]) -> List[Tuple[bytes, str, str]]:
    """Returns the failures, each once: all shards meet those of directories. A file system can seem to have no NFSv4
    lists in one portion, and have them in another."""
    rows = {row[1:] for source in sources for row in source.snapshot.errors() if row[0] == source.tree.tree}
    rows.update((one.without, "read", MIXED) for one in devices if one.has_lists and one.without is not None)
    order = ("read", "list")
    return sorted(rows, key=lambda row: (row[0], order.index(row[1]), row[2]))
