"""What `policy --fix` does: it asks for a mended list for all objects that break a rule, and writes the lists and a
report (docs/use/policies.md, "Mending")."""

from __future__ import annotations

from typing import Callable, Dict, Generic, Iterable, Iterator, List, Sequence, Tuple, TypeVar

from aclck_tree.answer.ask import Asker
from aclck_tree.output.text import ObjectName, first_few, plural, quoted
from aclck_tree.policy.fix_files import FixDirectory, ListToSet
from aclck_tree.policy.mending import Mended, Mender, Unmended
from aclck_tree.policy.policies import Rule
from aclck_tree.snapshot.selecting import Counted

_Key = TypeVar("_Key")
_Found = TypeVar("_Found")


class Fixing(Generic[_Key]):
    """The lists of objects that break a rule. Objects of one key have one face, and break the same rules."""

    def __init__(self, asker: Asker, place: str) -> None:
        """`place` is the directory to make."""
        self._asker = asker
        self._place = place
        self._mender = Mender(asker)
        self._lists: Dict[Tuple[int, int], int] = {}
        self._numbers: Dict[_Key, int] = {}
        self._mended: Dict[Tuple[Tuple[str, ...], Mended], Counted] = {}
        self._unmended: Dict[Tuple[Tuple[str, ...], Unmended], Counted] = {}

    def mend(self, key: _Key, counted: Counted, face: int, rules: Sequence[Rule], broken: Sequence[str],
             judged: Callable[[int], List[str]]) -> None:
        """Mends the objects of a key as `Mender.mend` does. `broken` are the names of the rules that they break."""
        found = self._mender.mend(face, rules, judged)
        if isinstance(found, Unmended):
            _count(self._unmended, (tuple(broken), found), counted)
        else:
            self._numbers[key] = self._lists.setdefault((found.old.face, found.new.face), len(self._lists))
            _count(self._mended, (tuple(broken), found), counted)

    @property
    def is_whole(self) -> bool:
        """Whether all objects that break a rule are mended."""
        return not self._unmended

    def write(self, objects: Iterable[Tuple[_Key, int, bytes]]) -> Iterator[str]:
        """Writes the directory if a rule is broken. An object has its key, its tree and its path below the root. Yields
        lines about what is not mended, and a last one with the counts. Raises TreeError and DeviceError."""
        if not self._mended and not self._unmended:
            yield f"nothing is broken, and {quoted(self._place)} is not written"
            return
        directory = FixDirectory(self._place, self._asker.snapshot)
        chosen = ((self._numbers[key], path) for key, _, path in objects if key in self._numbers)
        directory.write(self._lists_to_set(), chosen, self._report())
        yield from self._told()
        yield f"{self._counts()}: {quoted(self._place)} has a report" + (
            ", apply and undo" if self._mended else " alone")

    def _lists_to_set(self) -> List[ListToSet]:
        found = []
        for numbers in self._lists:
            old, new = map(self._asker.faces.__getitem__, numbers)
            before, after = (self._asker.stored[face.list].access or b"" for face in (old, new))
            found.append(ListToSet(old.tree, old.uid, old.gid, before, after))
        return found

    def _counts(self) -> str:
        mended, unmended = (sum(one.objects for one in found) for found in (
            self._mended.values(), self._unmended.values()))
        return f"{plural(mended, 'object')} mended with {plural(len(self._lists), 'list')}, {unmended:,} not mended"

    def _told(self) -> Iterator[str]:
        """Yields what is not mended, and why."""
        for (broken, why), counted in sorted(self._unmended.items(), key=_first):
            yield f"not mended: {_objects(counted, broken)}"
            yield from (f"    {reason}" for reason in why.reasons)

    def _report(self) -> Iterator[str]:
        for tree in self._asker.snapshot.trees.values():
            yield f"about {tree.words()}"
        for (broken, mended), counted in sorted(self._mended.items(), key=_first):
            yield f"mended: {_objects(counted, broken)}"
            yield from (f"    {line}" for line in self._mender.lines(mended))
        yield from self._told()
        yield self._counts()


def _first(item: Tuple[object, Counted]) -> ObjectName:
    return item[1].first


def _count(counts: Dict[_Found, Counted], found: _Found, counted: Counted) -> None:
    """Counts further objects of which the same is found."""
    known = counts.get(found, Counted(0, counted.first))
    counts[found] = Counted(known.objects + counted.objects, min(known.first, counted.first))


def _objects(counted: Counted, broken: Sequence[str]) -> str:
    """Returns the name of the first of some objects, how many more there are, and the rules that they break."""
    others = f" and {plural(counted.objects - 1, 'other object')}" if counted.objects > 1 else ""
    return f"{counted.first.words()}{others}, {'rule' if len(broken) == 1 else 'rules'} {first_few(broken, quoted)}"
