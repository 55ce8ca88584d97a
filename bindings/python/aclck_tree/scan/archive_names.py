"""The names and ids of the accounts in an archive."""

from __future__ import annotations

from typing import Dict, Iterator, Optional, Set, Tuple

from aclck_tree.people import accounts


class ArchiveNames(accounts.System):
    """The names and ids that an archive has, and those of this system that say nothing else."""

    def __init__(self) -> None:
        super().__init__()
        self._own_names: Dict[Tuple[bool, int], bytes] = {}
        self._own_numbers: Dict[Tuple[bool, bytes], int] = {}
        self._doubtful: Set[Tuple[bool, object]] = set()  # names with two ids, and ids with two names

    def add(self, is_group: bool, number: int, name: bytes) -> None:
        """Adds an account of the archive."""
        if accounts.is_name(name):
            if self._own_names.setdefault((is_group, number), name) != name:
                self._doubtful.add((is_group, number))
            if self._own_numbers.setdefault((is_group, name), number) != number:
                self._doubtful.add((is_group, name))

    def fits(self, is_group: bool, number: int, name: bytes) -> bool:
        """Whether the archive has no other name for an id, and no other id for a name."""
        return (self._own_names.get((is_group, number), name) == name
                and self._own_numbers.get((is_group, name), number) == number
                and self._doubtful.isdisjoint(((is_group, number), (is_group, name))))

    def name_of(self, is_group: bool, number: int) -> Optional[bytes]:
        own = self._own_names.get((is_group, number))
        found = super().name_of(is_group, number) if own is None else own
        return found if found is not None and self.fits(is_group, number, found) else None

    def number_of(self, is_group: bool, name: bytes) -> Optional[int]:
        own = self._own_numbers.get((is_group, name))
        found = super().number_of(is_group, name) if own is None else own
        return found if found is not None and self.fits(is_group, found, name) else None

    def rows(self) -> Iterator[Tuple[bool, int, bytes]]:
        """Yields the accounts of the archive."""
        for (is_group, name), number in self._own_numbers.items():
            if self.fits(is_group, number, name):
                yield is_group, number, name
