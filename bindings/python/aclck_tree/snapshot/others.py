"""Lists that decide and that the program sees and does not read. A snapshot has, for each kind of them, a failure at
the first object that has one. So each answer about the snapshot is one that lacks something."""

from __future__ import annotations

import re
from typing import Dict, Iterable, Iterator, Optional, Tuple

_MESSAGE = re.compile(r"([0-9]{1,16}) (?:object has|objects have) another list that decides too: (.+)", re.DOTALL)


UNREAD = "another list decides too, and is not read"
"""What is said of an object that has another list."""


class Others:
    """Counts the objects that have another list."""

    def __init__(self) -> None:
        self._found: Dict[str, Tuple[int, bytes]] = {}  # by the kind of list: how many objects, and the first

    def add(self, path: bytes, name: str) -> None:
        """Counts an object, with the name of the attribute of its other list or of its file system."""
        count, first = self._found.get(name, (0, path))
        self._found[name] = count + 1, min(first, path)

    def messages(self) -> Iterator[Tuple[bytes, str]]:
        """Yields the message of the failure for each kind of list, and the path of the first object that has one."""
        for name, (count, path) in sorted(self._found.items()):
            yield path, message(count, name)


def message(count: int, name: str) -> str:
    """Returns the message of the failure: how many objects have another list, and the name of its attribute or of its
    file system."""
    return f"{count} {'object has' if count == 1 else 'objects have'} another list that decides too: {name}"


def is_other(text: str) -> bool:
    """Whether a message is one about other lists."""
    return bool(_MESSAGE.fullmatch(text))


def summary(messages: Iterable[str]) -> Optional[str]:
    """Returns a line about all other lists of a snapshot, from the messages of its failures, or None if there are
    none."""
    counts: Dict[str, int] = {}
    for found in filter(None, map(_MESSAGE.fullmatch, messages)):
        counts[found[2]] = counts.get(found[2], 0) + int(found[1])
    total = sum(counts.values())
    if not counts:
        return None
    return (f"{total:,} {'object has' if total == 1 else 'objects have'} another list that decides too, and is not read"
            f": {', '.join(sorted(counts))}")
