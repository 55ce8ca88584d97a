"""Sets of the people who are asked about, as numbers with one bit for each person."""

from __future__ import annotations

import itertools
from typing import Iterable, List, TypeVar

_DIGITS, _FLAGS = bytes.maketrans(b"\0\1", b"01"), bytes.maketrans(b"01", b"\0\1")


def bits_of(flags: Iterable[int]) -> int:
    """Returns a number whose bit at each place is the flag (0 or 1) at that place."""
    return int(b"0" + bytes(flags)[::-1].translate(_DIGITS), 2)


def ones(bits: int) -> int:
    """Returns how many bits are set."""
    return f"{bits:b}".count("1")


_Item = TypeVar("_Item")


def chosen(items: Iterable[_Item], bits: int) -> List[_Item]:
    """Returns the items at the places where a bit is set."""
    return list(itertools.compress(items, f"{bits:b}".encode()[::-1].translate(_FLAGS)))
