"""Many patterns for one name, matched at once.

The tokens of all patterns follow one another, and each has a bit in a number: the bit is set if the tokens in front of
it are matched. A letter moves the bits of the tokens that it matches to the tokens behind them (R. Baeza-Yates and
G. Gonnet, "A New Approach to Text Searching", 1992). So a letter costs four operations on such numbers, whatever the
patterns and the letters before it are.
"""

from __future__ import annotations

from typing import Callable, Dict, Iterable, Iterator, List, Sequence, Tuple, TypeVar

MOST_BITS = 1 << 26
"""How many bits the numbers of one kind have that are kept."""

MOST_KEPT = 100_000
"""How many of them are kept if they are short."""

STAR = "*"
"""The token that stands for any letters."""

_Key = TypeVar("_Key")
_Value = TypeVar("_Value")


def room_for(size: int) -> int:
    """Returns how many numbers of so many bits are kept."""
    return min(MOST_KEPT, MOST_BITS // (size + 1) + 1)


class Kept(Dict[_Key, _Value]):
    """Values that are made when they are first asked for. If there are too many, all are forgotten."""

    def __init__(self, make: Callable[[_Key], _Value], most: int) -> None:
        super().__init__()
        self._make = make
        self._most = most

    def __missing__(self, key: _Key) -> _Value:
        if len(self) >= self._most:
            self.clear()
        found = self[key] = self._make(key)
        return found


def bits_at(places: Sequence[int]) -> int:
    """Returns the number in which the bits at some places are set."""
    found = bytearray(max(places, default=0) // 8 + 1)
    for place in places:
        found[place // 8] |= 1 << place % 8
    return int.from_bytes(found, "little")


def places_of(bits: int) -> List[int]:
    """Returns the places of the bits that are set in a number, in rising order."""
    found: List[int] = []
    while bits:
        found.append(bits.bit_length() - 1)
        bits ^= 1 << found[-1]
    return found[::-1]


def tokens_of(pattern: str) -> List[str]:
    """Returns the tokens of a pattern in the form of glob(7): letters, `?`, stars and brackets with what is in them. A
    bracket that is not closed is a letter."""
    found: List[str] = []
    at = 0
    while at < len(pattern):
        end = at + 1
        if pattern[at] == "[":
            close = pattern.find("]", at + 3 if pattern[end:end + 1] == "!" else at + 2)
            end = close + 1 if close >= 0 else end
        found.append(pattern[at:end])
        at = end
    return found


def is_set(token: str) -> bool:
    """Whether a token stands for several letters, one of which it matches."""
    return token == "?" or len(token) > 1


class _Set:
    """The letters that `?` or the brackets of a token match."""

    def __init__(self, token: str) -> None:
        self._is_other = token == "?" or token[1] == "!"
        self._ranges = [] if token == "?" else list(_ranges(token[2 if self._is_other else 1:-1]))

    def has(self, letter: str) -> bool:
        """Whether the token matches a letter: `?` matches each, and brackets with `!` those of none of their ranges."""
        return any(first <= letter <= last for first, last in self._ranges) != self._is_other


def _ranges(text: str) -> Iterator[Tuple[str, str]]:
    at = 0
    while at < len(text):
        size = 3 if text[at + 1:at + 2] == "-" and at + 2 < len(text) else 1
        first, last = text[at], text[at + size - 1]
        if first > last:
            raise ValueError(f"the characters {first}-{last} in brackets are in the wrong order")
        yield first, last
        at += size


def judge_name(pattern: str) -> None:
    """Raises ValueError, with the reason, if a pattern has brackets with characters in the wrong order."""
    for token in tokens_of(pattern):
        if is_set(token):
            _Set(token)


class NameMatcher:
    """Matches names with some patterns, which were judged."""

    def __init__(self, patterns: Iterable[str]) -> None:
        self._numbers: Dict[int, int] = {}  # the place behind the last token of each pattern
        begins: List[int] = []
        loops: List[int] = []
        self._letters: Dict[str, List[int]] = {}
        sets: Dict[str, List[int]] = {}
        size = 0
        for number, pattern in enumerate(patterns):
            begins.append(size)
            for token in tokens_of(pattern):
                if token == STAR:
                    loops.append(size)
                else:
                    (sets if is_set(token) else self._letters).setdefault(token, []).append(size)
                    size += 1
            self._numbers[size] = number
            size += 1
        self._begin, self._loops, self._ends = bits_at(begins), bits_at(loops), bits_at(list(self._numbers))
        self._sets = [(_Set(token), bits_at(places)) for token, places in sets.items()]
        self._moves = Kept(self._moved_by, room_for(size))

    def _moved_by(self, letter: str) -> int:
        """Returns the bits of the tokens that match a letter."""
        found = bits_at(self._letters.get(letter, ()))
        for one, bits in self._sets:
            if one.has(letter):
                found |= bits
        return found

    def ends(self, name: str) -> int:
        """Returns a number that says which patterns match a name."""
        bits, moves, loops = self._begin, self._moves, self._loops
        for letter in name:
            bits = (bits & moves[letter]) << 1 | bits & loops
        return bits & self._ends

    def numbers(self, ends: int) -> List[int]:
        """Returns the numbers of the patterns that match, from what `ends` returned, in rising order."""
        return [self._numbers[place] for place in places_of(ends)]
