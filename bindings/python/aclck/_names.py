"""Names, texts and bytes, as Python has them and as C gets them."""

from __future__ import annotations

from typing import Iterable, List, TypeVar, Union

Name = Union[str, bytes]
"""The name of a user or a group."""

T = TypeVar("T")


def encoded(name: Name) -> bytes:
    """Returns a name or a text as bytes. Raises TypeError if it is neither `str` nor `bytes`."""
    if isinstance(name, str):
        return str.encode(name, "utf-8", "surrogateescape")
    if isinstance(name, bytes):
        return exact(name)
    raise TypeError(f"a name or a text is str or bytes, and not {type(name).__name__}")


def decoded(name: bytes) -> str:
    """Returns bytes as a name or a text."""
    return name.decode("utf-8", "surrogateescape")


def several(groups: Iterable[T]) -> List[T]:
    """Returns some groups as a list. Raises TypeError for one name, whose letters or bytes would be the groups."""
    if isinstance(groups, (str, bytes, bytearray, memoryview)):
        raise TypeError(f"groups are a list or another iterable, and not {type(groups).__name__}")
    return list(groups)


def exact(held: bytes) -> bytes:
    """Returns the bytes that an object holds. A subclass of `bytes` can have another length than its bytes, and C would
    read what is behind them. Raises TypeError if the object holds no bytes."""
    return held if type(held) is bytes else memoryview(held).tobytes()
