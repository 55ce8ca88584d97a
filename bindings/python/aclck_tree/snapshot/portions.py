"""Parts of trees. A scan can read one shard of a tree, or the paths of a list; `combining.py` joins their snapshots.

A shard has the objects of some directories, which a hash of their paths chooses: it is the same in each run and on each
machine. With a secret key, nobody can choose names so that all directories come into one shard. The objects of one
directory are always in one shard.
"""

from __future__ import annotations

import hashlib
from dataclasses import dataclass
from typing import NamedTuple, Optional, Tuple

MOST_SHARDS = 1000
"""The greatest number of shards of one tree. `merge` has the snapshots of all of them open."""

LONGEST_KEY = 64
"""How many bytes a key may have (RFC 7693, section 2.1)."""

MIXED = "NFSv4 lists are not supported here, but others of this file system have one"
"""The failure of an object that seems to be on a file system without NFSv4 lists, if another object has one."""


def above(path: bytes) -> bytes:
    """Returns the path of the directory that an object is in. The root of a tree counts as an object of itself."""
    return path.rpartition(b"/")[0]


def shard_of(directory: bytes, shards: int, key: bytes) -> int:
    """Returns the number, from 1, of the shard that has the objects of a directory."""
    digest = hashlib.blake2b(directory, digest_size=8, key=key).digest()
    return int.from_bytes(digest, "big") % shards + 1


@dataclass(frozen=True)
class Portion:
    """What part of a tree a scan reads: a shard, or the paths of a list, for which `shard` and `shards` are 0. Scans
    whose other fields are equal cut the tree alike."""

    shard: int
    shards: int
    key: bytes
    attribute: str
    one_file_system: bool

    @property
    def is_list(self) -> bool:
        """Whether it has the paths of a list."""
        return not self.shards

    def has(self, directory: bytes) -> bool:
        """Whether the objects of a directory are in it. Nothing is known about a list."""
        return self.is_list or shard_of(directory, self.shards, self.key) == self.shard

    def words(self) -> str:
        """Returns what it is, in words."""
        return "only the paths of a list" if self.is_list else f"shard {self.shard} of {self.shards} of a tree"


class Device(NamedTuple):
    """What a scan of a portion found out about a file system: where the tree first enters it, whether an object on it
    has an NFSv4 list, and an object that seemed to be on a file system without such lists."""

    place: bytes
    has_lists: bool
    without: Optional[bytes]


def read_shard(text: str) -> Optional[Tuple[int, int]]:
    """Reads `I/N`: the number of a shard, from 1, and how many there are. Returns None if it is not of this form."""
    first, _, second = text.partition("/")
    if not all(one.isascii() and one.isdigit() and len(one) <= 4 for one in (first, second)):
        return None
    shard, shards = int(first), int(second)
    return (shard, shards) if 1 <= shard <= shards <= MOST_SHARDS else None
