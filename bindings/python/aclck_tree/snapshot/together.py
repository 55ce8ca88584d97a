"""Snapshots that are asked together, each by a run of its own."""

from __future__ import annotations

from dataclasses import dataclass, field
from typing import TYPE_CHECKING, List

if TYPE_CHECKING:
    from aclck_tree.snapshot.snapshot import Snapshot


@dataclass
class Together:
    """What a run finds out about its snapshots, of several that are asked together. A shard then stands for its tree.
    Whether nothing was asked, and whether a rule matches nothing, depends on all of them. A command that reached its
    end has answered."""

    is_answered: bool = False
    is_empty: bool = False
    unmatched: List[str] = field(default_factory=list)
    snapshots: List[Snapshot] = field(default_factory=list)
