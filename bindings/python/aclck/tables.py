"""Tables of the names of users and groups, with their ids."""

from __future__ import annotations

from typing import Iterable, Mapping, Tuple

from . import _library as c

NamedIds = Iterable[Tuple[str, int, bool]]
"""Names, each with its id, and whether it is that of a group."""


def table_in_c(names: NamedIds) -> c.Names:
    """Returns a table of names for C, in their order. Raises ValueError if an id has more than 32 bits."""
    rows = [c.NamedId(c.in_c(c.encoded(name)), c.word(number), c.word(int(is_group)))
            for name, number, is_group in names]
    return c.Names((c.NamedId * len(rows))(*rows), len(rows))


def tables_in_c(users: Mapping[str, int], groups: Mapping[str, int]) -> c.Names:
    """Returns two tables of names for C."""
    return table_in_c((name, number, bool(is_group))
                      for is_group, table in enumerate((users, groups)) for name, number in table.items())
