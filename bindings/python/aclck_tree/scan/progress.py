"""What a scan shows on a terminal."""

from __future__ import annotations

import sys
import time
from typing import Optional

from aclck_tree.snapshot.writer import Writer


class Progress:
    """A line on a terminal, written at most five times a second. Without a terminal, or with `quiet`, nothing is
    written."""

    def __init__(self, writer: Writer, total: Optional[int], quiet: bool) -> None:
        self._writer = writer
        self._total = total
        self._on = sys.stderr.isatty() and not quiet
        self._began = self._last = time.monotonic()

    def tell(self, members: int = 0) -> None:
        """Writes the line if it is time to. `members` is how many headers of an archive were read."""
        now = time.monotonic()
        if not self._on or now - self._last < 0.2:
            return
        self._last = now
        count = self._writer.objects
        known = f" of about {self._total:,}" if self._total else ""
        line = (f"{members:,} members of the archive" if members else
                f"{count:,}{known} objects, {count / (now - self._began):,.0f} a second, "
                f"{self._writer.lists:,} distinct lists")
        sys.stderr.write(f"\r{line}\x1b[K")
        sys.stderr.flush()

    def end(self) -> None:
        """Removes the line."""
        if self._on:
            sys.stderr.write("\r\x1b[K")
            sys.stderr.flush()
