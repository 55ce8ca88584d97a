"""The commands `scan` and `merge`, which make snapshots."""

from __future__ import annotations

import argparse
import contextlib
import functools
import os
import stat
import sys
from typing import Callable, Dict, Iterator, List, Optional, Protocol, Sequence, Tuple

from aclck_tree.output.errors import REFUSED, YES, DeviceError, TreeError, UsageError
from aclck_tree.output.files import refuse_what_is_no_file
from aclck_tree.output.text import plural, quoted, tell
from aclck_tree.people import accounts
from aclck_tree.scan.combining import far_apart, gathered, join
from aclck_tree.scan.listed import ListedScan, entries, opened_list
from aclck_tree.scan.progress import Progress
from aclck_tree.scan.reader import ScanOptions
from aclck_tree.scan.scan import Scan
from aclck_tree.snapshot import others
from aclck_tree.snapshot.portions import LONGEST_KEY, MOST_SHARDS, read_shard
from aclck_tree.snapshot.snapshot import Account, Snapshot, Tree
from aclck_tree.snapshot.writer import Writer, new_snapshot
from aclck_tree.snapshot.writer import merge as merge_into


class AnyScan(Protocol):
    """A scan into a snapshot: of a tree, of the paths of a list, or of an archive."""

    tree: int
    errors: int

    def run(self) -> None:
        """Reads everything."""

    def names(self) -> Iterator[Account]:
        """Yields the accounts that say who its ids are."""


def scan_trees(roots: Sequence[bytes], options: ScanOptions, writer: Writer, total: Optional[int] = None,
               make: Callable[[bytes, ScanOptions, Writer, Progress], AnyScan] = Scan) -> Tuple[bool, int]:
    """Scans trees into a snapshot, each by the scan that `make` returns. Returns whether all scans are whole, and how
    many steps failed.

    Ctrl-C ends the scan early. Raises TreeError if a root cannot be read.
    """
    progress = Progress(writer, total, options.quiet)
    scans = [make(root, options, writer, progress) for root in roots]
    whole = True
    try:
        for scan in scans:
            scan.run()
    except KeyboardInterrupt:
        whole = False
    progress.end()
    for scan in scans:
        writer.add_names(scan.names())
        writer.add_members((scan.tree, user, group) for user, group in
                           accounts.memberships(writer, scan.tree))
    return whole, sum(scan.errors for scan in scans)


def _known_total(place: str) -> Optional[int]:
    """Returns the number of objects of the snapshot that this scan will replace, if there is one. Reports a file that
    is no snapshot. Raises TreeError if something else than a file is there."""
    refuse_what_is_no_file(place)
    if os.path.lexists(place):
        try:
            return Snapshot(place).count
        except TreeError as error:
            tell(f"{error}: a scan that is whole replaces it")
    return None


def scan(args: argparse.Namespace) -> int:
    """Scans trees into a snapshot. A scan that ended early does not replace a whole snapshot."""
    if args.threads < 1:
        raise UsageError("--threads takes a number from 1")
    options = ScanOptions(args.threads, args.one_file_system, quiet=args.quiet)
    if args.attribute is not None:
        options.attributes = (args.attribute,)
    if args.host:
        options.host = args.host
    _cut(args, options)
    roots = [os.fsencode(tree) for tree in args.tree or args.archive]
    place = args.output
    total = _known_total(place)
    with contextlib.ExitStack() as stack:
        make: Callable[..., AnyScan] = Scan
        if args.archive:
            make = _archive_scan(args.root or "")
        if args.list is not None:
            found = entries(stack.enter_context(opened_list(args.list)), b"\n" if args.lines else b"\0")
            make = functools.partial(ListedScan, found=found)
        writer = stack.enter_context(new_snapshot(place))
        writer.whole, errors = scan_trees(roots, options, writer, total, make)
        if args.list is not None and writer.whole and not writer.objects + errors:
            raise TreeError("the list has no path of an object, and nothing is written")
    failed = f", {plural(errors, 'step')} failed (aclck-tree info lists them)" if errors else ""
    state = "" if writer.whole else ", ended early: partial"
    if failed or state or not args.quiet:
        sys.stderr.write(f"{_made(writer)}{failed}{state}\n")
    _tell_others(writer)
    return REFUSED if errors or writer.others or not writer.whole else YES


def _tell_others(writer: Writer) -> None:
    """Reports on standard error how many objects have a list that is not read."""
    line = others.summary(writer.others)
    if line:
        tell(f"{quoted(writer.place)}: {line}")


def _archive_scan(root: str) -> Callable[..., AnyScan]:
    try:
        from aclck_tree.scan.archived import ArchiveScan  # which needs the library
    except ImportError as error:
        raise DeviceError(str(error)) from None
    return functools.partial(ArchiveScan, root=os.fsencode(root))


def _cut(args: argparse.Namespace, options: ScanOptions) -> None:
    """Reads the options that say what portion of a tree is read."""
    is_cut = args.list is not None or args.shard is not None or args.attribute is not None or args.one_file_system
    if bool(args.tree) == bool(args.archive) or args.archive and is_cut:
        raise UsageError("scan takes trees, or archives by --archive, with none of the options --from, --shard, "
                         "--attribute and --one-file-system")
    if args.root is not None and not args.archive:
        raise UsageError("--root goes with --archive")
    for place in args.archive or ():
        with contextlib.suppress(OSError):
            if os.path.samefile(place, args.output):
                raise UsageError("-o names an archive, which the snapshot would replace")
    if args.list is not None and (args.shard is not None or len(args.tree) > 1):
        raise UsageError("--from takes one tree, and no --shard")
    if args.lines and args.list is None:
        raise UsageError("--lines goes with --from")
    if args.key is not None and args.shard is None:
        raise UsageError("--key goes with --shard")
    if args.shard is not None:
        found = read_shard(args.shard)
        if not found:
            raise UsageError(f"--shard takes I/N, with I from 1 to N, and N at most {MOST_SHARDS:,}")
        options.shard, options.shards = found
    if args.key is not None:
        options.key = _key(args.key)


def _key(place: str) -> bytes:
    """Reads a key. Raises TreeError if the file is none."""
    try:
        handle = os.open(place, os.O_RDONLY | os.O_NONBLOCK | os.O_NOCTTY)
        with open(handle, "rb") as file:
            data = file.read(LONGEST_KEY + 1) if stat.S_ISREG(os.fstat(handle).st_mode) else b""
    except (OSError, ValueError) as error:
        raise TreeError(f"{quoted(place)}: {getattr(error, 'strerror', None) or error}") from None
    if not 1 <= len(data) <= LONGEST_KEY:
        raise TreeError(f"{quoted(place)}: a key is a file of 1 to {LONGEST_KEY} bytes")
    return data


def _made(writer: Writer) -> str:
    return f"{quoted(writer.place)}: {plural(writer.objects, 'object')}, {plural(writer.lists, 'distinct list')}"


def _several_times(snapshots: Sequence[Snapshot]) -> Iterator[str]:
    """Yields the line about the first of the whole trees that some snapshots have at several times, if there is one."""
    times: Dict[Tuple[str, bytes], List[Tree]] = {}
    for snapshot in snapshots:
        for number, tree in snapshot.trees.items():
            if number not in snapshot.portions:
                times.setdefault((tree.host, tree.place), []).append(tree)
    several = [trees for trees in times.values() if len(trees) > 1]
    for trees in several[:1]:
        more = f" (and {plural(len(several) - 1, 'other tree')} at several times)" if len(several) > 1 else ""
        first, last = (quoted(end(one.began for one in trees)) for end in (min, max))
        yield (f"{trees[0].words()} is there at {len(trees):,} times, from {first} to {last}{more}: each answer is "
               "about all of them")


def merge(args: argparse.Namespace) -> int:
    """Joins snapshots, and portions of one tree."""
    snapshots = [Snapshot(place) for place in args.snapshot]
    cut = gathered([snapshot for snapshot in snapshots if snapshot.portions])
    lines = list(filter(None, map(far_apart, cut)))
    with new_snapshot(args.output) as writer:
        for snapshot in snapshots:
            if not snapshot.portions:
                merge_into(writer, snapshot)
        for sources in cut:
            join(writer, sources)
    for line in [*lines, *_several_times(snapshots)]:
        tell(line)
    sys.stderr.write(f"{_made(writer)}\n")
    _tell_others(writer)
    return YES if all(snapshot.is_complete() for snapshot in snapshots) else REFUSED
