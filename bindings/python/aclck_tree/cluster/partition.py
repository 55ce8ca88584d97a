"""Runs a command about one of several snapshots that are asked together, for `dask.py`:
`python -m aclck_tree.cluster.partition WORD ..`. Each row has its host. After the rows, the last line says what the
answer about all of them depends on. The word `judge` says whether the shards among some snapshots are all there, and
writes how many hosts the snapshots have."""

from __future__ import annotations

import json
import sys
from typing import List, Set

from aclck_tree.cli.main import main, parser_of
from aclck_tree.output.errors import USAGE, YES, TreeError
from aclck_tree.output.text import tell
from aclck_tree.scan.combining import far_apart, gathered
from aclck_tree.snapshot.snapshot import Snapshot
from aclck_tree.snapshot.together import Together


def _fault(words: List[str], snapshots: List[Snapshot]) -> str:
    """Returns why a question cannot be put to each snapshot by itself, or an empty text."""
    args = parser_of().parse_args(words)
    if args.word == "may" and args.groups is None and not args.getent or args.word != "may" and not (
            args.people or args.passwd or args.getent):
        return "snapshots that are asked together need --people, --passwd or --getent, and may needs --groups or --getent"
    portions = [list(snapshot.portions.values()) for snapshot in snapshots]
    for option in ("reach", "obtain"):
        if getattr(args, option, False) and any(portions):
            return f"--{option} needs whole trees"
    if args.word == "diff" and portions and portions[0] != portions[1]:
        return "diff compares a shard with the same shard of a tree that was cut alike"
    return ""


def _ask(words: List[str]) -> int:
    together = Together()
    status = main(words, together)
    fault = _fault(words, together.snapshots) if status < USAGE and together.is_answered else ""
    if fault:
        tell(fault)
        status = USAGE
    found = {"status": status, "answered": together.is_answered, "empty": together.is_empty,
             "unmatched": together.unmatched}
    sys.stdout.write(json.dumps(found) + "\n")
    sys.stdout.flush()
    return status


def _judge(places: List[str]) -> int:
    hosts: Set[str] = set()
    cut: List[Snapshot] = []
    try:
        for snapshot in map(Snapshot, places):
            hosts.update(tree.host for tree in snapshot.trees.values())
            cut += [snapshot] if snapshot.portions else []
        for line in filter(None, map(far_apart, gathered(cut))):
            tell(line)
    except TreeError as error:
        tell(str(error))
        return error.status
    sys.stdout.write(json.dumps({"hosts": len(hosts)}) + "\n")
    return YES


if __name__ == "__main__":
    sys.exit(_judge(sys.argv[2:]) if sys.argv[1] == "judge" else _ask(sys.argv[1:]))
