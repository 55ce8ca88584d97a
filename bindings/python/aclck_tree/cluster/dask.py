"""Scans and questions on the workers of a cluster: `client` is a `distributed.Client`. The engine chooses the workers,
repeats what a lost worker did, and keeps results on disk if memory is short.

Workers and client need this program and the library, and find trees, snapshots and files of people by the same paths. A
scheduler of Dask runs whatever is sent to it: let nobody else reach it, or use its TLS.

    import aclck_tree.cluster.dask as together
    together.scan(client, "/srv/shared", "monday", 64, "/srv/shards")
    together.who(client, ["server1.snapshot", "server2.snapshot"], "--may", "w", "--people", "people")
"""

from __future__ import annotations

import json
import os
import re
import shutil
import subprocess
import sys
import tempfile
from typing import Any, List, NamedTuple, Sequence, TextIO, Tuple

from aclck_tree.output.errors import NO, REFUSED, USAGE, YES, DeviceError, TreeError, UsageError
from aclck_tree.output.text import quoted, tell

RETRIES = 3
"""How often a task is repeated that fails."""

_START = ("import sys; sys.path[:] = filter(None, sys.path); import runpy; "
          "del sys.argv[0]; runpy.run_module(sys.argv[0], None, '__main__', True)")
"""Runs a module with the words behind its name. The option -m would look for modules in the present directory first,
where anybody may write if it is /tmp, for example."""


_HOST = re.compile(rb'"host": "(?:[^"\\]|\\.)*", ')
"""The host of a row. In JSON, nothing else than the key has these letters between quotes and a colon behind them."""


class _Done(NamedTuple):
    status: int
    out: bytes
    printed: str

    def last_line(self) -> str:
        """Returns the last line on standard error."""
        return self.printed.strip().rpartition("\n")[2]


def _run(module: str, words: Sequence[str]) -> _Done:
    """Runs a module of the program in a process of its own. Raises DeviceError if it fails, so that it is repeated."""
    done = subprocess.run([sys.executable, "-c", _START, f"aclck_tree.{module}", *words], stdin=subprocess.DEVNULL,
                          capture_output=True)
    found = _Done(done.returncode, done.stdout, done.stderr.decode(errors="backslashreplace"))
    if found.status not in (YES, NO, REFUSED, USAGE):
        raise DeviceError(f"{words[0]} ended with status {found.status}: {found.printed.strip()}")
    return found


def _submitted(client: Any, module: str, lines: Sequence[Sequence[str]]) -> List[Any]:
    return [client.submit(_run, module, list(words), pure=False, retries=RETRIES) for words in lines]


def _told(done: _Done) -> TreeError:
    """Returns the error that the last line on standard error says."""
    line = done.last_line()
    text = line[len(_HEAD):] if line.startswith(_HEAD) else line
    return UsageError(text) if done.status == USAGE else TreeError(text)


_HEAD = "aclck-tree: "


def _tell_all(done: _Done) -> None:
    """Writes what a process said on standard error about its snapshots."""
    sys.stderr.writelines(line for line in done.printed.splitlines(True) if line.startswith(_HEAD))


def scan(client: Any, tree: str, output: str, shards: int, directory: str, *options: str) -> int:
    """Scans the shards of a tree on the workers, and merges them into `output`. Their snapshots are for this time in a
    directory that all workers reach. The options are those of the command `scan`. Returns the exit status of the merge.
    Raises TreeError if a scan or the merge is refused, and DeviceError if one fails."""
    folder = tempfile.mkdtemp(prefix="shards-", dir=directory)
    try:
        paths = [os.path.join(folder, f"{number}-of-{shards}") for number in range(1, shards + 1)]
        lines = [["scan", tree, "--shard", f"{number}/{shards}", "-o", one, *options]
                 for number, one in enumerate(paths, 1)]
        for one, future in zip(paths, _submitted(client, "cli.main", lines)):
            done: _Done = future.result()
            if done.status == USAGE or not os.path.exists(one):
                raise _told(done)
        # A path that begins with a slash cannot look like the beginning of an error.
        done = _run("cli.main", ["merge", *paths, "-o", os.path.abspath(output)])
        if done.last_line().startswith(_HEAD):
            raise _told(done)
        _tell_all(done)
        return done.status
    finally:
        shutil.rmtree(folder, ignore_errors=True)


def _ask(client: Any, word: str, lines: Sequence[Sequence[str]], options: Sequence[str], file: TextIO) -> int:
    """Asks a question about each of some snapshots, or about each of some pairs of them. Writes the rows as JSON, in
    the order of the snapshots, and returns the exit status that one command about all of them has."""
    judges = _submitted(client, "cluster.partition", [["judge", *paths] for paths in zip(*lines)])
    futures = _submitted(client, "cluster.partition", [[word, *paths, *options, "--json"] for paths in lines])
    has_hosts = False
    for judge in judges:
        judged: _Done = judge.result()
        if judged.status != YES:
            raise _told(judged)
        _tell_all(judged)
        has_hosts |= json.loads(judged.out)["hosts"] > 1
    found = []
    while futures:
        done: _Done = futures.pop(0).result()  # the workers forget the rows then
        rows, _, last = done.out.rstrip(b"\n").rpartition(b"\n")
        if done.status == USAGE or not json.loads(last)["answered"]:
            raise _told(done)
        _tell_all(done)
        rows = rows if has_hosts else _HOST.sub(b"", rows)
        file.write(rows.decode("ascii") + ("\n" if rows else ""))
        found.append(json.loads(last))
    unmatched = set.intersection(*(set(one["unmatched"]) for one in found)) if found else set()
    for name in sorted(unmatched):
        tell(f"the path of rule {quoted(name)} matches nothing")
    if unmatched or all(one["empty"] for one in found):
        return REFUSED
    return max((int(one["status"]) for one in found), key=(YES, NO, REFUSED).index)


def who(client: Any, snapshots: Sequence[str], *options: str, file: TextIO = sys.stdout) -> int:
    """Writes which of the people may do what is asked. The snapshots are those of whole trees, or all shards of them,
    and the options are those of the command `who`."""
    return _ask(client, "who", [(path,) for path in snapshots], options, file)


def may(client: Any, snapshots: Sequence[str], *options: str, file: TextIO = sys.stdout) -> int:
    """Writes on which objects one user may do what is asked, as `who` does."""
    return _ask(client, "may", [(path,) for path in snapshots], options, file)


def policy(client: Any, snapshots: Sequence[str], rules: str, *options: str, file: TextIO = sys.stdout) -> int:
    """Writes which objects break a rule of a policy, as `who` does."""
    return _ask(client, "policy", [(path,) for path in snapshots], (rules, *options), file)


def diff(client: Any, pairs: Sequence[Tuple[str, str]], *options: str, file: TextIO = sys.stdout) -> int:
    """Writes what changed between the two snapshots of each pair. Shards are compared with the same shards."""
    return _ask(client, "diff", pairs, options, file)
