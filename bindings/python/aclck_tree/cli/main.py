"""The command line of `aclck-tree`."""

from __future__ import annotations

import argparse
import contextlib
import importlib
import io
import os
import signal
import sqlite3
import sys
from typing import (
    TYPE_CHECKING, Any, Callable, Dict, Iterator, List, NamedTuple, NoReturn, Optional, Sequence, Tuple, Union)

from aclck_tree import VERSION
from aclck_tree.output.errors import DEVICE, REFUSED, USAGE, DeviceError, TreeError, UsageError
from aclck_tree.output.text import Form, quoted_line, tell

if TYPE_CHECKING:
    from _typeshed import SupportsWrite

    from aclck_tree.snapshot.together import Together

_EXIT = """exit status: 0 yes or done, 1 something is denied or different, 2 something was
refused, is not known or could not be read, 3 the command line is wrong,
4 a device failed"""


class _Parser(argparse.ArgumentParser):
    def error(self, message: str) -> NoReturn:
        self.exit(USAGE, f"aclck-tree: {quoted_line(message)}\n")

    def _print_message(self, message: str, file: Optional[SupportsWrite[str]] = None) -> None:
        (file or sys.stderr).write(message)  # that of argparse says nothing of a failure


def _from_1(word: str) -> int:
    """Returns the number that a word is. Raises ArgumentTypeError if it is none from 1 on."""
    if not word.isascii() or not word.isdigit() or int(word) < 1:
        raise argparse.ArgumentTypeError("it is not a number from 1 on")
    return int(word)


PEOPLE_HELP = "who is asked about: lines `name: group group ..`, or LDIF or CSV if FILE ends with .ldif or .csv"
"""What `--help` says of `--people`."""

_Argument = Tuple[str, Dict[str, Any]]
"""The name of an argument, and what `add_argument` gets with it."""

_Arguments = Sequence[Union[_Argument, List[_Argument]]]
"""Arguments, of which those in one list exclude each other."""

_SNAPSHOT: _Argument = ("snapshot", dict(metavar="SNAPSHOT"))
_SNAPSHOTS: _Argument = ("snapshot", dict(nargs="+", metavar="SNAPSHOT"))
_OUTPUT: _Argument = ("-o", dict(dest="output", metavar="SNAPSHOT", required=True, help="the file to make"))
_EACH: _Argument = ("--each", dict(action="store_true", help="write one line per object"))
_PATH: _Argument = ("--path", dict(metavar="GLOB", help="only the objects whose path matches, where ** is any number "
                                   "of directories"))
_REACH: _Argument = ("--reach", dict(action="store_true", help="EXECUTE, or x, on each directory above an object, "
                                     "from / down, counts too"))
_OBTAIN: _Argument = ("--obtain", dict(action="store_true", help="also who could come to have it, and by which steps"))
_WANT: _Arguments = [
    ("--may", dict(metavar="RIGHTS", required=True, help="letters of rwx, or names of rights with | between")),
    ("--any", dict(action="store_true", help="ask for any of the rights, and not for all")),
    _PATH, _REACH]
_USER: _Arguments = [
    ("--user", dict(metavar="USER", required=True, help="who asks; NAME=ID gives an id")),
    [("--groups", dict(metavar="GROUPS", action="append", help="the user's groups, with commas between; may be given "
                       "several times; else those that the scanned system knew")),
     ("--getent", dict(action="store_true", help="the user's groups are those that this system knows"))]]
_PEOPLE: _Arguments = [
    [("--people", dict(metavar="FILE", help=PEOPLE_HELP)),
     ("--passwd", dict(metavar="FILE", help="the same, in the form of passwd(5), with --group")),
     ("--getent", dict(action="store_true", help="the accounts that this system lists; without any of these, those "
                       "that the scanned system listed"))],
    ("--group", dict(metavar="FILE", help="groups in the form of group(5), with --passwd")),
    ("--skip-system", dict(action="store_true", help="leave out accounts with ids below UID_MIN (login.defs(5))"))]
_DOMAIN: _Argument = ("--domain", dict(metavar="DOMAIN", help="what follows @ in the names of NFSv4 lists"))
_LINUX: _Argument = ("--linux", dict(action="store_true", help="ask POSIX ACLs as Linux does where their mask is "
                                     "empty"))
_LINUX_OR_DRAFT: _Arguments = [
    [("--linux", dict(action="store_true", help="ask POSIX ACLs as Linux does where their mask is empty, as is done "
                      "anyway if this host was scanned")),
     ("--draft", dict(action="store_true", help="ask POSIX ACLs as acl(5) says"))]]
_JUDGEMENTS: _Argument = ("--judgements", dict(type=_from_1, default=1_000_000, metavar="N", help="how many judgements "
                                               "of lists by bounds of the policy may be made (1,000,000)"))
_FORM: _Arguments = [
    [("--csv", dict(dest="form", action="store_const", const=Form.CSV, default=Form.TEXT,
                    help="write CSV, one line per object or answer")),
     ("--json", dict(dest="form", action="store_const", const=Form.JSON, default=Form.TEXT,
                     help="write one JSON object per line"))],
    ("--raw", dict(action="store_true", help="with --csv: put no apostrophe in front of a cell that a spreadsheet "
                   "would run"))]


class _Word(NamedTuple):
    """A command: a line about it, what it does, an example, the module and its function that run it, and its arguments
    in the order of the help."""

    about: str
    does: str
    example: str
    run: str
    arguments: _Arguments


_WORDS: Dict[str, _Word] = {
    "scan": _Word(
        "read trees into a snapshot",
        "Reads lists, owners, groups and modes of all objects in trees into one file.",
        "aclck-tree scan /srv/shared -o monday",
        "scan.making:scan", [
            ("tree", dict(nargs="*", metavar="TREE",
                          help="a directory; a link to one is followed, links in it are not")),
            _OUTPUT,
            ("--one-file-system", dict(action="store_true", help="do not go into other file systems")),
            ("--threads", dict(type=int, default=32, metavar="N",
                               help="how many objects to read at once where a read waits (32)")),
            ("--attribute", dict(metavar="NAME", help="read NFSv4 lists from this attribute alone; else from "
                                 "system.nfs4_acl, system.nfs4_dacl, security.nfs4acl_xdr or system.nfs4_acl_xdr, "
                                 "whichever comes first")),
            ("--host", dict(metavar="NAME", help="the name of this host in the snapshot")),
            ("--quiet", dict(action="store_true", help="report failures alone")),
            ("--from", dict(dest="list", metavar="FILE", help="read only the paths of this list, or of standard input "
                            "for -, which are paths below the tree; a zero byte ends each, as in find -print0")),
            ("--lines", dict(action="store_true", help="with --from: a line feed ends each path")),
            ("--archive", dict(metavar="FILE", action="append", default=[], help="read the members of this tar "
                               "archive, and no tree; may be given several times")),
            ("--root", dict(metavar="DIRECTORY", help="with --archive: the directory of the archive that is the tree; "
                            "else the whole archive is")),
            ("--shard", dict(metavar="I/N", help="read only shard I of N, which merge joins")),
            ("--key", dict(metavar="FILE", help="with --shard: bytes that nobody else knows, the same for all "
                           "shards"))]),
    "merge": _Word(
        "join snapshots",
        "Joins the snapshots of several hosts, and those of all shards of a tree.",
        "aclck-tree merge server1.snapshot server2.snapshot -o all",
        "scan.making:merge",
        [_SNAPSHOTS, _OUTPUT]),
    "who": _Word(
        "who may do something, object by object",
        "Writes which of some people may do what is asked.",
        "aclck-tree who monday --may WRITE_DATA --people people --domain example.com",
        "answer.questions:who",
        [_SNAPSHOT, *_WANT, _OBTAIN, *_PEOPLE, _EACH, _DOMAIN, *_LINUX_OR_DRAFT, *_FORM]),
    "may": _Word(
        "on what one user may do something",
        "Writes the objects on which one user may do what is asked.",
        "aclck-tree may monday --user bob --groups staff,editors --may rw --path '**/*.odt'",
        "answer.questions:may", [
            _SNAPSHOT, *_WANT, *_USER,
            ("--all", dict(action="store_true", help="write the objects on which it is denied, too")),
            _DOMAIN, _LINUX, *_FORM]),
    "why": _Word(
        "which ACE or entry decides",
        "Writes of each right which ACE or entry decides about it for one user.",
        "aclck-tree why monday /srv/shared/plan.odt --user bob --groups staff,editors",
        "answer.questions:why", [
            _SNAPSHOT,
            ("path", dict(metavar="PATH")),
            *_USER,
            ("--may", dict(metavar="RIGHTS", help="only about these rights")),
            _OBTAIN, _DOMAIN, _LINUX, *_FORM]),
    "same": _Word(
        "which objects grant the same",
        "Writes the classes of objects whose lists grant the same, greatest first.",
        "aclck-tree same monday --inherit",
        "answer.commands:same", [
            _SNAPSHOT,
            ("--inherit", dict(action="store_true", help="of directories, what is made below them counts too")),
            _EACH, _PATH, *_FORM]),
    "diff": _Word(
        "what changed between two snapshots, and for whom",
        "Writes which objects came, went or changed, and for whom access changed.",
        "aclck-tree diff monday tuesday --people people --domain example.com",
        "diff.diffing:diff", [
            ("old", dict(metavar="OLD")),
            ("new", dict(metavar="NEW")),
            ("--each", dict(action="store_true", help="write one line per object, and not one per class of changes")),
            ("--pair", dict(metavar="OLD=NEW", action="append", default=[],
                            help="these paths are one tree; may be given several times")),
            *_PEOPLE,
            ("--people-then", dict(metavar="FILE", help="who is asked about in NEW, as --people takes them: what would "
                                   "another membership change?")),
            _PATH, _DOMAIN, *_FORM]),
    "policy": _Word(
        "whether a tree keeps a policy, and what breaks it",
        "Writes which objects break a rule of a policy, with the ACE or entry that does, and for whom.",
        "aclck-tree policy monday policy.toml --people people --domain example.com",
        "policy.checking:policy", [
            _SNAPSHOT,
            ("policy", dict(metavar="POLICY", help="the rules, in TOML")),
            ("--each", dict(action="store_true", help="write one line per object and rule")),
            ("--fix", dict(metavar="DIR", help="write mended lists into this new directory, with scripts that put them "
                           "in place and back; nothing is applied")),
            _JUDGEMENTS, *_PEOPLE, _DOMAIN, *_LINUX_OR_DRAFT, *_FORM]),
    "report": _Word(
        "make a page of HTML",
        "Makes one page with totals, a table of who has which access, and findings.",
        "aclck-tree report monday --people people -o monday.html",
        "report.report:report", [
            _SNAPSHOT,
            ("-o", dict(dest="output", metavar="FILE", help="the page to make; else it goes to standard output")),
            *_PEOPLE, _DOMAIN, *_LINUX_OR_DRAFT, _PATH, _REACH,
            ("--policy", dict(metavar="POLICY", help="the rules of this file come first in the findings")),
            _JUDGEMENTS, *_FORM]),
    "info": _Word(
        "what a snapshot has",
        "Writes which trees a snapshot has, and each step of its scan that failed.",
        "aclck-tree info monday",
        "answer.commands:info",
        [_SNAPSHOT, *_FORM]),
    "load": _Word(
        "put snapshots into a database",
        "Puts snapshots into tables of PostgreSQL, all of them or none. It needs psql.",
        "aclck-tree load monday --domain example.com --dsn 'host=db dbname=audit'",
        "load.loading:load", [
            _SNAPSHOTS,
            ("--dsn", dict(metavar="DSN", help="the database, as psql takes it; else the variables of psql name it")),
            ("--as-superuser", dict(action="store_true", help="load although the role is a superuser, or can become "
                                    "one")),
            *_PEOPLE, _DOMAIN, _REACH])}

EXAMPLES = {word: row.example for word, row in _WORDS.items()}
"""An example for each word."""


def parser_of() -> argparse.ArgumentParser:
    """Returns the parser of the command line."""
    examples = "".join(f"  {example}\n" for example in EXAMPLES.values())
    parser = _Parser(prog="aclck-tree", epilog=f"examples:\n{examples}\n{_EXIT}", allow_abbrev=False,
                     formatter_class=argparse.RawDescriptionHelpFormatter,
                     description="Who may do what in a whole tree of files. It reads live files and never writes one.")
    parser.add_argument("--version", action="version", version=f"aclck-tree {VERSION}")
    words = parser.add_subparsers(dest="word", metavar="COMMAND", required=True, parser_class=_Parser)
    for word, row in _WORDS.items():
        of_word = words.add_parser(word, help=row.about, description=row.does, allow_abbrev=False,
                                   epilog=f"example: {row.example}\n\n{_EXIT}",
                                   formatter_class=argparse.RawDescriptionHelpFormatter)
        for one in row.arguments:
            group = of_word.add_mutually_exclusive_group() if isinstance(one, list) else of_word
            for name, options in one if isinstance(one, list) else [one]:
                group.add_argument(name, **options)
    return parser


def _run(words: Optional[List[str]], together: Optional[Together]) -> int:
    """Runs one command, and returns its exit status."""
    try:
        args = parser_of().parse_args(words, argparse.Namespace(together=together))
    except SystemExit as done:  # after --help or --version, or a wrong command line
        return done.code if isinstance(done.code, int) else USAGE
    if getattr(args, "raw", False):
        if args.form is not Form.CSV:
            raise UsageError("--raw goes with --csv")
        args.form = Form.RAW_CSV
    module, _, name = _WORDS[args.word].run.partition(":")
    try:
        command: Callable[[argparse.Namespace], int] = getattr(importlib.import_module(f"aclck_tree.{module}"), name)
    except ImportError as error:
        raise DeviceError(str(error)) from None
    return command(args)


def main(words: Optional[List[str]] = None, together: Optional[Together] = None) -> int:
    """Runs the program and returns its exit status. No error has a status that is an answer. `together` takes what the
    run finds out if its snapshots are asked together with others."""
    _open_streams()
    line, status = "", DEVICE
    try:
        with signals_as_ctrl_c():
            status = _run(words, together)
            sys.stdout.flush()
    except TreeError as error:
        line, status = str(error), error.status
    except sqlite3.DatabaseError as error:
        line, status = f"a snapshot cannot be read: {error}", REFUSED
    except BrokenPipeError:
        status = DEVICE
    except OSError as error:
        line, status = error.strerror or str(error), DEVICE
    except MemoryError:
        line, status = "out of memory", DEVICE
    except KeyboardInterrupt:
        status = 130
    except Exception as error:  # a fault of this program; Python would exit with 1, which means `denied`
        line, status = f"internal error: {type(error).__name__}: {error}", DEVICE
    if line:
        with contextlib.suppress(OSError):
            tell(line)
    return _end_streams(status)


def _open_streams() -> None:
    """Prepares the standard streams. If they are closed, writing to standard output fails, and lines to standard error
    are lost."""
    if sys.stdout is None:
        sys.stdout = open(os.open(os.devnull, os.O_RDONLY), "w", encoding="utf-8")
    if sys.stderr is None:
        sys.stderr = open(os.devnull, "w", encoding="utf-8")
    for stream in (sys.stdout, sys.stderr):
        if isinstance(stream, io.TextIOWrapper):
            stream.reconfigure(encoding="utf-8", errors="surrogateescape")


def _end_streams(status: int) -> int:
    """Writes what the standard streams still hold, and returns the exit status. If a stream cannot be written, it goes
    nowhere from now on: otherwise Python would fail at it once more when it ends, and exit with 120."""
    for stream in (sys.stdout, sys.stderr):
        try:
            stream.flush()
        except OSError:
            status = DEVICE
            os.dup2(os.open(os.devnull, os.O_WRONLY), stream.fileno())
    return status


@contextlib.contextmanager
def signals_as_ctrl_c() -> Iterator[None]:
    """Lets SIGTERM and SIGHUP do what Ctrl-C does, unless they are ignored, as after nohup(1)."""
    taken = [one for one in (signal.SIGTERM, signal.SIGHUP) if signal.getsignal(one) == signal.SIG_DFL]
    for one in taken:
        signal.signal(one, signal.default_int_handler)
    try:
        yield
    finally:
        for one in taken:
            signal.signal(one, signal.SIG_DFL)


if __name__ == "__main__":
    sys.exit(main())

