"""The command line of `aclck-probe`."""

from __future__ import annotations

import argparse
import sys
from typing import List, Optional

from aclck_form import streams
from aclck_form.accounts import accounts_of
from aclck_form.running import Parser, add_accounts, add_kinds, run
from aclck_form.values import FORMS_HELP, NFS, POSIX, TOOLS
from aclck_tree import VERSION
from aclck_tree.cli.main import signals_as_ctrl_c
from aclck_tree.output.errors import YES, UsageError

from .listing import listed
from .probing import probe
from .server.probing import probe_server

_NAME = "aclck-probe"

_EXIT = """exit status: 0 each object answers by its list for everybody, 1 one does not, 2 an answer is not known,
3 the command line is wrong, 4 a read or a write failed or memory ran out"""

EXAMPLES = ("aclck-probe /srv/plan.odt /srv/drafts",
            "aclck-probe --try /srv --json /srv/drafts",
            "aclck-probe --system --domain example.com /mnt/nfs/plan.odt",
            "aclck-probe --questions plan.acl --form posix",
            "aclck-probe --server files.example.com:/srv --try")
"""Examples of command lines."""

_MOST, _SECONDS, _PORT = 100_000, 10.0, 2049


def _number(text: str) -> int:
    if not text.isascii() or not text.isdigit() or not 0 < int(text[:19]) < 10**18:
        raise argparse.ArgumentTypeError(f"{text!r} is not a number of questions")
    return int(text)


def _seconds(text: str) -> float:
    try:
        found = float(text)
    except ValueError:
        found = 0.0
    if not 0 < found <= 86400:
        raise argparse.ArgumentTypeError(f"{text!r} is not a number of seconds up to 86400")
    return found


def _port(text: str) -> int:
    if not text.isascii() or not text.isdigit() or not 0 < int(text[:6]) < 1 << 16:
        raise argparse.ArgumentTypeError(f"{text!r} is not a port")
    return int(text)


def parser_of() -> argparse.ArgumentParser:
    """Returns the parser of the command line."""
    examples = "".join(f"  {example}\n" for example in EXAMPLES)
    parser = Parser(prog=_NAME, epilog=f"{FORMS_HELP}\nexamples:\n{examples}\n{_EXIT}", allow_abbrev=False,
                    formatter_class=argparse.RawDescriptionHelpFormatter,
                    description="Asks the system whether it answers by the lists of objects for everybody.")
    parser.add_argument("--version", action="version", version=f"{_NAME} {VERSION}")
    parser.add_argument("paths", metavar="PATH", nargs="*", help="a file, a directory or another object")
    parser.add_argument("--questions", metavar="LIST", help="write the questions of a list, which is in a file, or - "
                        "for standard input, and their answers as one JSON object; ask nothing")
    parser.add_argument("--form", choices=(*NFS, *POSIX), metavar="FORM", help="with --questions: the form, else xdr")
    add_kinds(parser)
    add_accounts(parser)
    parser.add_argument("--server", metavar="HOST:/EXPORT", help="ask a server of NFSv4 about lists of this program, "
                        "in a new directory of the export, which is removed at the end")
    parser.add_argument("--port", metavar="PORT", type=_port, help=f"the port of the server, else {_PORT}")
    parser.add_argument("--try", dest="scratch", metavar="DIRECTORY", nargs="?", const="", help="also try operations, "
                        "on copies in a new directory that is made here, and removed at the end")
    parser.add_argument("--attribute", metavar="NAME", help="read NFSv4 lists from this attribute alone")
    parser.add_argument("--most", metavar="COUNT", type=_number, default=_MOST,
                        help=f"how many questions one list may have, else {_MOST}")
    parser.add_argument("--seconds", metavar="SECONDS", type=_seconds,
                        help=f"how long one question may take, else {_SECONDS:g}")
    parser.add_argument("--json", action="store_true", help="write one JSON object for each object")
    return parser


def _judge(args: argparse.Namespace) -> None:
    """Gives the options that are left out their values. Raises UsageError if options do not go together."""
    lists, server = args.questions is not None, args.server is not None
    others = (args.names, args.domain, args.attribute)
    for is_wrong, line in (
            (server and (lists or bool(args.paths)), "--server goes with neither objects nor --questions"),
            (not server and lists == bool(args.paths), "either objects or --questions are given"),
            (server and (args.system or any(one is not None for one in others)),
             "--names, --system, --domain and --attribute do not go with --server"),
            (args.port is not None and not server, "--port goes with --server"),
            (args.scratch is not None and server == bool(args.scratch), "--try has a directory except with --server"),
            (args.form is not None and not lists, "--form goes with --questions"),
            ((args.form == TOOLS) != bool(args.kind), "--file or --directory goes with nfs4-tools"),
            (lists and (args.json or any(one is not None for one in (args.scratch, args.attribute, args.seconds))),
             "--try, --attribute, --seconds and --json go with objects"),
            ("" in (args.domain, args.attribute), "--domain and --attribute are not empty"),
            (args.domain is not None and not (args.system or args.names is not None),
             "--domain goes with --names or --system")):
        if is_wrong:
            raise UsageError(line)
    args.lists, args.forms = [args.questions], [args.form or "xdr"]
    args.seconds, args.port = args.seconds or _SECONDS, args.port or _PORT


def main(words: Optional[List[str]] = None) -> int:
    """Runs the program and returns its exit status. No error has the status 0 or 1."""
    def work() -> int:
        args = parser_of().parse_args(words)
        _judge(args)
        accounts = accounts_of(args)
        if args.questions is not None:
            streams.write(listed(args, accounts))
            return YES
        with signals_as_ctrl_c():
            return probe(args, accounts) if args.server is None else probe_server(args)
    return run(_NAME, work)


if __name__ == "__main__":
    sys.exit(main())
