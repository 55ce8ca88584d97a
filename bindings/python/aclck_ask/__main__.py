"""The command line of `aclck-ask`."""

from __future__ import annotations

import argparse
import sys
from typing import Any, Callable, Dict, List, Optional, Tuple

from aclck_form import streams
from aclck_form.accounts import SystemIds, accounts_of
from aclck_form.running import Parser, add_accounts, add_kinds, run
from aclck_form.values import FORMS_HELP, NFS, POSIX, TOOLS
from aclck_tree import VERSION
from aclck_tree.cli.main import PEOPLE_HELP
from aclck_tree.output.errors import UsageError

from .answer import Reply
from .comparing import at_most, same
from .describing import holders, needed
from .lists import STANDARD_INPUT
from .restricting import restrict

_NAME = "aclck-ask"

_EXIT = """exit status: 0 yes or done, 1 no, 2 a list is refused or the answer is not known,
3 the command line is wrong, 4 a read or a write failed or memory ran out"""

EXAMPLES = {
    "at-most": "aclck-ask at-most --form text old.text new.text",
    "same": "aclck-ask same --form posix --form posix-access first.acl second.value",
    "holders": "getfattr --only-values -n system.nfs4_acl plan.odt | aclck-ask holders WRITE_DATA -",
    "needed": "aclck-ask needed --file --form nfs4-tools plan.acl",
    "restrict": "aclck-ask restrict --form text list.text bound.text",
    "who": "aclck-ask who READ_DATA plan.xdr --people people --domain example.com --owner alice --group staff",
}
"""An example for each question."""

_Argument = Tuple[str, Dict[str, Any]]
"""The name of an argument, and what `add_argument` gets with it."""

_RIGHT: _Argument = ("right", dict(metavar="RIGHT", help="a right, such as WRITE_DATA"))
_LIST: _Argument = ("list", dict(metavar="LIST", help="a file, or - for standard input"))

_QUESTIONS: Dict[str, Tuple[str, List[_Argument]]] = {
    "at-most": ("whether a new list grants at most what an old one grants", [
        ("old", dict(metavar="OLD", help="a file, or - for standard input")),
        ("new", dict(metavar="NEW", help="the same"))]),
    "same": ("whether two lists grant everybody the same", [
        ("first", dict(metavar="FIRST", help="a file, or - for standard input")),
        ("second", dict(metavar="SECOND", help="the same"))]),
    "holders": ("who has a right by an NFSv4 list, in words", [_RIGHT, _LIST]),
    "needed": ("which rights of an NFSv4 list decide something, and which can go", [_LIST]),
    "restrict": ("what an NFSv4 list keeps under a bound, which is a list too", [
        _LIST, ("bound", dict(metavar="BOUND", help="the same")),
        ("--inherit", dict(action="store_true", help="bound everything that will be created below the object too"))]),
    "who": ("which of some people have a right", [
        ("right", dict(metavar="RIGHT", help="rights with | between them, or letters of rwx for a POSIX ACL")), _LIST,
        ("--people", dict(metavar="FILE", required=True, help=PEOPLE_HELP)),
        ("--owner", dict(metavar="USER", required=True, help="the owner of the object")),
        ("--group", dict(metavar="GROUP", required=True, help="the owning group of the object"))])}
"""The questions, each with what it answers, and with its own arguments."""


def parser_of() -> argparse.ArgumentParser:
    """Returns the parser of the command line."""
    examples = "".join(f"  {example}\n" for example in EXAMPLES.values())
    parser = Parser(prog=_NAME, epilog=f"{FORMS_HELP}\nexamples:\n{examples}\n{_EXIT}", allow_abbrev=False,
                    formatter_class=argparse.RawDescriptionHelpFormatter,
                    description="Answers questions about one or two access control lists.")
    parser.add_argument("--version", action="version", version=f"{_NAME} {VERSION}")
    questions = parser.add_subparsers(dest="question", metavar="QUESTION", required=True, parser_class=Parser)
    for word, (about, arguments) in _QUESTIONS.items():
        of_word = questions.add_parser(word, help=about, description=f"Answers {about}.", allow_abbrev=False,
                                       epilog=f"{FORMS_HELP}\nexample: {EXAMPLES[word]}\n\n{_EXIT}",
                                       formatter_class=argparse.RawDescriptionHelpFormatter)
        for name, options in arguments:
            of_word.add_argument(name, **options)
        of_word.add_argument("--form", dest="forms", action="append", choices=(*NFS, *POSIX), metavar="FORM",
                             help="the form of a list, else xdr; given twice, those of the first and of the second")
        add_kinds(of_word)
        add_accounts(of_word)
        of_word.add_argument("--json", action="store_true", help="write one JSON object")
    return parser


def _judge(args: argparse.Namespace) -> None:
    """Gives each list its form. Raises UsageError if options do not go with the lists."""
    words = ("old", "new", "first", "second", "list", "bound")
    args.lists = [getattr(args, word) for word in words if hasattr(args, word)]
    forms = args.forms or ["xdr"]
    args.forms = forms * len(args.lists) if len(forms) == 1 else forms
    named = [args.domain, getattr(args, "owner", None), getattr(args, "group", None)]
    uses_domain = args.names is not None or args.system or args.question == "who"
    for is_wrong, line in (
            (len(args.forms) > len(args.lists), "--form is given more often than a list"),
            (args.lists.count(STANDARD_INPUT) > 1, "one list alone can be standard input"),
            ((TOOLS in args.forms) != bool(args.kind), "--file or --directory goes with nfs4-tools"),
            (args.domain is not None and not uses_domain, "--domain goes with --names, --system or who"),
            ("" in named, "--domain, --owner and --group are not empty")):
        if is_wrong:
            raise UsageError(line)


def _answered(args: argparse.Namespace) -> Reply:
    """Returns the answer to the question of the command line. Raises TreeError and OSError."""
    accounts = accounts_of(args)
    if args.question == "who":
        from .people import who  # which needs the modules of aclck-tree
        return who(args, accounts)
    asked: Dict[str, Callable[[argparse.Namespace, Optional[SystemIds]], Reply]] = {
        "at-most": at_most, "same": same, "holders": holders, "needed": needed, "restrict": restrict}
    return asked[args.question](args, accounts)


def main(words: Optional[List[str]] = None) -> int:
    """Runs the program and returns its exit status. No error has the status 0 or 1."""
    def work() -> int:
        args = parser_of().parse_args(words)
        _judge(args)
        answer = _answered(args)
        if answer.note:
            streams.tell(_NAME, answer.note)
        streams.write(answer.text(args.question, args.json))
        return answer.status
    return run(_NAME, work)


if __name__ == "__main__":
    sys.exit(main())
