"""The command line of `aclck-form`."""

from __future__ import annotations

import argparse
import os
import re
import sys
from typing import List, Optional, Tuple

from aclck import (APPEND_DATA, DELETE_CHILD, WRITE_DATA, AceFlag, LeftOut, ListFlag, NfsAcl, PosixAcl,
                   PosixDifference, mask_text)
from aclck_tree import VERSION
from aclck_tree.output.errors import YES, TreeError, UsageError
from aclck_tree.output.text import quoted_line

from . import streams
from .accounts import SystemIds, accounts_of, exchanged, names_of_ids, posix_with_names, suffix_of
from .running import Parser, add_accounts, add_kinds, run
from .values import (BYTES, FORMS_HELP, NFS, OF_DEFAULT, POSIX, TOOLS, WITH_FLAGS, WITH_IDS, WITH_NAMES, WITH_PARTS,
                     read_nfs, read_part, written_nfs, written_posix)

_NAME = "aclck-form"

_PERMISSIONS = {4: "r", 2: "w", 1: "x"}

_EXACT = "exact"

_EPILOG = FORMS_HELP + """
examples:
  getfattr --only-values -n system.nfs4_acl plan.odt | aclck-form xdr text
  nfs4_getfacl plan.odt | aclck-form --file nfs4-tools xdr > plan.xdr
  aclck-form --flags PROTECTED xdr nfs41 < plan.xdr > plan.dacl
  aclck-form nfs-text xdr < getfacl-of-freebsd.txt > plan.xdr
  aclck-form --names names nfs-text-ids xdr < getfacl-of-freebsd.txt > plan.xdr
  aclck-form --names names --flags none xdr nfs41-ids < plan.xdr > plan.ids
  getfacl -n plan.odt | aclck-form posix posix-access > plan.value
  aclck-form --mode 750 posix-default posix < directory.value
  aclck-form posix-archive posix < plan.text
  aclck-form --mode 750 posix-archive-default posix < directory.text
  aclck-form --system posix-gnu-tar posix < plan.text
  aclck-form --system --mode 750 posix-gnu-tar-default posix < directory.text
  aclck-form --bridge --names names posix xdr < plan.acl > plan.xdr
  aclck-form --bridge --names names xdr posix < plan.xdr

exit status: 0 done, 2 the value is refused or TO cannot hold it, 3 the
command line is wrong, 4 a read or a write failed or memory ran out"""


def _flags(text: str) -> ListFlag:
    names = set() if text == "none" else set(text.split("|"))
    if not names <= set(ListFlag.__members__):
        raise argparse.ArgumentTypeError(f"{text!r} is not none or some of {'|'.join(ListFlag.__members__)}")
    return ListFlag(sum(ListFlag[name] for name in names))


def _mode(text: str) -> int:
    if not re.fullmatch("0?[0-7]{1,3}", text):
        raise argparse.ArgumentTypeError(f"{text!r} is not a mode")
    return int(text, 8)


def parser_of() -> argparse.ArgumentParser:
    """Returns the parser of the command line."""
    parser = Parser(prog=_NAME, epilog=_EPILOG, allow_abbrev=False,
                    formatter_class=argparse.RawDescriptionHelpFormatter,
                    description="Reads an access control list in the form FROM, and writes it in the form TO.")
    parser.add_argument("--version", action="version", version=f"{_NAME} {VERSION}")
    parser.add_argument("source", metavar="FROM", choices=(*NFS, *POSIX), help="the form of standard input")
    parser.add_argument("target", metavar="TO", choices=(*NFS, *POSIX), help="the form of standard output")
    add_kinds(parser)
    parser.add_argument("--bridge", action="store_true", help="make an NFSv4 list of a POSIX ACL; or make a POSIX "
                        "list of an NFSv4 list, and report who loses by it")
    parser.add_argument("--exact-only", action="store_true", help="with --bridge to a POSIX form: write nothing if "
                        "anybody loses r, w or x, or may lose it by --leave-out")
    parser.add_argument("--mode", metavar="OCT", type=_mode, help="with FROM posix-default, or "
                        "another one of default entries: the mode of the directory")
    add_accounts(parser)
    parser.add_argument("--flags", metavar="FLAGS", type=_flags, help="the flags that the written list has: none, or "
                        "names with | between")
    parser.add_argument("--drop", choices=("flags", "access", "default"), help="leave out the flags of the list, the "
                        "access entries, or the default entries and what new objects inherit, which TO cannot hold")
    parser.add_argument("--leave-out", action="store_true", help="leave out the ACEs that access does not read, of a "
                        "value of nfs4-tools, nfs-text, nfs-text-ids, nfs41 or nfs41-ids, and report them")
    return parser


def _judge(args: argparse.Namespace) -> None:
    """Raises UsageError if options do not go with the forms."""
    args.crosses, args.to_posix = (args.source in POSIX) != (args.target in POSIX), args.target in POSIX
    args.from_ids, args.to_ids = args.source in WITH_IDS, args.target in WITH_IDS
    args.exchanges = args.names is not None or args.system
    args.named = args.source in WITH_NAMES or args.target in WITH_NAMES
    for is_wrong, line in (
            (args.crosses != args.bridge, "--bridge goes from a POSIX form to an NFSv4 form or back, and nothing else "
             "does"),
            (args.crosses and args.target in OF_DEFAULT, "an NFSv4 list becomes access entries"),
            (args.exact_only and not (args.bridge and args.to_posix), "--exact-only goes with --bridge to a POSIX form"),
            ((TOOLS in (args.source, args.target)) != bool(args.kind), "--file or --directory goes with nfs4-tools"),
            ((args.source in OF_DEFAULT) != (args.mode is not None), "--mode goes with FROM posix-default, and with "
             "FROM of the default entries of an archive"),
            (args.flags is not None and args.target not in WITH_FLAGS, "--flags goes with TO nfs41 or nfs41-ids"),
            (args.leave_out and args.source not in WITH_PARTS, "--leave-out goes with a FROM of another system"),
            (args.exchanges and not args.named and args.to_ids == args.from_ids,
             "--names and --system go from a form with names to one with ids, or back"),
            (args.domain is not None and not (args.domain and _renames(args)),
             "--domain is not empty, and goes with --names or --system")):
        if is_wrong:
            raise UsageError(line)


def _renames(args: argparse.Namespace) -> bool:
    """Whether the names and the ids of an NFSv4 list are exchanged. That of a POSIX ACL has ids, and so has one that
    becomes a POSIX ACL."""
    return bool(args.exchanges and args.from_ids != args.to_ids)


def _converted(args: argparse.Namespace, data: bytes) -> bytes:
    """Returns the value in the form TO. Raises Refused and TreeError."""
    accounts = accounts_of(args)
    left_out: List[LeftOut] = []
    if args.source in POSIX:
        posix = _read_posix(args, data, accounts)
        if args.to_posix:
            return _written_posix(args, posix, accounts)
        acl, flags = posix.bridge(), ListFlag(0)
    else:
        acl, flags, left_out = _read_nfs(args, data)
    if accounts and _renames(args):
        acl = exchanged(acl, accounts, args.to_ids, suffix_of(args))
    kept = _placed(args, flags)
    if args.to_posix:
        return _written_posix(args, _posix_of(args, acl, left_out), accounts)
    return written_nfs(args.target, acl, kept, args.kind)


def _read_posix(args: argparse.Namespace, data: bytes, accounts: Optional[SystemIds]) -> PosixAcl:
    """Returns the POSIX ACL of a value, and reports the entries for which TO has no place."""
    posix = posix_with_names(args.source, data, args.mode, accounts)
    if args.target not in ("posix", *OF_DEFAULT) and any(entry.default for entry in posix):
        _drop(args, "default", "the default entries")
    if args.target in OF_DEFAULT:
        _drop(args, "access", "the access entries")
    return posix


def _written_posix(args: argparse.Namespace, posix: PosixAcl, accounts: Optional[SystemIds]) -> bytes:
    """Returns the value of a POSIX ACL. In the text of an archive, ids have the names of the accounts."""
    entries = [entry for entry in posix if entry.default == (args.target in OF_DEFAULT)]
    return written_posix(args.target, posix, names_of_ids(entries, accounts) if accounts else ())


def _read_nfs(args: argparse.Namespace, data: bytes) -> Tuple[NfsAcl, ListFlag, List[LeftOut]]:
    """Returns the NFSv4 list and the flags of a value, and the ACEs that are left out, which it reports."""
    if not args.leave_out:
        return (*read_nfs(args.source, data, args.kind), [])
    acl, flags, left_out = read_part(args.source, data, args.kind)
    for ace in left_out:
        _tell(f"left out: {ace}")
    return acl, flags, left_out


def _posix_of(args: argparse.Namespace, acl: NfsAcl, left_out: List[LeftOut]) -> PosixAcl:
    """Returns the POSIX ACL that an NFSv4 list with ids becomes, and reports who loses by it. Raises TreeError if
    somebody does, or may, and `--exact-only` is given."""
    inherits = any(ace.flags & (AceFlag.FILE_INHERIT | AceFlag.DIRECTORY_INHERIT) for ace in acl)
    if inherits:
        _drop(args, "default", "what new objects inherit")
    made = acl.to_posix()
    line = _verdict(made.lost, left_out)
    if args.exact_only and line != _EXACT:
        raise TreeError(f"{line}, and --exact-only is given")
    _tell(line)
    for one, other in ((WRITE_DATA, APPEND_DATA), (APPEND_DATA, WRITE_DATA)):
        if acl.implies(one, other):  # a POSIX ACL has no permission for one of them alone
            _tell(f"{mask_text(one)} without {mask_text(other)} is lost")
    if (inherits or args.kind == "directory") and _removes_more(made.acl, acl):
        _tell("DELETE_CHILD is gained with w")
    return made.acl


def _removes_more(posix: PosixAcl, acl: NfsAcl) -> bool:
    """Returns whether the POSIX ACL grants w to somebody to whom the NFSv4 list does not grant DELETE_CHILD: by POSIX,
    w on a directory is the right to remove what is in it, too."""
    wider = (ace._replace(mask=ace.mask | DELETE_CHILD) if ace.mask & WRITE_DATA else ace for ace in posix.bridge())
    return NfsAcl.from_aces(wider).exceeds(acl) is not None


def _verdict(lost: Optional[PosixDifference], left_out: List[LeftOut]) -> str:
    """Returns the words for what is lost. Whom an ALLOW of a special identifier allows something is not known."""
    if lost is not None:
        return f"not exact: {_loser(lost)}"
    if any(ace.reason != "AuditOrAlarm" for ace in left_out):
        return "not known to be exact: an ALLOW is left out"
    return _EXACT


def _loser(lost: PosixDifference) -> str:
    """Returns the words for a request that only the NFSv4 list grants."""
    groups = f"groups {','.join(map(str, lost.groups))}" if lost.groups else "no group"
    return (f"user {lost.user} in {groups} loses {_PERMISSIONS[lost.want]} on an object of user {lost.owner} "
            f"and group {lost.group}")


def _placed(args: argparse.Namespace, flags: ListFlag) -> ListFlag:
    """Returns the flags of the list that TO gets, and reports those that go."""
    kept = args.flags if args.flags is not None else flags if args.target in WITH_FLAGS else ListFlag(0)
    lost = "|".join(name for name, flag in ListFlag.__members__.items() if flag & flags & ~kept)
    if lost and args.flags is None:
        _drop(args, "flags", lost)
    elif lost:
        _tell(f"dropped {lost}")
    return ListFlag(kept)


def _drop(args: argparse.Namespace, part: str, what: str) -> None:
    """Reports a part of the list that TO cannot hold. Raises TreeError unless the command line drops it."""
    if args.drop != part:
        raise TreeError(f"{args.target} cannot hold {what}, and --drop {part} is not given")
    _tell(f"dropped {what}")


def _write_value(form: str, data: bytes) -> None:
    """Writes a value. On a terminal, a text has `\\u009b` in place of such a character, which could control it."""
    if form not in BYTES and os.isatty(1):
        lines = data.decode("utf-8", "surrogateescape").split("\n")
        data = "\n".join(map(quoted_line, lines)).encode()
    streams.write(data)


def _tell(line: str) -> None:
    streams.tell(_NAME, line)


def main(words: Optional[List[str]] = None) -> int:
    """Runs the program and returns its exit status. No error has a status that is an answer of aclck(1)."""
    def work() -> int:
        args = parser_of().parse_args(words)
        _judge(args)
        _write_value(args.target, _converted(args, streams.read(0)))
        return YES
    return run(_NAME, work)


if __name__ == "__main__":
    sys.exit(main())
