"""The command line and the run of a program that reads lists: `aclck-form`, `aclck-ask` and `aclck-probe`."""

from __future__ import annotations

import argparse
from typing import TYPE_CHECKING, Callable, NoReturn, Optional

from aclck import Refused
from aclck_tree.output.errors import DEVICE, REFUSED, YES, TreeError, UsageError

from . import streams

if TYPE_CHECKING:
    from _typeshed import SupportsWrite


class Parser(argparse.ArgumentParser):
    """A parser of a command line. Raises UsageError if the line is wrong."""

    def error(self, message: str) -> NoReturn:
        raise UsageError(message)

    def _print_message(self, message: str, file: Optional[SupportsWrite[str]] = None) -> None:
        streams.write(message.encode())  # that of argparse says nothing of a failure


def add_kinds(parser: argparse.ArgumentParser) -> None:
    """Adds the options that say what a list of nfs4-tools belongs to."""
    kinds = parser.add_mutually_exclusive_group()
    for kind in ("file", "directory"):
        kinds.add_argument(f"--{kind}", dest="kind", action="store_const", const=kind,
                           help=f"with nfs4-tools: it is the list of a {kind}")


def add_accounts(parser: argparse.ArgumentParser) -> None:
    """Adds the options for names and their ids, which `accounts_of` reads."""
    names = parser.add_mutually_exclusive_group()
    names.add_argument("--names", metavar="FILE", help="exchange names and ids: lines u:NAME=ID and g:NAME=ID")
    names.add_argument("--system", action="store_true", help="exchange names and ids, as this system has them")
    parser.add_argument("--domain", metavar="DOMAIN", help="what follows @ in the names of the list")


def run(program: str, work: Callable[[], int]) -> int:
    """Does the work of a program, and returns the exit status of the work, or that of what ends it early, which a line
    on standard error reports. No error has a status that is an answer of aclck(1)."""
    try:
        return work()
    except SystemExit:  # after --help or --version
        return YES
    except KeyboardInterrupt:
        return 130
    except Refused as refused:
        line, status = str(refused), REFUSED
    except TreeError as error:
        line, status = str(error), error.status
    except OSError as error:
        line, status = f"{error.filename}: {error.strerror}" if error.filename is not None else "read failed", DEVICE
    except MemoryError:
        line, status = "out of memory", DEVICE
    except Exception as error:  # a fault of the program; Python would exit with 1, which means `denied`
        line, status = f"internal error: {type(error).__name__}: {error}", DEVICE
    streams.tell(program, line)
    return status
