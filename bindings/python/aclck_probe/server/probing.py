"""The examination of a server."""

from __future__ import annotations

import argparse
import os
from contextlib import ExitStack, closing

from aclck_form import streams
from aclck_tree.output.errors import UsageError
from aclck_tree.output.text import quoted_place

from ..asking import undisturbed
from ..examining import Limits
from .examining import Examination
from .found import Report
from .people import People
from .rpc import Address, Credentials
from .scratch import Scratch
from .session import Session


def address_of(text: str, port: int) -> Address:
    """Returns the address of a text `HOST:/EXPORT`, in which an address of IPv6 is between brackets. Raises UsageError
    if it is none."""
    host, colon, export = text.partition(":/")
    if host.startswith("[") and host.endswith("]"):
        host = host[1:-1]
    elif ":" in host:
        host = ""
    parts = export.split("/")
    if not host or not colon or "." in parts or ".." in parts or "\0" in text:
        raise UsageError("--server is HOST:/EXPORT")
    return Address(host, port, f"/{export}")


def probe_server(args: argparse.Namespace) -> int:
    """Examines the server of a command line, writes what is found, and returns the exit status. Raises TreeError if an
    answer is not known."""
    address = address_of(args.server, args.port)
    report = Report(quoted_place(address.host, os.fsencode(address.export)))
    maker = Credentials(os.geteuid(), os.getegid())
    people = People.free()
    with ExitStack() as at_end:
        with undisturbed():
            scratch = at_end.enter_context(closing(Scratch(
                lambda: Session(address, maker, args.seconds), maker, address.export)))
        scratch.make()
        examination = Examination(scratch, people, Limits(args.most, args.seconds), report)
        if scratch.keeps_lists:
            examination.by_lists(args.scratch is not None)
        else:
            examination.by_modes()
    streams.write(report.text(args.json))
    return report.status
