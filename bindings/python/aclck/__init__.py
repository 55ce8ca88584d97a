"""Access control lists, checked, converted and compared in process by the proved library libaclck.

NFSv4 lists are `NfsAcl` (RFC 8881, section 6.2.1), POSIX ACLs are `PosixAcl` (acl(5); POSIX.1e draft 17, section 23).
Names of users and groups are `str` or `bytes`. In a `str`, bytes that are not UTF-8 are represented as by
`surrogateescape`. All calls may run in any number of threads at once. They use no live file, except the calls
`from_file`, which read attributes of one file, and `to_file`, which write them.
"""

from . import rights
from ._library import VERSION
from .aces import ALLOW, DENY, Ace, AceFlag, AceKind
from .entries import Entry
from .faults import Refused
from .forms import LeftOut, ListFlag, ListForm, TextStyle
from .nfs import NfsAcl
from .posix import PosixAcl, PosixDecision, PosixDifference, ToPosix
from .prepared import (
    Prepared,
    PreparedIds,
)
from .questions import Decided, Decision, Difference, Possible, Question, Request, Requesters, TableRow
from .rights import *
from .tar_texts import TarStyle

__all__ = [
    "ALLOW",
    "Ace",
    "AceFlag",
    "AceKind",
    "DENY",
    "Decided",
    "Decision",
    "Difference",
    "Entry",
    "LeftOut",
    "ListFlag",
    "ListForm",
    "NfsAcl",
    "PosixDecision",
    "PosixDifference",
    "PosixAcl",
    "Possible",
    "Prepared",
    "PreparedIds",
    "Question",
    "Refused",
    "Request",
    "Requesters",
    "TableRow",
    "TarStyle",
    "TextStyle",
    "ToPosix",
    "VERSION",
]
__all__ += rights.__all__
