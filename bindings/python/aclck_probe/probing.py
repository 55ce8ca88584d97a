"""The examination of objects: each distinct list is asked about once."""

from __future__ import annotations

import argparse
from contextlib import ExitStack, closing
from typing import Dict, Hashable, Optional, Tuple

from aclck_form import streams
from aclck_form.accounts import SystemIds
from aclck_tree.output.errors import NO, REFUSED, YES, TreeError
from aclck_tree.scan.reader import reason_of

from .answers import Answer
from .asking import require_root, undisturbed
from .examining import Examination, Limits
from .objects import Lists, Probed
from .trying import Scratch


class _Probe:
    """The lists that were asked, each with the first object that has it."""

    def __init__(self, limits: Limits, lists: Lists, scratch: Optional[Scratch]) -> None:
        self._limits, self._lists, self._scratch = limits, lists, scratch
        self._known: Dict[Hashable, Tuple[str, Answer]] = {}

    def answer(self, path: str) -> Tuple[Answer, Optional[str]]:
        """Returns the answer about an object, and the object that was asked in its place if another one has the same
        list."""
        try:
            with self._lists.opened(path) as probed:
                if probed.key in self._known:
                    first, answer = self._known[probed.key]
                    return answer, first
                answer = self._examined(probed)
                self._known[probed.key] = path, answer
                return answer, None
        except TreeError as error:
            return Answer(reason=str(error)), None
        except OSError as error:
            return Answer(reason=reason_of(error)), None

    def _examined(self, probed: Probed) -> Answer:
        """Returns the answer about an object whose list was not asked before. Raises TreeError if the answers by
        access(2) are not known, and OSError."""
        by_access = Examination(probed, self._limits).by_access()
        probed.require_same()
        if self._scratch is None:
            return Answer(by_access)
        try:
            return Answer(by_access, self._scratch.tried(probed, self._limits))
        except TreeError as error:
            return Answer(by_access, reason=str(error))
        except OSError as error:
            return Answer(by_access, reason=reason_of(error))


def probe(args: argparse.Namespace, accounts: Optional[SystemIds]) -> int:
    """Examines the objects of a command line, writes the answers, and returns the exit status. Raises TreeError if
    nobody can be asked, or the scratch directory cannot be made or removed, and OSError."""
    require_root()
    with closing(Lists(args, accounts)) as lists, ExitStack() as at_end:
        with undisturbed():
            scratch = None if args.scratch is None else at_end.enter_context(closing(Scratch(args, lists)))
        probed = _Probe(Limits(args.most, args.seconds), lists, scratch)
        found = {_written(path, *probed.answer(path), args.json) for path in args.paths}
    return REFUSED if REFUSED in found else NO if NO in found else YES


def _written(path: str, answer: Answer, first: Optional[str], is_json: bool) -> int:
    streams.write(answer.text(path, first, is_json))
    return answer.status
