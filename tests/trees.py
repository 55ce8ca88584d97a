"""What the scripts tests/tree and tests/tree_* share: lists and attributes as bytes, runs of aclck-tree, and a
directory for each test. The scripts need the library that `make library` leaves, or the one that ACLCK_LIBRARY names.
"""
import contextlib
import ctypes
import io
import json
import os
import re
import shutil
import subprocess
import tempfile
import time
import timeit
import unittest
from unittest import mock

from encoders import ANYBODY, nfs, posix
from harness import LIBRARY, ROOT, run, say_skipped
from aclck_tree.cli.main import main
from aclck_tree.snapshot.snapshot import Above, StoredList

TOOL = os.path.join(ROOT, "bin/aclck-tree")
IS_ROOT = os.getuid() == 0
OWNER, EDITORS, BOB = (0, 0, 7, "OWNER@"), (0, 0x40, 7, "editors@example.com"), (1, 0, 6, "bob@example.com")
TIMES = (1, 0), (10**9, 0), (1, -3600 * 10**9)
"""File systems for `coarse`: with fine times, with whole seconds, and with a clock that is an hour behind."""
EVERYONE = (0, 0, 0x80, "EVERYONE@")
PEOPLE = "alice: staff\nbob: editors staff\ndora: editors\ncarl:\n"


def tool(*words, directory=None, **more):
    """Runs the program, and returns its exit status, its output and its lines on standard error."""
    done = subprocess.run([TOOL, *words], cwd=directory, capture_output=True, **more)
    return done.returncode, done.stdout.decode(errors="surrogateescape"), done.stderr.decode(errors="surrogateescape")


def keeps(directory, name, value):
    try:
        os.setxattr(directory, name, value)
    except OSError:
        return False
    return True


def exchange(first, second, directory=-100):
    """Exchanges two names at once (renameat2(2), RENAME_EXCHANGE), the first below a directory if it is given."""
    if ctypes.CDLL(None, use_errno=True).renameat2(directory, os.fsencode(first), -100, os.fsencode(second), 2):
        raise OSError(ctypes.get_errno(), "renameat2")


def coarse(fstat, grain, ahead=0):
    """Returns `fstat` as it is on a file system whose times of changes are no finer than `grain` nanoseconds, and whose
    clock is ahead by some."""
    def cut(handle):
        status = fstat(handle)
        return changed_at(status, (status.st_ctime_ns + ahead) // grain * grain)
    return cut


def changed_at(status, nanoseconds):
    """Returns a status with another time of the last change."""
    rest = {name: getattr(status, name) for name in dir(status) if name.startswith("st_")}
    return os.stat_result(status, {**rest, "st_ctime_ns": nanoseconds})


@contextlib.contextmanager
def before(name, call, function="os.open"):
    """Calls `call` once, before `function` is called for a name."""
    place, real = [], getattr(os, function[3:])

    def hooked(one, *words, **more):
        if os.path.basename(os.fsencode(one)) == name and not place:
            place.append(one)
            call()
        return real(one, *words, **more)
    with mock.patch(function, hooked):
        yield
    assert place, name


def open_above(place):
    """Returns the directories above a place, which let everybody pass."""
    ends = [at for at, byte in enumerate(place) if byte == ord("/") and place != b"/"]
    return [Above(place[:at] or b"/", stored=StoredList("mode", 0o755, None, None)) for at in ends]


def examples_of(page):
    """Returns the session that the section EXAMPLES of a page of the manual shows."""
    with open(os.path.join(ROOT, "man", page), encoding="ascii") as file:
        text = file.read()
    shown = re.search(r"^\.Bd -literal.*?\n(.*?)^\.Ed", text[text.index(".Sh EXAMPLES"):], re.DOTALL | re.MULTILINE)[1]
    return shown.replace("\\-", "-").replace("\\(aq", "'").replace("\\e", "\\")


class Scratch(unittest.TestCase):
    def setUp(self):
        self.directory = tempfile.mkdtemp()
        os.chmod(self.directory, 0o755)
        self.addCleanup(shutil.rmtree, self.directory)
        self.write("people", PEOPLE)

    def path(self, *parts):
        return os.path.join(self.directory, *parts)

    def assert_linear(self, prepared, count):
        """Asserts that eight times as many take less than 24 times as long: some 8 times if each is looked at once, and
        64 times if pairs of them are. `prepared(count)` makes the inputs, and returns the call whose time is taken."""
        took = []
        for number in (count, 8 * count):
            call = prepared(number)
            took.append(timeit.timeit(call, timer=time.process_time, number=1))  # without passes of the collector
        self.assertLess(took[1], 24 * took[0])

    def write(self, name, text=""):
        os.makedirs(os.path.dirname(self.path(name)), exist_ok=True)
        with open(self.path(name), "w", encoding="utf-8", errors="surrogateescape") as file:
            file.write(text)
        return self.path(name)

    def replayed(self, shown, programs):
        """Runs the commands of a session in the directory, and returns the session that they make. Programs are looked
        for in the directory `programs` first."""
        self.write("shown", shown)
        words = ". tests/common.bash; cd \"$0\" && replay shown"
        done = subprocess.run(["bash", "-c", words, self.directory], cwd=ROOT, capture_output=True, text=True,
                              env={**os.environ, "PATH": f"{programs}:{os.environ['PATH']}"})
        return done.stdout

    def put(self, name, data, is_directory=False):
        """Makes a file or a directory with an NFSv4 list."""
        if is_directory:
            os.makedirs(self.path(name), exist_ok=True)
        else:
            self.write(name)
        if not keeps(self.path(name), "user.nfs4_acl", data):
            self.skipTest("files in the directory for temporary files cannot have attributes")

    def scan(self, name="tree", output="snapshot", attribute="user.nfs4_acl"):
        found = tool("scan", name, "-o", output, "--attribute", attribute, directory=self.directory)
        self.assertNotIn("Traceback", found[2])
        return found

    def run_tool(self, *words):
        """Runs the program in the directory, and returns its exit status, its output and its lines on standard error."""
        return tool(*words, directory=self.directory)

    def ask(self, *words):
        """Asks a question, and returns the exit status and the JSON objects of the answer."""
        status, out, printed = self.run_tool(*words, "--json")
        self.assertNotIn("Traceback", printed)
        return status, [json.loads(line) for line in out.splitlines()]

    def asked(self, word, *words):
        return self.ask(word, "snapshot", "--domain", "example.com", *words)[1]


class InProcess(Scratch):
    """A directory for each test. The program runs in the process of the test."""

    def run_tool(self, *words, directory=None):
        out, printed, here = io.StringIO(), io.StringIO(), os.getcwd()
        os.chdir(directory or self.directory)
        try:
            with contextlib.redirect_stdout(out), contextlib.redirect_stderr(printed):
                status = main(list(words))
        finally:
            os.chdir(here)
        return status, out.getvalue(), printed.getvalue()
