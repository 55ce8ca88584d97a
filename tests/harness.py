"""What the scripts in Python share: where the tree, the library and the modules in Python are, and how a script runs
its tests. The library is the one that ACLCK_LIBRARY names, or the one that `make library` leaves. Without it, a script
ends.
"""
import os
import signal
import sys
import unittest

ROOT = os.path.dirname(os.path.dirname(os.path.abspath(__file__)))
PYTHON = os.path.join(ROOT, "bindings/python")
LIBRARY = os.environ.setdefault("ACLCK_LIBRARY", os.path.join(ROOT, "library/out/libaclck.so.1"))
SCRIPT = os.path.basename(sys.argv[0])
if not os.path.exists(LIBRARY):
    sys.exit(f"{SCRIPT}: {LIBRARY} is not built: make library")
sys.path.insert(0, PYTHON)


def say_skipped(what, why):
    """Says what is not tried, and why, in the form that the gate counts. If a package is missing, `why` names it, or a
    program of it, and says `not installed`."""
    print(f"{SCRIPT}: SKIPPED: {what}: {why}", flush=True)


class Counted(unittest.TextTestResult):
    """Results that count the tests that pass, and say which are skipped, and why."""

    passed = 0

    def addSuccess(self, test):
        super().addSuccess(test)
        self.passed += 1

    def addSkip(self, test, reason):
        super().addSkip(test, reason)
        say_skipped(test.id().replace("__main__.", ""), reason)


def run():
    """Runs the tests of a script, or those that its words name, and exits with 1 if one fails. With the word `-f` the
    first test that fails is the last one. The last line is `N passed, M failed`. Signals that a shell or nohup(1) had
    ignored have their usual effect."""
    signal.signal(signal.SIGINT, signal.default_int_handler)
    for number in (signal.SIGTERM, signal.SIGHUP):
        signal.signal(number, signal.SIG_DFL)
    ends_early = "-f" in sys.argv[1:]
    runner = unittest.TextTestRunner(resultclass=Counted, verbosity=0, stream=sys.stdout, failfast=ends_early)
    result = unittest.main(exit=False, testRunner=runner).result
    failed = len(result.failures) + len(result.errors) + len(result.unexpectedSuccesses)
    print(f"{result.passed} passed, {failed} failed")
    sys.exit(not result.wasSuccessful())
