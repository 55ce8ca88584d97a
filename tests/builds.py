"""What the scripts tests/programs and tests/server share: they build programs with the library that `make library`
leaves, or with the one next to the file that ACLCK_LIBRARY names. A test whose compiler is missing is skipped, and says so.
"""
import os
import shutil
import subprocess

from trees import LIBRARY, ROOT, Scratch, nfs

MADE = os.path.dirname(os.path.abspath(LIBRARY))
READ_DATA, WRITE_DATA, EXECUTE, EVERYONE = 1, 2, 0x20, "EVERYONE@"
ALLOW, DENY, GROUP = 0, 1, 0x40
# The longest list that an attribute can hold, of 65,536 bytes.
LONGEST = nfs(*[(ALLOW, 0, WRITE_DATA, "x" * 1004)] * 64, (ALLOW, 0, WRITE_DATA, "y" * 236))


class Programs(Scratch):
    """Tests that build programs, each in a directory of its own."""

    def called(self, *words, status=0, **more):
        """Runs a command that must end with the status, and returns its output."""
        more = {"cwd": self.directory, "text": True, **more}
        done = subprocess.run(words, stdout=subprocess.PIPE, stderr=subprocess.STDOUT, **more)
        self.assertEqual(done.returncode, status, f"{words}: {done.stdout[-3000:]}")
        return done.stdout

    def need(self, *programs):
        for program in programs:
            if not shutil.which(program):
                self.skipTest(f"{program} is not installed")

    def build(self, source, *flags, compiler="cc"):
        """Builds a C program with the static library, and returns its path. The flags may name more sources."""
        self.need(compiler)
        made = self.path(os.path.basename(source).partition(".")[0])
        self.called(compiler, "-std=c99", "-O1", "-g", "-D_POSIX_C_SOURCE=200809L", "-Wall", "-Wextra", "-Werror",
                    "-pedantic", *flags, "-I", os.path.join(ROOT, "include"), "-I", os.path.join(ROOT, "examples/c"),
                    os.path.join(ROOT, source), os.path.join(MADE, "libaclck.a"), "-pthread", "-o", made)
        return made

    def put_list(self, name, *aces):
        with open(self.path(name), "wb") as file:
            file.write(nfs(*aces))
        return self.path(name)
