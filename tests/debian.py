"""Sources and packages of Debian for the scripts that test other code. apt-get fetches them and checks them with Debian's
key. It uses lists and files in a directory of the script, so nothing of the system changes. If ACLCK_PEERS names a
directory, what was fetched is kept there, and the next run uses it. Without apt-get or a network, tests are skipped.
"""
import glob
import os
import shutil
import subprocess
import tempfile
import unittest

KEYRING = "/usr/share/keyrings/debian-archive-keyring.gpg"
MIRROR = f"[signed-by={KEYRING}] http://deb.debian.org/debian"
LINES = [f"deb {MIRROR} bookworm main", *(f"deb-src {MIRROR} {suite} main" for suite in ("bookworm", "trixie"))]


class Debian:
    """Sources and packages of Debian, in a directory."""

    def __init__(self, directory):
        self.directory = directory
        self.words = ["-q", "-o", f"Dir::State={directory}/state", "-o", f"Dir::Cache={directory}/cache",
                      "-o", f"Dir::Etc::sourcelist={directory}/sources.list", "-o", "Dir::Etc::sourceparts=-",
                      "-o", "Dir::State::status=/var/lib/dpkg/status", "-o", "Acquire::http::Timeout=20",
                      "-o", "APT::Update::Error-Mode=any"]

    def fetched(self, made, *words):
        """Runs apt-get, unless there is already a file that it makes, and returns the file."""
        found = glob.glob(os.path.join(self.directory, made))
        if not found:
            self.update()
            self.called("apt-get", *self.words, *words)
            found = glob.glob(os.path.join(self.directory, made))
        return found[0]

    def update(self):
        if not shutil.which("apt-get") or not os.path.exists(KEYRING):
            raise unittest.SkipTest("apt-get or debian-archive-keyring is not installed")
        if not os.path.exists(os.path.join(self.directory, "updated")):
            for name in ("state/lists/partial", "cache/archives/partial"):
                os.makedirs(os.path.join(self.directory, name), exist_ok=True)
            with open(os.path.join(self.directory, "sources.list"), "w", encoding="ascii") as file:
                file.write("\n".join(LINES) + "\n")
            self.called("apt-get", *self.words, "update")
            os.mkdir(os.path.join(self.directory, "updated"))

    def called(self, *words):
        try:
            done = subprocess.run(words, cwd=self.directory, capture_output=True, text=True, timeout=300)
        except subprocess.TimeoutExpired:
            raise unittest.SkipTest(f"apt-get {words[-1]} takes too long") from None
        if done.returncode:
            errors = [line for line in done.stderr.splitlines() if line.startswith("E: ")]
            raise unittest.SkipTest(f"apt-get {words[-1]}: {' '.join(errors)[:300]}")

    def source(self, package, version):
        """Returns the directory of the sources of a package, without Debian's changes to them."""
        name = f"{package}_{version.rpartition('-')[0]}.orig.tar.gz"
        archive = self.fetched(name, "source", "--download-only", "--tar-only", f"{package}={version}")
        there = os.path.join(self.directory, package)
        if not os.path.exists(there):
            os.mkdir(there)
            subprocess.run(["tar", "xzf", archive, "-C", there, "--strip-components=1"], check=True)
        return there

    def package(self, name):
        """Returns the directory with the files of a package."""
        archive = self.fetched(f"{name}_*.deb", "download", name)
        there = os.path.join(self.directory, f"{name}.files")
        if not os.path.exists(there):
            subprocess.run(["dpkg-deb", "-x", archive, there], check=True)
        return there


KEPT = os.environ.get("ACLCK_PEERS")
PLACE = os.path.abspath(KEPT) if KEPT else tempfile.mkdtemp()
DEBIAN = Debian(PLACE)


def remove_fetched():
    """Removes what was fetched, unless it is kept."""
    if not KEPT:
        shutil.rmtree(PLACE)
