"""A server of PostgreSQL for tests/postgres, tests/tree_load and bench/database, in a folder of its own and as a user
without privileges. It also has what the two scripts of tests/ share: databases for tests, and sessions of pages.
"""
import contextlib
import glob
import hashlib
import os
import pwd
import re
import shutil
import signal
import subprocess
import sys
import tempfile
import time
import unittest

from harness import LIBRARY, ROOT, run, say_skipped

MADE = os.path.dirname(os.path.abspath(LIBRARY))
KEPT = os.environ.get("ACLCK_KEPT")
"""Where tests/mutants, which starts many servers, keeps what they begin with."""


class Missing(Exception):
    """What a machine lacks."""


class Server:
    """A server in a folder, with the extension. It can run under another program: `under` has the words of that
    program, in which {folder} stands for the folder."""

    def __init__(self, under=(), **settings):
        self.under, self.settings = under, settings
        if not shutil.which("pg_config"):
            raise Missing("pg_config is not installed")
        try:
            found = {word: self.output("pg_config", f"--{word}") for word in ("bindir", "includedir-server", "pgxs")}
        except subprocess.CalledProcessError:
            raise Missing("what pg_config tells of is not installed") from None
        self.programs, self.pgxs = found["bindir"], os.path.dirname(found["pgxs"])
        for place in (f"{self.programs}/postgres", f"{found['includedir-server']}/postgres.h"):
            if not os.path.exists(place):
                raise Missing(f"{place} is not installed")
        if "extension_destdir" not in self.output(f"{self.programs}/postgres", "--describe-config"):
            raise Missing("this PostgreSQL loads no extension from a folder")
        if not all(map(shutil.which, ("psql", "make", "cc"))):
            raise Missing("psql, make or cc is not installed")
        self.folder = tempfile.mkdtemp(prefix="aclck-")
        self.user = {}
        if os.getuid() == 0:
            account = pwd.getpwnam("nobody")
            self.user = {"user": account.pw_uid, "group": account.pw_gid, "extra_groups": []}
            os.chown(self.folder, account.pw_uid, account.pw_gid)
        self.child = None
        others = {name: value for name, value in os.environ.items() if not name.startswith("PG")}
        self.environment = {**others, "PGHOST": self.folder, "PGUSER": "tester", "PGDATABASE": "postgres",
                            "PGOPTIONS": "", "LC_ALL": "C.UTF-8"}

    @staticmethod
    def output(*words):
        return subprocess.run(words, check=True, stdout=subprocess.PIPE, text=True).stdout.strip()

    def build(self, destination):
        """Builds the extension, and installs it below a directory."""
        built = os.path.join(self.folder, "built")
        os.mkdir(built)
        for target in (["all"], ["install", f"DESTDIR={destination}"]):
            done = subprocess.run(["make", "-s", "-C", built, "-f", os.path.join(ROOT, "sql/postgres/Makefile"),
                                   f"LIBACLCK={MADE}/libaclck.a", *target], stdout=subprocess.PIPE,
                                  stderr=subprocess.STDOUT, text=True, env=self.environment)
            if done.returncode or "warning:" in done.stdout:
                raise RuntimeError(f"the extension does not build: {done.stdout}")

    def make_data(self, data):
        subprocess.run([f"{self.programs}/initdb", "-D", data, "-U", "tester", "-A", "trust", "-E", "UTF8", "--locale",
                        "C.UTF-8", "--no-sync"], check=True, stdout=subprocess.PIPE, cwd=self.folder, **self.user)

    def start(self):
        """Builds the extension, and starts the server."""
        data = os.path.join(self.folder, "data")
        put(os.path.join(self.folder, "destination"), sum_of_sources(), self.build)
        put(data, "data", self.make_data)
        settings = {"listen_addresses": "", "unix_socket_directories": self.folder, "fsync": "off",
                    "extension_destdir": f"{self.folder}/destination", "max_parallel_workers_per_gather": "0",
                    "shared_buffers": "16MB", "log_min_messages": "panic", "autovacuum": "off", **self.settings}
        words = [f"--{name}={value}" for name, value in settings.items()]
        under = [word.format(folder=self.folder) for word in self.under]
        self.child = subprocess.Popen([*under, f"{self.programs}/postgres", "-D", data, *words], cwd=self.folder,
                                      stdout=subprocess.DEVNULL, stderr=subprocess.DEVNULL, **self.user)
        for _ in range(1200):
            if subprocess.run([f"{self.programs}/pg_isready", "-q"], env=self.environment).returncode == 0:
                return
            if self.child.poll() is not None:
                break
            time.sleep(0.05)
        raise RuntimeError(f"the server does not start: {self.child.poll()}")

    def stop(self):
        """Stops the server, and removes the folder."""
        if self.child:
            self.child.send_signal(signal.SIGINT)  # which ends what is asked too
            self.child.wait(60)
        shutil.rmtree(self.folder, ignore_errors=True)

    def psql(self, script, database="postgres", *words):
        """Runs a script, and returns its output with its errors between."""
        done = subprocess.run(["psql", "-X", "-q", "-A", "-t", *words, database], input=script.encode(),
                              stdout=subprocess.PIPE, stderr=subprocess.STDOUT, env=self.environment)
        return done.stdout.decode()

    def lines(self, script, database="postgres", *words):
        """Runs a script without an error, and returns the lines of its output."""
        out = self.psql(script, database, *words)
        if re.search(r"(?m)^(?:ERROR|FATAL|WARNING|psql: error): ", out):
            raise AssertionError(out)
        return out.splitlines()


def sum_of_sources():
    """Returns a sum of the files that the extension is built of."""
    found, paths = hashlib.sha256(), [f"{MADE}/libaclck.a"]
    for place in ("sql/postgres/*", "sql/common/*", "include/*"):
        paths += sorted(glob.glob(os.path.join(ROOT, place)))
    for path in paths:
        if os.path.isfile(path):
            with open(path, "rb") as file:
                found.update(hashlib.sha256(file.read()).digest())
    return found.hexdigest()


def put(place, name, make):
    """Makes a directory by a call, or copies the one that an earlier server kept under this name."""
    kept = os.path.join(KEPT or "", name)
    if KEPT and os.path.isdir(kept):
        subprocess.run(["cp", "-a", kept, place], check=True)
        return
    make(place)
    if KEPT:
        mine = f"{kept}.{os.getpid()}"
        subprocess.run(["cp", "-a", place, mine], check=True)
        with contextlib.suppress(OSError):  # another server has kept its own
            os.rename(mine, kept)


class OnServer(unittest.TestCase):
    """Tests that ask one server. Each test makes databases of its own."""

    server = None
    databases = 0

    @classmethod
    def setUpClass(cls):
        if not OnServer.server.child:
            unittest.addModuleCleanup(OnServer.server.stop)
            OnServer.server.start()

    def new_database(self, options=""):
        OnServer.databases += 1
        name = f"test{OnServer.databases}"
        self.server.lines(f"CREATE DATABASE {name} {options}")
        return name


def run_on_server():
    """Runs the tests of a script, or says what is missing."""
    try:
        OnServer.server = Server()
    except Missing as what:
        sys.exit(say_skipped("all of it", what))
    run()


def statements(block):
    """Returns the statements of a session of psql, each with the lines that the page shows below it."""
    found = []
    for line in block.splitlines():
        if line.startswith("=> "):
            found.append((line[3:], []))
        elif line.startswith("-> "):
            found[-1] = (f"{found[-1][0]}\n{line[3:]}", [])
        else:
            found[-1][1].append(line)
    return found
