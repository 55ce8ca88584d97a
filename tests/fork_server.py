"""A fork server for tests/mutants: a process that runs scripts in Python, each in a fork of itself.

A fork has modules already, so that a script starts in a fraction of the time: those of Python's library that the
scripts use, and those of the product, as they were when the process began. It has no script, and no module of tests/.
If a file has changed since, the fork forgets the module of that file and those that import it, so that the script reads
them anew. If the file is no module, it forgets all modules of the product. If the script starts a program of bin/, that
is a fork of the script, with its modules.

The process reads requests, each a line of JSON: a script, its words, the file that has changed or an empty text, the
seconds of the processor that each process of the script may take, and the file that gets what the script prints. For
each it writes the process id of the fork, and then, when the script has ended, its exit status.
"""
import builtins
import contextlib
import functools
import gc
import importlib
import importlib.util
import io
import json
import os
import pathlib
import re
import resource
import signal
import subprocess
import sys
import traceback
import types
from collections import defaultdict
from unittest import mock

IMPORT = re.compile(r"(?m)^(?:import|from) ([\w.]+)")


def load_library(directories):
    """Imports the modules of Python's library that the files of these directories import at their top."""
    names = {name for directory in directories for path in directory.rglob("*")
             if path.is_file() and (path.suffix == ".py" or path.read_bytes()[:22] == b"#!/usr/bin/env python3")
             for name in IMPORT.findall(path.read_text(encoding="utf-8"))}
    for name in sorted(names):
        if name.partition(".")[0] in sys.stdlib_module_names:
            importlib.import_module(name)


class Product:
    """The modules of a directory that can be imported, with the names that each of them imports when it starts."""

    def __init__(self, directory):
        self.directory, self.uses = directory, defaultdict(set)
        import_ = builtins.__import__

        def noted(name, globals=None, locals=None, fromlist=(), level=0):
            if globals and "__name__" in globals:
                whole = importlib.util.resolve_name("." * level + name, globals["__package__"])
                self.uses[globals["__name__"]].update((whole, *(f"{whole}.{one}" for one in fromlist or ())))
            return import_(name, globals, locals, fromlist, level)
        paths = [path.relative_to(directory).with_suffix("") for path in sorted(directory.rglob("*.py"))]
        with mock.patch("sys.path", [str(directory), *sys.path]), mock.patch("builtins.__import__", noted):
            for path in paths:
                if path.name != "__main__":
                    with contextlib.suppress(Exception):
                        importlib.import_module(".".join(path.parts).removesuffix(".__init__"))
        self.files = {module.__file__: name for name, module in sys.modules.items()
                      if (getattr(module, "__file__", None) or "").startswith(f"{directory}/")}

    def forget(self, file):
        """Forgets what has to do with a file that has changed."""
        gone = {self.files[file]} if file in self.files else {*self.files.values()}
        more = gone
        while more:
            more = {name for name in {*self.files.values()} - gone if self.names_of(name) & gone}
            gone |= more
        for name in gone:
            above, _, last = name.rpartition(".")
            if above in sys.modules:
                vars(sys.modules[above]).pop(last, None)
            del sys.modules[name]

    def names_of(self, name):
        """Returns what a module imports: the packages that it is in, and what it names."""
        parts = name.split(".")
        return self.uses[name] | {".".join(parts[:number]) for number in range(1, len(parts))}


@functools.lru_cache
def compiled(script):
    return compile(pathlib.Path(script).read_bytes(), script, "exec")


def become(script, words, output, longest):
    """Makes this process, a fork, one that runs the script by itself, as an interpreter would."""
    os.setsid()
    # If a bug takes all memory, the system ends this process first.
    pathlib.Path("/proc/self/oom_score_adj").write_text("1000", encoding="ascii")
    resource.setrlimit(resource.RLIMIT_CPU, (longest, longest))
    for place, flags, numbers in ((os.devnull, os.O_RDONLY, (0,)), (output, os.O_WRONLY | os.O_APPEND, (1, 2))):
        handle = os.open(place, flags)
        for number in numbers:
            os.dup2(handle, number)
        os.close(handle)
    subprocess.Popen = Started
    run(script, words)


def run(script, words):
    sys.argv[:] = [script, *words]
    sys.path[0] = os.path.dirname(script)
    module = sys.modules["__main__"] = types.ModuleType("__main__")
    module.__file__ = script
    exec(compiled(script), module.__dict__)


class Started(subprocess.Popen):
    """A child that is a fork and no new interpreter, if it is a program of bin/ whose environment is that of its parent
    in all that matters when Python or the product starts."""

    def __init__(self, args, *more, preexec_fn=None, pass_fds=(), env=None, **rest):
        if not more and not rest.get("executable") and is_program(args) and starts_alike(env):
            compiled(os.fsdecode(args[0]))  # which the user of the program may not be able to read
            rest["preexec_fn"] = lambda: run_program(args, preexec_fn, pass_fds, env)
        else:
            rest["preexec_fn"] = preexec_fn
        super().__init__(args, *more, pass_fds=pass_fds, env=env, **rest)


def is_program(args):
    """Returns whether the first word is a program in Python of bin/ of this tree."""
    words = args if isinstance(args, list) else [""]
    path = pathlib.Path(os.fsdecode(words[0]))
    return path.parent == TOP / "bin" and path.is_file() and path.read_bytes()[:22] == b"#!/usr/bin/env python3"


def starts_alike(environment):
    """Returns whether programs with this environment start as this process has started."""
    def what_matters(names):
        return {name: names[name] for name in names if re.match("PYTHON|LC_|LANG|LD_|TZ|PATH$|ACLCK", name)}
    return environment is None or what_matters(environment) == what_matters(os.environ)


def run_program(args, before, kept, environment):
    """Runs a program in a child that is about to start it, and ends the child with its status."""
    if before:
        before()
    for handle in {int(name) for name in os.listdir("/proc/self/fd")} - {0, 1, 2, *kept}:
        with contextlib.suppress(OSError):
            os.close(handle)
    if environment is not None:
        os.environ.clear()
        os.environ.update(environment)
    for number, handler in ((signal.SIGINT, signal.default_int_handler), (signal.SIGPIPE, signal.SIG_IGN),
                            (signal.SIGXFSZ, signal.SIG_IGN)):  # as an interpreter sets them
        signal.signal(number, handler)
    for number, name, mode in ((0, "stdin", "r"), (1, "stdout", "w"), (2, "stderr", "w")):
        setattr(sys, name, stream(number, mode, getattr(sys, f"__{name}__")))
    script, *words = map(os.fsdecode, args)
    try:
        run(script, words)
        status = 0
    except SystemExit as end:
        status = end.code if isinstance(end.code, int) else int(end.code is not None)
        if status and status is not end.code:
            print(end.code, file=sys.stderr)
    except BaseException as error:
        traceback.print_exc()
        status = 1
        if isinstance(error, KeyboardInterrupt):
            signal.signal(signal.SIGINT, signal.SIG_DFL)
            os.kill(os.getpid(), signal.SIGINT)
    for one in filter(None, (sys.stdout, sys.stderr)):
        try:
            one.flush()
        except (OSError, ValueError):
            status = 120
    os._exit(status & 255)


def stream(number, mode, like):
    """Returns a standard stream as Python makes it, or None if it is closed."""
    try:
        file = open(number, mode + "b", buffering=-1 if mode == "r" else 0 if like.write_through else -1, closefd=False)
    except OSError:
        return None
    return io.TextIOWrapper(file, like.encoding, like.errors, write_through=like.write_through,
                            line_buffering=number == 2 or file.isatty())


def serve(product):
    """Answers requests to the end of the input. It returns in a fork only, with what the fork has to become."""
    for line in sys.stdin:
        script, words, changed, longest, output = json.loads(line)
        compiled(script)
        fork = os.fork()
        if fork == 0:
            if changed:
                product.forget(changed)
            return script, words, output, longest
        os.write(1, b"%d\n" % fork)
        os.write(1, b"%d\n" % os.waitstatus_to_exitcode(os.waitpid(fork, 0)[1]))
    return None


if __name__ == "__main__":
    TOP = pathlib.Path(__file__).resolve().parent.parent
    tests, modules = (pathlib.Path(directory) for directory in sys.argv[1:])
    load_library((tests, modules))
    served = Product(modules)
    gc.freeze()
    request = serve(served)
    if request:
        become(*request)
