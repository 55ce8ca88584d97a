"""The scripts of bench/ as modules, for scripts that take their lists and their rows."""
import importlib.machinery
import importlib.util
import os

FOLDER = os.path.join(os.path.dirname(os.path.dirname(os.path.abspath(__file__))), "bench")


def bench(name):
    """Returns bench/NAME as a module."""
    loader = importlib.machinery.SourceFileLoader(f"bench_{name}", os.path.join(FOLDER, name))
    module = importlib.util.module_from_spec(importlib.util.spec_from_loader(loader.name, loader))
    loader.exec_module(module)
    return module
