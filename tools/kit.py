"""The kit's rt as a module: its reading of crates.txt and of edits, its words for a check, its test of an edit."""
import importlib.machinery
import importlib.util
import os
import shutil
import sys


def loaded():
    found = shutil.which("rt") or sys.exit(f"{os.path.basename(sys.argv[0])}: rt is not on the PATH")
    loader = importlib.machinery.SourceFileLoader("rtmain", os.path.realpath(found))
    made = importlib.util.module_from_spec(importlib.util.spec_from_loader("rtmain", loader))
    sys.modules["rtmain"] = made
    loader.exec_module(made)
    return made


rt = loaded()
