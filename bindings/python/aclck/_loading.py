"""Loads libaclck.so.1.

If the variable ACLCK_LIBRARY is set, it is the path of the library. Otherwise the library is searched in the package
itself, where a wheel has it, next to this module, where `make install-library` installs it, where `make library` leaves
it, and where the loader searches.
"""

from __future__ import annotations

import ctypes
import os

_PACKAGE = os.path.dirname(os.path.abspath(__file__))
_ABOVE = os.path.dirname(os.path.dirname(os.path.dirname(_PACKAGE)))
_PLACES = (os.path.join(_PACKAGE, "libaclck.so.1"), os.path.join(_ABOVE, "libaclck.so.1"),
           os.path.join(_ABOVE, "library", "out", "libaclck.so.1"))


def load() -> ctypes.CDLL:
    """Returns the library. Raises ImportError if none can be loaded."""
    named = os.environ.get("ACLCK_LIBRARY")
    beside = [place for place in _PLACES if os.path.exists(place)]
    failure = ""
    for place in [named] if named else [*beside, "libaclck.so.1", "/usr/local/lib/libaclck.so.1"]:
        try:
            return ctypes.CDLL(place)
        except OSError as error:
            failure = failure or str(error)
    raise ImportError("aclck needs the library libaclck.so.1, which `make library install-library` of aclck installs "
                      f"({failure})")
