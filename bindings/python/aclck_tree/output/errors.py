"""The errors that end a run of `aclck-tree` early, each with its exit status."""

from __future__ import annotations

YES, NO, REFUSED, USAGE, DEVICE = range(5)
"""The exit statuses, the same as those of aclck(1)."""


class TreeError(Exception):
    """An error that ends the run, with one line on standard error and an exit status."""

    status = REFUSED


class UsageError(TreeError):
    """The command line asks for something impossible."""

    status = USAGE


class DeviceError(TreeError):
    """A read or a write failed, such as on a full disk."""

    status = DEVICE


class Damaged(Exception):
    """An archive is damaged, or was made to do harm, and is not read on. It ends no run."""
