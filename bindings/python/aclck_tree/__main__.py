"""Runs `aclck-tree`, for `python -m aclck_tree`."""

import sys

from aclck_tree.cli.main import main

if __name__ == "__main__":
    sys.exit(main())
