"""The program `aclck-tree`: who may do what in a whole tree of files. It reads live files and never writes one."""

VERSION = "1.0.0"
