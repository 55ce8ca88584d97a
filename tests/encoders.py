"""The bytes of lists, made from tuples, for the scripts of tests/ and bench/."""
import struct

ANYBODY = 0xFFFFFFFF
"""The id of an entry that has none, in an attribute."""


def nfs(*aces):
    """Returns the bytes of a list. Each ACE is its type, flags, mask and who (RFC 8881, section 6.2.1; RFC 4506)."""
    return struct.pack(">I", len(aces)) + b"".join(_ace(*ace) for ace in aces)


def _ace(kind, flags, mask, who):
    if isinstance(who, str):
        who = who.encode("utf-8", "surrogateescape")
    return struct.pack(">IIII", kind, flags, mask, len(who)) + who + bytes(-len(who) % 4)


def posix(*entries):
    """Returns the bytes of an attribute. Each entry is its tag, permissions and id (linux/posix_acl_xattr.h)."""
    return struct.pack("<I", 2) + b"".join(struct.pack("<HHI", *entry) for entry in entries)
