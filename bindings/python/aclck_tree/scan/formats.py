"""What begins a file of another format than tar. bsdtar looks for the signs of many formats, and GNU tar first for the
checksum of a header. So a file that has both is two archives."""

from __future__ import annotations

import re
from typing import Optional

_SIGNS = {
    "gzip": rb"\x1f\x8b",
    "bzip2": rb"BZh[1-9]",
    "xz": rb"\xfd7zXZ",
    "lzma": rb"\x5d\0\0",
    "compress": rb"\x1f[\x9d\xa0]",
    "zstd": rb"\x28\xb5\x2f\xfd|[\x50-\x5f]\x2a\x4d\x18",
    "lz4": rb"\x04\x22\x4d\x18|\x02\x21\x4c\x18",
    "lzip": rb"LZIP",
    "lzop": rb"\x89LZO",
    "lrzip": rb"LRZI",
    "grzip": rb"GRZipII",
    "rpm": rb"\xed\xab\xee\xdb",
    "uuencode": rb"([^\0]*[\r\n])?begin(-base64)? [0-7]{3} ",
    "WARC": rb"WARC/[0-9]",
    "mtree": rb"#mtree",
    "cpio": rb"07070[127][0-9A-Fa-f]{60}|\xc7\x71|\x71\xc7",
    "ar": rb"!<arch>\n",
    "xar": rb"xar!",
    "zip": rb"PK(\x01\x02|\x03\x04|\x05\x06|\x06\x06|00PK)",
    "7z": rb"7z\xbc\xaf\x27\x1c",
    "rar": rb"Rar!\x1a\x07",
    "cab": rb"MSCF",
    "lha": rb"..-l[hz][0-9a-z]-",
}
_PATTERNS = {name: re.compile(sign, re.DOTALL) for name, sign in _SIGNS.items()}


def other_format(first: bytes) -> Optional[str]:
    """Returns the name of the format whose files begin as these bytes do, or None."""
    return next((name for name, pattern in _PATTERNS.items() if pattern.match(first)), None)
