"""What the scripts about archives share: members, headers and whole archives, byte by byte, and what a scan of them
finds."""
import grp
import os
import pwd
import tarfile
from unittest import mock

from trees import Scratch
from aclck_tree.cli.main import main
from aclck_tree.scan import archives
from aclck_tree.snapshot import snapshot

ACCESS, DEFAULT, ACE = archives.TEXTS[1], archives.TEXTS[2], archives.TEXTS[0]
SAMBA = "SCHILY.xattr.security.nfs4acl_xdr"
END = bytes(1024)
GNU = b"ustar  \0"
USER, GROUP = pwd.getpwuid(1).pw_name, grp.getgrgid(4).gr_name


def objects(place):
    """Returns what a snapshot has of each path. Of the mode these are the bits that are in no list."""
    held = snapshot.Snapshot(place)
    return {one.path: (one.kind, one.mode & 0o7000, one.uid, one.gid, one.stored) for one in held.objects_of(1)}


def failures(place):
    """Returns the failures of a snapshot, each with its path."""
    return [(path, message) for _, path, _, message in snapshot.Snapshot(place).errors()]


def member(name, kind=tarfile.REGTYPE, **fields):
    """Returns a member for `packed`. Other names than those of tarfile are pax headers, with `_` for a dot."""
    found = tarfile.TarInfo(name)
    found.type = kind
    found.mode = 0o755 if kind == tarfile.DIRTYPE else 0o640
    for key, value in fields.items():
        setattr(found, key, value)
    return found


def packed(*members, end=END):
    """Returns the bytes of an archive."""
    return b"".join(one if isinstance(one, bytes) else
                    one.tobuf(tarfile.PAX_FORMAT, "utf-8", "surrogateescape") + bytes(-(-one.size // 512) * 512)
                    for one in members) + end


def pax(kind=b"x", magic=b"ustar\00000", **records):
    """Returns a pax header with records as bytes, which may be wrong. `__` in a name stands for a dot."""
    data = b""
    for name, value in records.items():
        rest = b" " + name.replace("__", ".").encode() + b"=" + value + b"\n"
        size = len(rest) + 1
        size = len(rest) + len(str(size + len(str(size)) - 1))
        data += b"%d" % size + rest
    return block(b"header", kind, len(data), magic=magic) + data.ljust(-(-len(data) // 512) * 512, b"\0")


def block(name, kind, length=0, checksum=b"%06o\0 ", **fields):
    """Returns a header of ustar, with a right checksum. Fields are bytes, such as mode, uid, size and magic. `parts`
    are those of a sparse file, and whether there is one more block, and `real` is its length."""
    places = {"mode": (100, 8), "uid": (108, 8), "gid": (116, 8), "size": (124, 12), "time": (136, 12),
              "linkname": (157, 100), "magic": (257, 8), "uname": (265, 32), "gname": (297, 32), "major": (329, 8),
              "minor": (337, 8), "prefix": (345, 41), "offset": (369, 12), "parts": (386, 97), "real": (483, 12),
              "end": (508, 4)}
    data = bytearray(512)
    data[:len(name)] = name
    values = {"mode": b"0000640\0", "uid": b"0000000\0", "gid": b"0000000\0", "size": b"%011o\0" % length,
              "time": b"00000000000\0", "magic": b"ustar\00000", **fields}
    for key, value in values.items():
        start, room = places[key]
        data[start:start + room] = value.ljust(room, b"\0")
    data[148:156], data[156:157] = b" " * 8, kind
    data[148:156] = checksum % sum(data)
    return bytes(data)


def long_name(name, kind=b"L", length=0):
    """Returns a header of GNU tar with a long name, which may say another length."""
    return block(b"long", kind, length or len(name) + 1, magic=GNU) + name.ljust(512, b"\0")


def sparse(*parts, length=b"4096", **more):
    """Returns a pax header of a sparse file with its map."""
    return pax(**{"GNU.sparse.size": length, "GNU.sparse.numblocks": b"%d" % len(parts),
                  "GNU.sparse.map": b",".join(b"%d,%d" % part for part in parts), **more})


LABEL = block(b"label", b"V", mode=b"", uid=b"", gid=b"", size=b"", magic=b"")
"""The name of a volume, as `tar -V` writes it."""


def long_header(size):
    """Returns a header of pax whose records have so many bytes, about 1 MiB."""
    first = (1 << 19) + 28
    return pax(SCHILY__xattr__user__a=b"x" * (first - 28), SCHILY__xattr__user__b=b"x" * (size - first - 28))


SPARSE = pax(GNU__sparse__major=b"1", GNU__sparse__minor=b"0", GNU__sparse__realsize=b"4096")


class Archives(Scratch):
    """Archives that are made byte by byte."""

    # A list, as bsdtar and star write it.
    TEXT = f"user::rw-,user:{USER}:r--:1,group::r--,mask::r--,other::---"

    def scanned(self, data, *words, name="backup"):
        """Scans an archive in this process, and returns the status, the paths, and the failures."""
        with open(self.path(name), "wb") as file:
            file.write(data)
        if os.path.exists(self.path("snapshot")):
            os.unlink(self.path("snapshot"))
        with mock.patch("sys.stderr") as stream:
            stream.isatty.return_value = False
            status = main(["scan", "--archive", self.path(name), "-o", self.path("snapshot"), *words])
        self.printed = "".join(call.args[0] for call in stream.write.call_args_list)
        self.assertNotIn("internal error", self.printed)
        if not os.path.exists(self.path("snapshot")):
            return status, None, None
        return status, sorted(objects(self.path("snapshot"))), failures(self.path("snapshot"))

    def stored(self, *members, words=(), other=None):
        """Returns the list of the last of the paths of an archive that can be read. `other` is the attribute of another
        list that the path has."""
        status, paths, errors = self.scanned(packed(*members), *words)
        failure = f"1 object has another list that decides too: {other}"
        self.assertEqual((status, errors), (2, [(paths[-1], failure)]) if other else (0, []))
        return objects(self.path("snapshot"))[paths[-1]][4]
