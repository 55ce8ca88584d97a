"""The answers of the Python module `aclck` to the words of a command and its input, as the program writes them. The
scripts that compare the module with the program share this file.
"""
import harness  # puts the module on the path
import aclck
from cases import options


def names(words):
    """Returns the table of names that the words `u:NAME=ID` and `g:NAME=ID` give."""
    pairs = [(word[0], *word[2:].rpartition("=")) for word in dict.fromkeys(words)]
    return [(name, int(number), kind == "g") for kind, name, _, number in pairs]


def nfs(data, given):
    return aclck.NfsAcl(data, narrow=given.get("profile") == "narrow")


def check_nfs(data, given, others):
    mask = 0 if given["mask"] == "none" else aclck.read_mask(given["mask"])
    granted = nfs(data, given).grants(user=given["user"], groups=others, owner=given["owner"], group=given["group"],
                                      mask=mask)
    return b"granted\n" if granted else b"denied\n"


def check_posix(data, given, others):
    want = 0 if given["want"] == "none" else sum({"r": 4, "w": 2, "x": 1}[one] for one in given["want"])
    groups = [int(one) for one in given.get("groups", "").split(",") if one]
    user, owner, group = (int(given[name]) for name in ("user", "owner", "group"))
    granted = aclck.PosixAcl(data, names(others)).check(user=user, groups=groups, owner=owner, group=group, want=want)
    return b"granted\n" if granted else b"denied\n"


def normalize(data, given, others):
    acl = nfs(data, given)
    return b"".join(map(bytes, acl.inherited())) if "inherit" in given else bytes(acl.normal())


def table(data, given, others):
    rows = nfs(data, given).table(aclck.read_mask(given["bit"]))
    lines = [f"{row.source} {row.kind} {'GROUP' if row.is_group else '-'} {row.who}\n" for row in rows]
    return "".join(lines).encode("utf-8", "surrogateescape")


def whole_length(data):
    """Returns the length of the first of two lists, or of the whole input if that list is cut short."""
    at = 4
    for _ in range(int.from_bytes(data[:4], "big")):
        if at + 16 > len(data):
            return len(data)
        length = int.from_bytes(data[at + 12:at + 16], "big")
        at += 16 + length + -length % 4
    return min(at, len(data))


def two_lists(data, given):
    cut = whole_length(data)
    first = nfs(data[:cut], given)
    try:
        return first, nfs(data[cut:], given)
    except aclck.Refused as refused:
        raise aclck.Refused(refused.reason, offset=cut + refused.offset) from None


def difference(found):
    """Returns the lines that `compare` writes for a difference."""
    lines = ["differ", f"owner {found.owner}", f"group {found.group}", f"user {found.user}"]
    lines += [f"member {group}" for group in found.groups] + [f"mask {aclck.mask_text(found.right)}"]
    answers = ("granted", "denied") if found.first_grants else ("denied", "granted")
    return "".join(line + "\n" for line in [*lines, f"first {answers[0]}", f"second {answers[1]}"]).encode()


def compare(data, given, others):
    first, second = two_lists(data, given)
    found = first.compare(second)
    assert first.means_the_same(second) == (found is None)
    return difference(found) if found else b"same\n"


def text(acl, form="canonical"):
    return acl.text(form).encode() if form != "canonical" else str(acl).encode()


CALLS = {
    "check-nfs": check_nfs,
    "show-nfs": lambda data, given, others: str(nfs(data, given)).encode("utf-8", "surrogateescape"),
    "encode": lambda data, given, others: bytes(aclck.NfsAcl.from_text(data, narrow=given.get("profile") == "narrow")),
    "child": lambda data, given, others: bytes(nfs(data, given).child(directory=given["kind"] == "dir")),
    "mode": lambda data, given, others: b"%03o\n" % nfs(data, given).mode,
    "table": table,
    "normalize": normalize,
    "compare": compare,
    "show-posix": lambda data, given, others: text(aclck.PosixAcl(data, names(others)), given.get("form", "canonical")),
    "check-posix": check_posix,
    "calc-mask": lambda data, given, others: text(aclck.PosixAcl(data, names(others)).calc_mask()),
    "chmod": lambda data, given, others: text(aclck.PosixAcl(data, names(others)).chmod(int(given["mode"], 8))),
    "create": lambda data, given, others: text(aclck.PosixAcl(data, names(others)).create(
        mode=int(given["mode"], 8), umask=int(given["umask"], 8), directory="dir" in given)),
    "bridge": lambda data, given, others: bytes(aclck.PosixAcl(data, names(others)).bridge()),
}
"""The answers of the module, as the program writes them."""


def answer(words, given):
    """Returns what the program writes to standard output and to standard error, as the module answers. The words are a
    command line that the program does not refuse."""
    try:
        return CALLS[words[0]](given, *options(words[1:])), b""
    except aclck.Refused as refused:
        return b"", b"aclck: %s\n" % str(refused).encode()
    except MemoryError:
        return b"", b"aclck: out of memory\n"
