"""What the scripts tests/sqlite and tests/postgres share: the cases of vectors/ as calls of functions of SQL, each with
the answer that vectors/ records. So no expectation comes from what the functions answer.

An argument is a list or an attribute (bytes), a number, or one of the classes below. The wanted answer is bytes, a
text, a number, None, or a `Refused`.
"""
import os
import re
from typing import NamedTuple

from cases import cases_of, options
from encoders import ANYBODY, nfs, posix

ROOT = os.path.dirname(os.path.dirname(os.path.abspath(__file__)))
# tools/tables writes this list: the name of each bit.
RIGHTS = """READ_DATA WRITE_DATA APPEND_DATA READ_NAMED_ATTRS WRITE_NAMED_ATTRS EXECUTE DELETE_CHILD
    READ_ATTRIBUTES WRITE_ATTRIBUTES WRITE_RETENTION WRITE_RETENTION_HOLD - - - - - DELETE READ_ACL
    WRITE_ACL WRITE_OWNER SYNCHRONIZE""".split()
TAGS = {"u": 1, "user": 1, "g": 4, "group": 4, "m": 16, "mask": 16, "o": 32, "other": 32}


class Text(NamedTuple):
    """A text or a name, in its bytes."""
    data: bytes


class Rights(NamedTuple):
    """A right or a mask, in words."""
    words: str


class Names(NamedTuple):
    """Names of groups, or the words for the names that a text may use."""
    each: tuple


class Ids(NamedTuple):
    """Ids of groups."""
    each: tuple


class Refused(NamedTuple):
    """The message of an error."""
    message: str


class Case(NamedTuple):
    """A call of a function, the answer that is wanted, and the file and the line that say so."""
    function: str
    arguments: tuple
    wanted: object
    source: str


def name(word):
    return Text(word.encode("utf-8", "surrogateescape"))


def names(words):
    """Returns the words for the names that a text may use. The command takes a word twice, and the functions do not."""
    each = []
    for word in dict.fromkeys(words):
        front, _, number = word.rpartition("=")
        each.append(f"{front}={int(number)}".encode())
    return [Names(tuple(dict.fromkeys(each)))] if each else []


def whole_length(data):
    """Returns the length of the first of two lists, and whether it is whole."""
    at = 4
    for _ in range(int.from_bytes(data[:4], "big")):
        if at + 16 > len(data):
            return len(data), False
        length = int.from_bytes(data[at + 12:at + 16], "big")
        at += 16 + length + -length % 4
    return min(at, len(data)), at <= len(data)


def refused(what, case):
    """Returns the error for what vectors/ records, without `aclck: `."""
    return Refused(f"{what} refused: {case['err'][7:].strip()}")


def answer(what, case, read):
    return refused(what, case) if case["status"] == 2 else read(bytes.fromhex(case["out"]))


# ---- NFSv4 lists: each function yields calls, as a function, its arguments, and the wanted answer

def of_list(function, read=bytes):
    def calls(case, given, others):
        yield function, [bytes.fromhex(case["in"])], answer("list", case, read)
    return calls


def encode(case, given, others):
    yield "acl_encode", [Text(bytes.fromhex(case["in"]))], answer("text", case, bytes)


def check_nfs(case, given, others):
    mask = 0 if given["mask"] == "none" else Rights(given["mask"])
    asked = [bytes.fromhex(case["in"]), *[name(given[one]) for one in ("owner", "group", "user")],
             Names(tuple(other.encode() for other in others)), mask]
    yield "acl_grants", asked, answer("list", case, lambda out: out == b"granted\n")


def child(case, given, others):
    yield "acl_child", [bytes.fromhex(case["in"]), given["kind"] == "dir"], answer("list", case, bytes)


def table(case, given, others):
    yield "acl_table", [bytes.fromhex(case["in"]), Rights(given["bit"])], answer("list", case, bytes.decode)


def normalize(case, given, others):
    function = "acl_normal_inherit" if "inherit" in given else "acl_normal"
    yield from of_list(function)(case, given, others)


def difference(out):
    """Returns what the lines of `compare` say: owner, group, user, groups, right, and whether the first list grants."""
    if out == b"same\n":
        return None
    lines = [line.split(" ", 1) for line in out.decode().splitlines()[1:]]
    found = {word: value for word, value in lines if word != "member"}
    groups = [value for word, value in lines if word == "member"]
    right = 1 << RIGHTS.index(found["mask"])
    return [found["owner"], found["group"], found["user"], groups, right, found["first"] == "granted"]


def compare(case, given, others):
    data = bytes.fromhex(case["in"])
    cut, is_whole = whole_length(data)
    wanted = answer("list", case, difference)
    if isinstance(wanted, Refused):
        front, _, place = wanted.message.rpartition(" ")
        if is_whole and int(place) >= cut:
            wanted = Refused(f"second {front} {int(place) - cut}")
    yield "acl_compare", [data[:cut], data[cut:]], wanted
    yield "acl_same", [data[:cut], data[cut:]], wanted if isinstance(wanted, Refused) else wanted is None


# ---- POSIX ACLs: the texts, and attributes of those that are simple

def entries(text, part):
    """Returns the entries of a part, access (0) or default (1), of a text that is accepted and has ids alone."""
    found = []
    for line in text.decode("latin-1").split("\n"):
        for piece in filter(str.strip, line.partition("#")[0].split(",")):
            fields = [field.strip(" \t") for field in piece.split(":")]
            is_default = fields[0] in ("d", "default")
            tag, qualifier, letters = fields[1:] if is_default else fields
            if is_default == bool(part):
                number = TAGS[tag] * 2 if qualifier else TAGS[tag]
                perm = sum({"r": 4, "w": 2, "x": 1}.get(letter, 0) for letter in letters)
                found.append((number, perm, int(qualifier) if qualifier else ANYBODY))
    return sorted(found, key=lambda entry: (entry[0], entry[2]))


def is_simple(case, others):
    """Returns whether a text is accepted and has ids alone, so that it is easy to make its attribute."""
    return case["status"] < 2 and not others


def show_posix(case, given, others):
    text = Text(bytes.fromhex(case["in"]))
    yield ("acl_posix_show", [text, Text(given.get("form", "canonical").encode()), *names(others)],
           answer("text", case, bytes.decode))
    wanted = None if case["status"] < 2 else case["err"][7:].strip()
    yield "acl_posix_fault", [text, *names(others)], wanted
    if is_simple(case, others):
        yield "acl_posix_fault", [posix(*entries(text.data, 0))], None
        yield "acl_posix_entries", [posix(*entries(text.data, 0))], shown(entries(text.data, 0))


def shown(found):
    """Returns entries as lines: the tag, the id or `-`, and the permissions."""
    words = {1: "USER_OBJ", 2: "USER", 4: "GROUP_OBJ", 8: "GROUP", 16: "MASK", 32: "OTHER"}
    return "".join(f"{words[tag]} {'-' if number == ANYBODY else number} {perm}\n" for tag, perm, number in found)


def check_posix(case, given, others):
    text = bytes.fromhex(case["in"])
    want = 0 if given["want"] == "none" else sum({"r": 4, "w": 2, "x": 1}[one] for one in given["want"])
    asked = [*[int(given[one]) for one in ("owner", "group", "user")],
             Ids(tuple(int(one) for one in given.get("groups", "").split(",") if one)), want]
    wanted = answer("text", case, lambda out: out == b"granted\n")
    yield "acl_posix_grants", [Text(text), *asked, *names(others)], wanted
    if is_simple(case, others):
        yield "acl_posix_grants", [posix(*entries(text, 0)), *asked], wanted


def changed(function, given_numbers):
    """Returns a function for a command that makes a new text of a text, from the words that have its numbers."""
    def calls(case, given, others):
        text, numbers = bytes.fromhex(case["in"]), given_numbers(given)
        yield function, [Text(text), *numbers, *names(others)], answer("text", case, bytes.decode)
        part = int(function == "acl_posix_create")
        # A directory without a default ACL has no attribute that says what is created.
        if is_simple(case, others) and entries(text, part):
            made = posix(*entries(bytes.fromhex(case["out"]), 0))
            yield function, [posix(*entries(text, part)), *numbers], made
    return calls


def mode_of(given):
    return [int(given["mode"], 8)]


def creation_of(given):
    return [int(given["mode"], 8), int(given["umask"], 8), "dir" in given]


def chmod(case, given, others):
    yield from changed("acl_posix_chmod", mode_of)(case, given, others)
    if is_simple(case, others):
        made = posix(*entries(bytes.fromhex(case["out"]), 0))
        yield "acl_posix_mode", [made], int(given["mode"], 8)


def bridge(case, given, others):
    text = bytes.fromhex(case["in"])
    yield "acl_posix_bridge", [Text(text), *names(others)], answer("text", case, bytes)
    if is_simple(case, others):
        yield "acl_posix_bridge", [posix(*entries(text, 0))], bytes.fromhex(case["out"])


CALLS = {
    "show-nfs": of_list("acl_show", bytes.decode), "encode": encode, "check-nfs": check_nfs, "child": child,
    "mode": of_list("acl_mode", lambda out: int(out, 8)), "table": table, "normalize": normalize, "compare": compare,
    "show-posix": show_posix, "check-posix": check_posix, "chmod": chmod, "bridge": bridge,
    "calc-mask": changed("acl_posix_calc_mask", lambda given: []),
    "create": changed("acl_posix_create", creation_of),
}


def of_vectors():
    """Yields the cases of vectors/. The functions know the full profile alone, and words that are refused are no call
    of a function."""
    for command, calls in CALLS.items():
        for case, source in cases_of(command):
            given, others = options(case["words"][1:]) if case["status"] != 3 else ({}, [])
            if case["status"] == 3 or given.get("profile") == "narrow":
                continue
            for function, arguments, wanted in calls(case, given, others):
                yield Case(function, tuple(arguments), wanted, source)


# ---- rows that were worked out by hand, for what no command of aclck asks

ALLOW, DENY, GROUP = 0, 1, 0x40
BAD = "a name is empty, or a number means nothing"


LIST = nfs((DENY, 0, 2, "mallory"), (ALLOW, GROUP, 3, "editors"), (ALLOW, 0, 1, "OWNER@"))
READ = nfs((ALLOW, 0, 1, "EVERYONE@"))
ODD = 'a"b\\c é'
BOB = (Text(b"alice"), Text(b"staff"), Text(b"bob"))
ENTRIES = [(1, 7, ANYBODY), (2, 6, 1002), (4, 5, ANYBODY), (8, 6, 30), (16, 4, ANYBODY), (32, 0, ANYBODY)]
POSIX = posix(*ENTRIES)
PLAIN = posix(ENTRIES[0], ENTRIES[2], ENTRIES[5])
SHOWN = Text(b"u::rwx,u:bob:r,g::r,m::r,o::r")


def who_decides():
    for user, groups, right, place, kind in (
            ("bob", [b"editors"], 2, 1, "ALLOW"), ("bob", [], 2, None, None), ("staff", [], 1, None, None),
            ("mallory", [b"x", b"editors"], 2, 0, "DENY"), ("mallory", [b"x", b"editors"], 1, 1, "ALLOW"),
            ("alice", [], 1, 2, "ALLOW")):
        asked = (LIST, *BOB[:2], Text(user.encode()), Names(tuple(groups)), right)
        yield "acl_deciding", asked, kind and {"place": place, "kind": kind}
        yield "acl_grants", asked, kind == "ALLOW"
    asked = (LIST, *BOB, Names((b"editors",)))
    for mask, granted in ((0x1F07FF, 3), (2, 2), (0, 0), (4, 0)):
        yield "acl_granted", (*asked, mask), granted
        yield "acl_grants", (*asked, mask), mask == granted


def entries_of_lists():
    rows = [(0, "DENY", 0, 2, "mallory"), (1, "ALLOW", GROUP, 3, "editors"), (2, "ALLOW", 0, 1, "OWNER@")]
    heads = ("place", "kind", "flags", "rights", "who")
    yield "acl_entries", (LIST,), [dict(zip(heads, row)) for row in rows]
    yield "acl_entries", (nfs(),), []
    yield "acl_entries", (nfs((ALLOW, 0xFF, 1, ODD)),), [dict(zip(heads, (0, "ALLOW", 0xFF, 1, ODD)))]
    yield "acl_entries", (LIST[:-4],), Refused(f"list refused: Truncated at byte {len(LIST) - 8}")


def excess_of_lists():
    only_bob = nfs((ALLOW, 0, 2, "bob"))
    yield "acl_excess", (nfs(), LIST), None
    yield "acl_excess", (LIST, LIST), None
    yield "acl_excess", (READ, READ + b"x"), Refused(f"second list refused: TrailingBytes at byte {len(READ)}")
    yield "acl_excess", (READ + b"x", READ), Refused(f"list refused: TrailingBytes at byte {len(READ)}")
    # Only bob gets more, whoever the owner and the owning group are: the names that are free are the library's own.
    yield "acl_excess", (only_bob, nfs()), {"user": "bob", "groups": [], "right": 2, "first": True}
    yield "acl_excess", (nfs((ALLOW, GROUP, 4, ODD)), nfs()), {"groups": [ODD], "right": 4, "first": True}


def lists_of_objects():
    listed = nfs((ALLOW, 0, 2, "OWNER@"), (ALLOW, GROUP, 1, "GROUP@"), (DENY, 0, 1, "EVERYONE@"))
    yield ("acl_resolved", (listed, Text(b"bob"), Text(b"staff")),
           nfs((ALLOW, 0, 2, "bob"), (ALLOW, GROUP, 1, "staff"), (DENY, 0, 1, "EVERYONE@")))
    # No ACE can have these names; where no ACE needs them, they do not matter.
    yield "acl_resolved", (listed, Text(b"SYSTEM@"), Text(b"staff")), None
    yield "acl_resolved", (listed, Text(b"bob"), Text(b"a\nb")), None
    yield "acl_resolved", (READ, Text(b"SYSTEM@"), Text(b"staff")), READ
    yield "acl_resolved", (listed, Text(b""), Text(b"staff")), Refused(BAD)
    yield "acl_resolved", (READ[:-1], Text(b"bob"), Text(b"staff")), Refused("list refused: Truncated at byte 29")


def posix_rows():
    rows = [(1001, (), 7, True, "USER_OBJ", 0, False), (1002, (), 4, True, "USER", 1, False),
            (1002, (), 6, False, "USER", 1, True), (1003, (20, 30), 4, True, "GROUP_OBJ", 2, False),
            (1003, (30,), 2, False, "GROUP", 3, True), (1003, (30,), 1, False, None, None, False),
            (1003, (), 4, False, "OTHER", 5, False)]
    for user, groups, want, granted, tag, place, masked in rows:
        asked = (POSIX, 1001, 20, user, Ids(groups), want)
        yield "acl_posix_grants", asked, granted
        yield "acl_posix_deciding", asked, {"place": place, "tag": tag, "granted": granted, "masked": masked}
    yield "acl_posix_mode", (POSIX,), 0o740
    yield "acl_posix_mode", (PLAIN,), 0o750
    yield "acl_posix_of_mode", (0o750,), PLAIN
    yield "acl_posix_calc_mask", (PLAIN,), posix(*ENTRIES[:1], ENTRIES[2], (16, 5, ANYBODY), ENTRIES[5])
    yield "acl_posix_of_mode", (0o1000,), Refused(BAD)
    yield "acl_posix_excess", (POSIX, POSIX), None
    yield "acl_posix_excess", (POSIX, PLAIN), {"want": 4}
    more = posix(ENTRIES[0], ENTRIES[2], (8, 7, 30), (16, 7, ANYBODY), ENTRIES[5])
    yield "acl_posix_excess", (more, PLAIN), {"groups": [30]}  # whoever is in no other group gets nothing more


def attributes_of_texts():
    """A text and its attribute, of which the second is made here as acl(5) and the kernel have it."""
    yield "acl_attribute", (Text(b"u::rwx,g::r-x,o::---"),), PLAIN
    lines = Text(b"# file: a\nuser::rwx\nuser:bob:rw-\ngroup::r-x\ngroup:30:rw-\nmask::r--\nother::---\n\n"
                 b"default:user::rwx\ndefault:group::---\ndefault:other::---\n")
    yield "acl_attribute", (lines, Names((b"u:bob=1002",))), POSIX
    yield "acl_attribute", (lines,), Refused("text refused: UnknownName at line 3 column 6")
    yield "acl_attribute", (Text(b"u::rwx,g::r"),), Refused("text refused: Invalid access: Miss OTHER")
    yield "acl_attribute", (SHOWN, Names((b"u:bob",))), Refused("a name is u:NAME=ID or g:NAME=ID")
    many = [(2, 6, number) for number in range(5000, 8000)]
    spelled = b"u::rw,g::r,o::-,m::rw," + b",".join(b"u:%d:rw" % number for _, _, number in many)
    yield "acl_attribute", (Text(spelled),), posix((1, 6, ANYBODY), *many, (4, 4, ANYBODY), (16, 6, ANYBODY),
                                                  (32, 0, ANYBODY))


def faults_of_attributes():
    twice = posix(ENTRIES[0], ENTRIES[0], ENTRIES[2], ENTRIES[5])
    for data, wanted in ((b"", "Size"), (POSIX[:-1], "Size"), (b"\1" + POSIX[1:], "Version"),
                         (posix(*ENTRIES[:4], *ENTRIES[5:]), "Miss MASK"), (twice, "Multi at entry 1"),
                         (posix(*ENTRIES[::-1]), "Order at entry 1"),
                         (posix((1, 8, 0), *ENTRIES[1:]), "Permission at entry 0"),
                         (posix(ENTRIES[0], (3, 7, 0), *ENTRIES[1:]), "Tag at entry 1")):
        yield "acl_posix_fault", (data,), wanted
        yield "acl_posix_mode", (data,), Refused(f"attribute refused: {wanted}")
        yield "acl_posix_entries", (data,), Refused(f"attribute refused: {wanted}")
        yield "acl_posix_excess", (POSIX, data), Refused(f"second attribute refused: {wanted}")


def faults_of_lists():
    for data, wanted in ((LIST, None), (nfs(), None), (b"", "Truncated at byte 0"),
                         (LIST + b"x", f"TrailingBytes at byte {len(LIST)}"),
                         (nfs((2, 0, 1, "bob")), "AuditOrAlarm at byte 4"),
                         (nfs((0, 0, 1, "INTERACTIVE@")), "SpecialWho at byte 20")):
        yield "acl_fault", (data,), wanted


def names_of_rights():
    yield "acl_rights", (Text(b"WRITE_DATA|READ_DATA"),), 3
    yield "acl_rights", (Text(b"-"),), 0
    yield "acl_rights", (Text(b"write"),), Refused("no right has this name")
    yield "acl_rights_text", (3,), "READ_DATA|WRITE_DATA"
    yield "acl_rights_text", (0,), "-"
    yield "acl_rights_text", (0x800,), Refused("a bit of the number is no right")


def nothing():
    """NULL in the place of an argument."""
    for function, arguments in (("acl_grants", (LIST, *BOB, Names(()), 1)), ("acl_same", (LIST, READ)),
                                ("acl_fault", (LIST,)), ("acl_posix_grants", (POSIX, 1, 2, 3, Ids(()), 4)),
                                ("acl_compare", (LIST, READ)), ("acl_attribute", (SHOWN, Names((b"u:bob=1",)))),
                                ("acl_posix_show", (SHOWN, Text(b"short")))):
        for one in range(len(arguments)):
            yield function, (*arguments[:one], None, *arguments[one + 1:]), None


def what_means_nothing():
    for function, arguments in (
            ("acl_grants", (LIST, Text(b""), *BOB[1:], Names(()), 1)),
            ("acl_grants", (LIST, *BOB, Names((b"a", b"")), 1)), ("acl_grants", (LIST, *BOB, Names(()), 0x800)),
            ("acl_deciding", (LIST, *BOB, Names(()), 3)), ("acl_table", (LIST, 3)),
            ("acl_posix_grants", (POSIX, 1, 2, 3, Ids((ANYBODY,)), 4)),
            ("acl_posix_grants", (POSIX, ANYBODY, 2, 3, Ids(()), 4)),
            ("acl_posix_grants", (POSIX, 1, 2, 3, Ids((4,)), 8)), ("acl_posix_chmod", (POSIX, 0o1000)),
            ("acl_posix_create", (SHOWN, 0o1000, 0, False)), ("acl_posix_chmod", (SHOWN, 0, Names((b"u:=1",)))),
            ("acl_posix_chmod", (SHOWN, 0, Names((b"u:bob=1",) * 2))),
            ("acl_posix_fault", (SHOWN, Names((b"u:bob=1",) * 2)))):
        yield function, arguments, Refused(BAD)
    yield "acl_posix_show", (SHOWN, Text(b"long")), Refused("a form is canonical, shown or short")
    for word in (b"u:bob", b"x:bob=1", b"u:bob=4294967296", b"u:bob=1x", b"u:bob=", b"u=1", b""):
        wanted = "a name is u:NAME=ID or g:NAME=ID"
        yield "acl_posix_show", (SHOWN, Text(b"short"), Names((b"u:a=1", word))), Refused(wanted)
    wanted = "u::rwx,u:7:r--,g::r--,m::r--,o::r--\n"
    yield "acl_posix_show", (SHOWN, Text(b"short"), Names((b"u:bob=007", b"g:bob=8", b"u:a=b=9"))), wanted


def by_hand():
    for rows in (who_decides, entries_of_lists, excess_of_lists, lists_of_objects, posix_rows, attributes_of_texts,
                 faults_of_attributes, faults_of_lists, names_of_rights, nothing, what_means_nothing):
        for function, arguments, wanted in rows():
            yield Case(function, arguments, wanted, rows.__name__)


def agrees(found, wanted):
    """Returns whether an answer is the wanted one. A row may have more columns than a wanted row names."""
    if isinstance(found, dict) and isinstance(wanted, dict):
        return all(one in found and found[one] == value for one, value in wanted.items())
    return found == wanted


def functions(path, pattern):
    """Returns the names of the functions that a source file defines."""
    with open(os.path.join(ROOT, path), encoding="utf-8") as file:
        return set(re.findall(pattern, file.read()))
