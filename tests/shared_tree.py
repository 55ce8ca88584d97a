"""The snapshots of docs/reference/database.md, for tests/sqlite and tests/tree_load."""
import os

from encoders import nfs, posix
from sql_cases import ENTRIES, POSIX
from trees import ROOT, open_above  # which finds the library
from aclck_tree.snapshot.snapshot import Found, StoredList, Tree
from aclck_tree.snapshot.writer import new_snapshot

DAYS = {"monday": "2026-11-23T00:00:00Z", "tuesday": "2026-11-24T00:00:00Z"}
LISTS = {b"": nfs((0, 0, 7, "OWNER@"), (0, 0x43, 7, "editors@example.com"), (0, 0, 0x80, "EVERYONE@")),
         b"plan.odt": nfs((0, 0, 7, "OWNER@"), (1, 0, 6, "bob@example.com"), (0, 0x40, 7, "editors@example.com"),
                          (0, 0, 0x80, "EVERYONE@")),
         b"budget.ods": nfs((0, 0x40, 1, "editors@example.com"), (0, 0, 7, "OWNER@"), (0, 0, 0x80, "EVERYONE@")),
         b"forecast.ods": nfs((0, 0, 7, "OWNER@"), (0, 0x40, 1, "editors@example.com"), (0, 0, 0x80, "EVERYONE@")),
         b"minutes.odt": nfs((0, 0, 7, "OWNER@"), (0, 0, 1, "carl@example.com")),
         b"ledger.ods": nfs((2, 0x10, 2, "EVERYONE@"), (0, 0, 1, "EVERYONE@"), (0, 0, 7, "OWNER@"))}
NOTES_OF_TUESDAY = posix(*((tag, 6 if tag == 16 else perm, number) for tag, perm, number in ENTRIES))
PLAN_OF_TUESDAY = nfs((0, 0, 7, "OWNER@"), (0, 0x40, 7, "editors@example.com"), (0, 0, 0x80, "EVERYONE@"))


def page():
    """Returns the text of docs/reference/database.md."""
    with open(os.path.join(ROOT, "docs/reference/database.md"), encoding="utf-8") as file:
        return file.read()


def make_snapshots(directory):
    """Makes snapshots of a tree of alice: six objects with NFSv4 lists, one with a POSIX ACL, one with a mode. On
    Tuesday, the list of the plan denies bob nothing any more, and the mask of the notes lets him write."""
    for name, lists, notes in (("monday", LISTS, POSIX),
                               ("tuesday", {**LISTS, b"plan.odt": PLAN_OF_TUESDAY}, NOTES_OF_TUESDAY)):
        found = [Found(path, "f" if path else "d", 0o755, 1001, 20, StoredList("nfs4", 0, data, None))
                 for path, data in lists.items()]
        found.append(Found(b"notes.odt", "f", 0o640, 1002, 20, StoredList("posix", 0o640, notes, None)))
        found.append(Found(b"draft.odt", "f", 0o604, 1001, 20, StoredList("mode", 0o604, None, None)))
        with new_snapshot(os.path.join(directory, name)) as writer:
            when = DAYS[name]
            tree = writer.add_tree(Tree(0, "server", b"shared", b"/srv/shared", when, when, True, "0", 0))
            writer.add_above(tree, open_above(b"/srv/shared"))
            writer.add_objects(tree, found)
            writer.add_names([(tree, False, 1001, b"alice"), (tree, False, 1002, b"bob"),
                              (tree, True, 20, b"staff"), (tree, True, 30, b"editors")])
            writer.add_members([(tree, b"alice", b"staff"), (tree, b"bob", b"staff"), (tree, b"bob", b"editors")])
