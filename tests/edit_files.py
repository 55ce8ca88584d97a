"""What the files of edits say, for tests/edits and tests/mutants. An edit puts wrong lines in place of right ones.

A file *.edits has the edits of one file. Each begins with its name, in brackets:

    file: bindings/python/aclck_tree/scan/scan.py
    test: tests/tree_scan Reading

    [a_link_is_followed]
    test: tests/tree_scan Reading.test_a_link_is_not_followed
    old:     return os.open(name, FLAGS | os.O_NOFOLLOW, dir_fd=handle)
    new:     return os.open(name, FLAGS, dir_fd=handle)

The lines before the first name belong to each edit. An edit that has a `test:` of its own does not have the one there.
A file NAME.edit has one edit, and no line with its name.
"""
import re


def edits_of(path):
    """Returns the edits of a file, each as its name and its lines, which are pairs of a key and a text. A text begins
    after one blank, and keeps its indentation. A line that has no key is a text with an empty key."""
    head, *rest = re.split(r"(?m)^\[(\w+)\]$", path.read_text(encoding="utf-8"))
    shared, found = fields_of(head), []
    for name, text in zip(rest[::2], rest[1::2]):
        own = fields_of(text)
        has_test = any(key == "test" for key, _ in own)
        found.append((name, [field for field in shared if not (has_test and field[0] == "test")] + own))
    return found or [(path.stem, shared)]


def fields_of(text):
    return [(match[1], match[2] or "") if match else ("", line) for line in text.split("\n") if line
            for match in [re.fullmatch(r"(file|test|refused by|old|new):(?: (.*))?", line)]]
