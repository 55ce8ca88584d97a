"""The cases of vectors/, for the scripts in Python: vectors/README.md says what a case has."""
import json
import os

ROOT = os.path.dirname(os.path.dirname(os.path.abspath(__file__)))


def cases_of(command):
    """Yields the cases of a command, each with where it is: a file and the number of a line."""
    with open(os.path.join(ROOT, f"vectors/{command}.jsonl"), encoding="ascii") as file:
        for number, line in enumerate(file, 1):
            yield json.loads(line), f"{command}.jsonl:{number}"


def options(words):
    """Returns the options of a command line, and the other words."""
    found, others, rest = {}, [], iter(words)
    for word in rest:
        if word == "--":
            others += rest
        elif word.startswith("--") and len(word) > 2:
            name, equals, value = word[2:].partition("=")
            found[name] = True if name in ("inherit", "dir") else value if equals else next(rest)
        else:
            others.append(word)
    return found, others
