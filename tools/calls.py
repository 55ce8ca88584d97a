"""Reads the public calls of the crates, for the tables that `tools/tables contracts` prints: each `pub fn`, each method
of a public trait, and each method with clauses that a type has of another trait, if the method or its `impl` has a doc
comment.

The sources are as `rt fmt` writes them, so lines suffice. Above the line of an `fn` is its doc comment, after a blank
line or the line of its `impl`. Below it are its clauses, up to the brace of its body.
"""
import itertools
import pathlib

TOP = pathlib.Path(__file__).resolve().parent.parent


def lines_of(path):
    return path.read_text(encoding="utf-8").splitlines() if path.exists() else []


def words_of(text):
    """Returns the names in a text. A name and the fields after it are one word."""
    return "".join(char if char.isalnum() or char in "_." else " " for char in text).split()


def crates():
    names = [line.partition(":")[0].split()[0] for line in lines_of(TOP / "crates.txt") if not line.startswith("#")]
    return [name for name in names if not name.endswith("_tests")]


def sources_of(crate):
    """Returns the files of a crate without those of tests. Those of laws are at the end."""
    folder = TOP / "crates" / crate / "src"
    modules = itertools.pairwise(lines_of(folder / "lib.rt") + lines_of(folder / "main.rt"))
    tests = [words_of(line)[-1] for before, line in modules if before == "#[cfg(test)]"]
    files = [path for path in folder.rglob("*.rt") if path.relative_to(folder).parts[0].partition(".")[0] not in tests]
    return sorted(files, key=lambda path: (path.stem.endswith("laws"), path))


# ---- Definitions

def definitions_of(crate):
    """Returns the statements and the functions that a crate defines. A record has the names of its fields."""
    found, fields = {}, []
    for line in itertools.chain(*map(lines_of, sorted((TOP / "crates" / crate / "specs").rglob("*.antt")))):
        words = line.split()
        is_type = words[:2] in (["pub", "record"], ["pub", "data"])
        is_function = words[:2] in (["abbrev", "pub"], ["unfoldable", "pub"])
        if line.startswith("  pub "):
            fields.append(words[1])
        elif is_type and words[3:5] != [":", "Type"] or is_function and (words[2][0].isupper() or "→" in words):
            found[words[2]] = []
            fields = found[words[2]] if words[1] == "record" else []
        elif line[:1].strip():
            fields = []
    return found


# ---- Calls

def promise_above(lines, at):
    """Returns the first sentence of the doc comment above a line."""
    above = itertools.takewhile(lambda line: line and not line.startswith("impl"), reversed(lines[:at]))
    doc = [line.strip().removeprefix("///").strip() for line in above if line.lstrip().startswith("///")]
    sentence = " ".join(reversed(doc)).partition(". ")[0].rstrip(".")
    return sentence.replace("|", "\\|").replace("[`", "`").replace("`]", "`")


def clauses_below(lines, at):
    """Returns the texts of the clauses of a function, each after the word `ensures`."""
    indent = lines[at][:-len(lines[at].lstrip())]
    ends = ("}", *(indent + mark for mark in ("{", "}", "/", "fn ")))
    head = itertools.takewhile(lambda line: not line.startswith(ends), lines[at + 1:])
    text = " ".join(line.strip() for line in head if not line.lstrip().startswith("//"))
    return f" {text}".replace(" requires ", " ensures requires ").split(" ensures ")[1:]


def shown(clause, definitions):
    """Returns the name of a clause, and the statements in its conclusion, or the function that gives its value. The
    first has its fields, and loses them for later clauses."""
    name, _, body = clause.partition("{")
    conclusion = body.rpartition("→")[2]
    stated = [word for word in words_of(conclusion) if word[0].isupper()]
    cited = [word for word in dict.fromkeys(stated + words_of(conclusion.partition("≡")[2])[:1]) if word in definitions]
    texts = [f"`{word}`" for word in cited]
    if cited and definitions[cited[0]]:
        texts[0] += f" ({', '.join(f'`{field}`' for field in definitions[cited[0]])})"
        definitions[cited[0]] = []
    return ": ".join(filter(None, [name.strip() and f"`{name.strip()}`", ", ".join(texts)])) or "its one clause"


def owner_of(block):
    """Returns the type or the trait of a block."""
    head = block.partition(" for ")[2] or block.partition("> " if block.startswith("impl<") else " ")[2]
    return next((word for word in words_of(head) if word[0].isupper()), "")


def functions_in(lines):
    """Yields the places of public functions and of methods of traits, each with the place of the line that begins its
    block, or that ends the block before it."""
    begin, is_of_trait = 0, False
    for at, line in enumerate(lines):
        if line.startswith(("impl", "pub trait", "}")):
            begin, is_of_trait = at, (" for " in line or line.startswith("pub trait")) and not line.endswith("{}")
        before, is_function, _ = line.partition("fn ")
        if is_function and before.split()[:1] == ([] if is_of_trait else ["pub"]):
            yield at, begin


def calls_in(path, definitions):
    """Yields the name, the promise and the clauses of each public call of a file."""
    lines = lines_of(path)
    imports = " ".join(lines).split("ghost use ")[1:]
    used = {word for one in imports for word in words_of(one.partition(";")[0])} & definitions.keys()
    for at, begin in functions_in(lines):
        block, known = lines[begin], {name: definitions[name] for name in used}
        promise = promise_above(lines, at) or promise_above(lines, begin)
        asked = [line.split()[1] for line in lines[begin:at] if line.startswith("    ghost ") and " for " in block]
        clauses = [f"`{name}`" for name in asked if name != "use"]
        clauses += [shown(clause, known) for clause in clauses_below(lines, at)]
        if promise and clauses or lines[at].lstrip().startswith("pub"):
            where = path.stem if path.stem.endswith("laws") else owner_of(block) if lines[at].startswith(" ") else ""
            name = words_of(lines[at].partition("fn ")[2])[0]
            yield f"{where}::{name}".removeprefix("::"), promise, "; ".join(clauses)


def internal_of(crate):
    """Returns the words of the module `internal` of a crate, which offers calls to the crates above only."""
    return set(words_of(" ".join(lines_of(TOP / "crates" / crate / "src/internal.rt"))))


def table_of(crate):
    """Returns the table of the calls of a crate, without those of `internal`. Calls that promise the same in the same
    clauses share a row."""
    # Of two definitions with one name, that of this crate counts.
    definitions = {name: fields for one in [*crates(), crate] for name, fields in definitions_of(one).items()}
    names, internal = {}, internal_of(crate)
    for name, *row in (call for path in sources_of(crate) for call in calls_in(path, definitions)):
        if name.partition("::")[0] not in internal:
            names.setdefault(tuple(row), []).append(f"`{name}`")
    rows = [f"| {', '.join(names[row])} | {row[0]} | {row[1]} |" for row in names]
    return "\n".join(["| Call | What it promises | Clauses |", "|---|---|---|", *rows])
