"""The page of `report`: HTML with one style and one script of its own. It loads nothing else, and every string of a
snapshot is escaped in it."""

from __future__ import annotations

import base64
import hashlib
import html
import pathlib
from typing import TYPE_CHECKING, Iterator, List, Tuple

from aclck_tree.answer.lists import AskableList
from aclck_tree.answer.reach import root_note
from aclck_tree.output.text import plural, quoted, quoted_host, quoted_line, quoted_path, shortened
from aclck_tree.people.people import Person, system_accounts
from aclck_tree.report.findings import Finding
from aclck_tree.report.rows import Level, Name, PageRow, Shown, columns_of, shown

if TYPE_CHECKING:
    from aclck_tree.report.report import Places, Report

MOST_SHOWN = 300
"""How many rows the page has."""

MOST_COLUMNS = 40
"""How many columns of people the page has."""

MOST_OPEN = 60
"""How many rows the page may have and still show all of them when it is opened. Of others, the first two levels."""

MOST_NAMED = 2000
"""How many names the rows have together."""

MOST_WORDS = 20
"""How many rows the table of a finding has."""

_LEVELS = {Level.NONE: ("n", "–"), Level.READ: ("r", "read"), Level.WRITE_ONLY: ("o", "write only"),
           Level.WRITE: ("w", "write"), Level.ALL: ("a", "all"), Level.UNKNOWN: ("u", "?"),
           Level.REFUSED: ("f", "refused")}
"""The class and the words of a cell."""


def escaped(text: str) -> str:
    """Returns a text as HTML, with numbers in place of characters that are not shown."""
    return html.escape(quoted_line(text), False)


def _code(text: str) -> str:
    return f"<code>{escaped(text)}</code>"


def _file(name: str) -> str:
    """Returns the text of a file that lies next to this module."""
    return pathlib.Path(__file__).with_name(name).read_text(encoding="utf-8")


def _hash(text: str) -> str:
    return "'sha256-" + base64.b64encode(hashlib.sha256(text.encode()).digest()).decode() + "'"


def _css_string(text: str) -> str:
    """Returns a text as a string of CSS, in which each character that is no letter or digit is a number."""
    return '"' + "".join(letter if letter.isalnum() and letter.isascii() else f"\\{ord(letter):x} "
                         for letter in text) + '"'


def _objects(folders: int, files: int) -> str:
    """Returns counts in words, such as `14 folders and 1 file`."""
    parts = [plural(count, word) for count, word in ((folders, "folder"), (files, "file")) if count]
    return " and ".join(parts) or "nothing"


def page(report: Report) -> Iterator[str]:
    """Yields the page, piece by piece."""
    rows = shown(report.rows.top, MOST_SHOWN)
    columns = columns_of(rows[1:], len(report.people))
    is_of_system = system_accounts(report.snapshot)  # their columns come last
    columns.sort(key=lambda column: all(is_of_system(report.people[place]) for place in column))
    heads = [_head(report, column) for column in columns[:MOST_COLUMNS]]
    labels = "".join(f"#access td:nth-child({place})::before{{content:{_css_string(name + ': ')}}}\n"
                     for place, (name, _) in enumerate(heads, 3))
    style, script = _file("page.css"), _file("page.js")
    style += "@media print, (max-width: 40rem) {\n" + labels + "}\n"
    names = ", ".join(tree.words() for tree in report.snapshot.trees.values())
    title = escaped(f"Access in {shortened(names)}")
    yield "<!DOCTYPE html>\n<html lang=en><head><meta charset=utf-8>\n"
    yield "<meta http-equiv=Content-Security-Policy content=\"default-src 'none'; base-uri 'none'; form-action 'none'; "
    yield f"style-src {_hash(style)}; script-src {_hash(script)}\">\n"
    yield "<meta name=viewport content='width=device-width, initial-scale=1'>\n"
    yield f"<title>{title}</title>\n<style>{style}</style></head>\n<body><h1>{title}</h1>\n"
    yield from _summary(report)
    yield from _findings(report)
    yield from _table(report, rows, columns, heads)
    yield from _scan(report)
    yield f"<script>{script}</script>\n</body></html>\n"


def _number_of_people(report: Report) -> str:
    return plural(len(report.people), "person").replace("persons", "people")


def _summary(report: Report) -> Iterator[str]:
    pattern = f" whose path matches {_code(quoted(report.glob))}" if report.glob is not None else ""
    yield f"<p>This page says who may read and change {_objects(report.folders, report.files)}{pattern}, by their "
    yield f"access control lists. It asks about {_number_of_people(report)}. "
    yield ("Nobody has access below a folder that does not let them pass. " if report.is_reach else
           "It does not ask whether somebody gets past the folders above an object. ")
    if report.is_reach and root_note(report.asker):
        yield "Root gets past every folder with a POSIX ACL or a mode. "
    yield "What a server grants beyond a list, as to root, is not counted.</p>\n"
    for tree in report.snapshot.trees.values():
        where = tree.words()
        portion = report.snapshot.portions.get(tree.tree)
        if portion:
            yield f"<p class=warning>Of {escaped(where)}, the scan has {portion.words()}.</p>\n"
        if not tree.whole:
            yield f"<p class=warning>The scan of {escaped(where)} was ended early: objects are missing.</p>\n"
    failed = sum(1 for _ in report.snapshot.errors())
    if failed:
        yield f"<p class=warning>{plural(failed, 'step')} of the scan failed: objects may be missing.</p>\n"


def _findings(report: Report) -> Iterator[str]:
    yield "<h2>Findings</h2>\n"
    for finding in report.findings:
        places = list(report.found[finding.key].values())
        if places:
            yield from _finding(report, finding, sorted(places, key=lambda one: -one.folders - one.files))
    absent = [finding.title for finding in report.findings if not report.found[finding.key]]
    if absent:
        yield f"<p>Not found: {', '.join(absent)}.</p>\n"
    unsure = report.unsure
    if unsure.folders + unsure.files:
        yield f"<p class=warning>It is not known who else could change {_objects(unsure.folders, unsure.files)}: that "
        yield "depends on a folder above the tree, on a special identifier, or on an id that is not known.</p>\n"


def _finding(report: Report, finding: Finding, places: List[Places]) -> Iterator[str]:
    objects = _objects(sum(one.folders for one in places), sum(one.files for one in places))
    sentence = finding.sentence.format(objects)
    yield f"<details class=found id={finding.key}><summary><strong>{sentence}</strong></summary>\n"
    yield f"<p>{finding.about}</p>\n<table><caption>{sentence}</caption>\n"
    yield "<thead><tr><th scope=col class=k>Objects<th scope=col>What<th scope=col>Where</thead><tbody>\n"
    named = max(3, 100 // len(places))
    for one in places[:MOST_WORDS]:
        yield (f"<tr>{_count(one.folders + one.files)}<td>{escaped(shortened(one.words, 400))}"
               f"<td>{_names(report, one.names[:named], one.folders + one.files)}\n")
    yield "</tbody></table>\n"
    if len(places) > MOST_WORDS:
        rest = sum(one.folders + one.files for one in places[MOST_WORDS:])
        yield f"<p>{plural(rest, 'object')} with other words: aclck-tree report --csv writes all of them.</p>\n"
    yield "</details>\n"


def _count(objects: int) -> str:
    """Returns the cell with a number of objects. On a narrow screen, the style puts the noun behind it."""
    return f"<td class={repr('k one') if objects == 1 else 'k'}>{objects:,}"


def _names(report: Report, objects: List[Name], count: int) -> str:
    """Returns the names of the first of some objects, and how many others there are."""
    names = [report.name(*one) for one in objects]
    if count == 1:
        return _code(names[0])
    items = "".join(f"<li>{_code(name)}" for name in names)
    more = f"<li>and {count - len(names):,} more that this page does not name" if count > len(names) else ""
    return (f"<details><summary>{_code(names[0])} <small>and {count - 1:,} more</small></summary>"
            f"<ul>{items}{more}</ul></details>")


def _person(report: Report, person: Person) -> str:
    """Returns the name of a person, with the ids."""
    ids = report.id_of(person)
    return shortened(quoted(person.name), 40) + (f" ({ids})" if ids else "")


def _head(report: Report, column: List[int]) -> Tuple[str, str]:
    """Returns the head of a column, and the words for the ids of a column of one person."""
    people = [report.people[place] for place in column]
    if len(people) > 2:
        return f"{shortened(quoted(people[0].name), 40)} and {len(people) - 1:,} more", ""
    return ", ".join(shortened(quoted(person.name), 40) for person in people), \
        ", ".join(filter(None, (report.id_of(person) for person in people)))


def _table(report: Report, rows: List[Shown], columns: List[List[int]], heads: List[Tuple[str, str]]) -> Iterator[str]:
    yield from _table_head(report, heads)
    yield from _table_rows(report, rows, [column[0] for column in columns[:MOST_COLUMNS]])
    yield "</tbody></table></div>\n<div id=print></div>\n"
    yield from _people(report, columns)


def _table_head(report: Report, heads: List[Tuple[str, str]]) -> Iterator[str]:
    yield "<h2 id=title>Who has access to what</h2>\n<p>A row stands for a folder and for everything below it, except "
    yield "the rows under it: these are the exceptions. People whose access is equal in all rows share a column. A "
    yield "cell says <b>all</b> for every right (of a file: except to run it), <b>write</b> for reading and writing or "
    yield "appending, <b>write only</b>, <b>read</b>, <b>–</b> for none of these, and <b>?</b> where the answer "
    yield "depends on whom the server takes for a special identifier, or on an id that is not known. <b>own:</b> says "
    yield "what a person has on those objects of the row that he or she owns, if that is something else.</p>\n"
    yield "<p id=tools hidden><label>Show rows with <input id=search type=search placeholder='part of a path'></label> "
    yield "<label>where <select id=person><option value=''>anybody</option>"
    for place, (head, _) in enumerate(heads):
        yield f"<option value={place}>{escaped(head)}</option>"
    yield "</select></label> <label>has <select id=level><option value=''>any access</option><option>read</option>"
    yield "<option>write</option><option>all</option><option value=none>none of these</option><option value=unknown>an "
    yield "unknown answer</option><option value=refused>a refused list</option></select></label> "
    yield "<span id=count role=status></span></p>\n"
    yield "<p class=cards>Who is not named in a row has no access to it.</p>\n"
    yield "<div class=scroll tabindex=0 role=region aria-labelledby=title>\n<table id=access><caption>Access of "
    yield f"{_number_of_people(report)}</caption>\n<thead><tr>"
    yield "<th scope=col aria-sort=ascending><button type=button>Where</button>"
    yield "<th scope=col class=k><button type=button>Objects</button>"
    for head, ids in heads:
        yield f"<th scope=col><button type=button>{escaped(head)}</button>"
        yield f"<small>{escaped(ids)}</small>" if ids else ""
    yield "</thead><tbody>\n"


def _table_rows(report: Report, rows: List[Shown], firsts: List[int]) -> Iterator[str]:
    """Writes a row for each folder, with a cell for the first person of each column. Rows below `deepest_open` are
    closed at first."""
    most = max(3, min(20, MOST_NAMED // len(rows)))
    deepest_open = 2 if len(rows) > MOST_OPEN else len(rows)
    waiting: List[Shown] = []
    for one in rows:
        while waiting and waiting[-1].depth >= one.depth:
            last = waiting.pop()
            yield _rest(last, last.depth >= deepest_open)
        if one.depth:
            cells = "".join(_cell(one.row, person) for person in firsts)
            yield f"{_row(report, one, most, one.depth > deepest_open)}{cells}\n"
        waiting.append(one)
    while waiting:
        last = waiting.pop()
        yield _rest(last, last.depth >= deepest_open)


def _row(report: Report, one: Shown, most: int, is_hidden: bool) -> str:
    row, depth = one.row, one.depth
    names = row.names[:most]
    below = ", with what is below" if row.objects > row.begins else ""
    words = f"<small>{'exception: ' if depth > 1 else ''}{_objects(row.folders, row.files)}{below}</small>"
    more = " data-more=1" if row.begins > len(names) else ""
    deep = " class=deep" if depth > 5 else ""
    hidden = " hidden" if is_hidden else ""
    return (f"<tr data-d={depth}{deep}{more}{hidden}><th scope=row>{_names(report, names, row.begins)}{words}"
            f"{_count(row.objects)}")


def _cell(row: PageRow, person: int) -> str:
    level = Level(row.cells.levels[person])
    letter, words = _LEVELS[level]
    if person not in row.owners or row.cells.owner == level:
        return f"<td class={letter}>{words}"
    own, own_words = _LEVELS[row.cells.owner]
    before = "" if level == Level.NONE else f"{words}, "
    return f"<td class='{letter} x{own}'>{before}own: {own_words}"


def _rest(one: Shown, is_hidden: bool) -> str:
    if not one.left_out_objects:
        return ""
    rows = f"{plural(one.left_out_rows, 'row')} with " if one.left_out_rows else ""
    hidden = " hidden" if is_hidden else ""
    return (f"<tr class=rest data-d={one.depth + 1}{hidden}><th scope=row>exceptions without room on this page: {rows}"
            f"{plural(one.left_out_objects, 'object')}{_count(one.left_out_objects)}\n")


def _people(report: Report, columns: List[List[int]]) -> Iterator[str]:
    """Names the people of the columns whose heads do not."""
    many = [column for column in columns[:MOST_COLUMNS] if len(column) > 2]
    if many:
        yield "<h3>Who shares a column</h3>\n<ul>\n"
        for column in many:
            names = [_person(report, report.people[place]) for place in column]
            rest = f" and {len(names) - 1000:,} more" if len(names) > 1000 else ""
            yield f"<li><b>{escaped(_head(report, column)[0])}</b>: {escaped(', '.join(names[:1000]))}{rest}\n"
        yield "</ul>\n"
    absent = sum(len(column) for column in columns[MOST_COLUMNS:])
    if absent:
        yield f"<p class=warning>{absent:,} people have no column, because the page has room for {MOST_COLUMNS}. Ask "
        yield "about fewer people with --people or --skip-system.</p>\n"


def _scan(report: Report) -> Iterator[str]:
    snapshot = report.snapshot
    asked = [report.asker.ready(number) for number in report.lists]
    left_out = sum(one.left_out for one in asked if isinstance(one, AskableList))
    yield "<h2>The scan</h2>\n<table><caption>What was scanned and asked</caption><tbody>\n"
    errors = list(snapshot.errors())
    rows = [("Distinct lists", f"{len(asked):,}"), ("AUDIT and ALARM ACEs left out", f"{left_out:,}"),
            ("Steps that failed", f"{len(errors):,}")]
    for tree in snapshot.trees.values():
        where = f"{quoted_host(tree.host)}:{shortened(quoted_path(tree.place))}"
        rows.append((where, f"{tree.began} to {tree.ended or 'no end'}"))
    for name, value in rows:
        yield f"<tr><th scope=row>{escaped(name)}<td>{escaped(value)}\n"
    yield "</tbody></table>\n"
    if errors:
        yield f"<details><summary>{plural(len(errors), 'step')} failed</summary><ul>\n"
        for number, path, step, message in errors[:100]:
            full = _code(report.name(number, path))
            yield f"<li>{escaped(shortened(step))} {full}: {escaped(shortened(message))}\n"
        yield "</ul></details>\n"
