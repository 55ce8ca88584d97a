"""Which of the names that are asked about no list, owner or group of a snapshot mentions.

A name that is written wrongly gets an answer all the same: that of a user whom no list names. So such names are said.
"""

from __future__ import annotations

from typing import Dict, Iterable, Iterator, List, NamedTuple, Optional, Sequence, Set, Tuple

from aclck_tree.answer.ask import Asker
from aclck_tree.answer.lists import AskableList, Kind, decoded, encoded, nfs_bytes, pieces
from aclck_tree.output.text import first_few, quoted
from aclck_tree.people.people import Person

Name = Tuple[bool, str]  # whether it is a group, and the name as it was given
_Form = Tuple[int, bool, bytes]  # the tree, or 0 for the names of NFSv4 lists; whether it is a group; the name or id


class Unmentioned(NamedTuple):
    """Names that nothing mentions, names with a domain that no NFSv4 list has, and the domains that NFSv4 lists
    have."""

    names: Set[Name]
    foreign: Set[Name]
    domains: Set[str]


def _wanted(asker: Asker, names: Iterable[Tuple[Person, Name]], trees: Set[int]) -> Dict[_Form, Set[Name]]:
    """Returns some names by their forms in NFSv4 lists and in the POSIX ACLs of some trees."""
    wanted: Dict[_Form, Set[Name]] = {}
    for person, (is_group, word) in names:
        wanted.setdefault((0, is_group, encoded(asker.full_name(word))), set()).add((is_group, word))
        for tree in trees:
            for number in asker.ids(person, word, is_group, tree):
                wanted.setdefault((tree, is_group, b"%d" % number), set()).add((is_group, word))
    return wanted


def _mention(wanted: Dict[_Form, Set[Name]], left: Set[Name], forms: Set[_Form]) -> None:
    """Takes away from the names that are left those that have one of some forms."""
    for form in wanted.keys() & forms:
        left -= wanted[form]


def unmentioned(asker: Asker, names: Optional[Sequence[Tuple[Person, Name]]] = None) -> Unmentioned:
    """Returns which of the names that are asked about the snapshot of an `Asker` does not mention: those of the people,
    or those that are given, each with a person who may give its id."""
    if names is None:
        names = [(person, name) for person in asker.people
                 for name in [(False, person.name), *((True, group) for group in person.groups)]]
    lists: Dict[int, Set[int]] = {}
    for face in asker.faces.values():
        lists.setdefault(face.list, set()).add(face.tree)
    trees = {tree for number, held in lists.items() if asker.stored[number].is_posix for tree in held}
    wanted, left, in_lists = _wanted(asker, names, trees), {name for _, name in names}, {b""}
    for face in asker.faces.values():
        tree, kind = (face.tree, Kind.POSIX) if asker.stored[face.list].is_posix else (0, Kind.NFS4)
        owners = zip((False, True), asker.owner_and_group(face, kind))
        _mention(wanted, left, {(tree, is_group, encoded(name)) for is_group, name in owners})
    for number, held in lists.items():
        stored = asker.stored[number]
        if stored.is_nfs:
            found = {(0, piece.is_group, piece.who) for piece in pieces(nfs_bytes(stored, asker.options.domain))}
            _mention(wanted, left, found)
            in_lists.update(who.partition(b"@")[2] for _, _, who in found)
        elif stored.is_posix and stored.access is not None:
            asked = asker.ready(number)
            ids = asked.ids() if isinstance(asked, AskableList) else []
            _mention(wanted, left, {(tree, is_group, b"%d" % one) for is_group, one in ids for tree in held})
    domains = set(map(decoded, in_lists - {b""}))
    foreign = {name for _, name in names if domains and asker.full_name(name[1]).partition("@")[2] not in domains}
    return Unmentioned(left, foreign, domains)


def lines(asker: Asker, found: Unmentioned, only_domains: bool) -> Iterator[str]:
    """Yields the lines that say which names are not mentioned. With `only_domains`, the people are all accounts of a
    system, of which most are never mentioned: then only names with a domain that no list has are said."""
    if found.names and not only_domains:
        yield f"no list, owner or group names {names_in_words(found.names)}{_domains(asker, found, found.names)}"
    other = found.foreign if only_domains else found.foreign - found.names
    if other:
        yield f"no NFSv4 list names {names_in_words(other)}{_domains(asker, found, other)}"


def names_in_words(names: Set[Name]) -> str:
    """Returns some names in words, such as `the users bob, dora or the group editors`."""
    parts = []
    for is_group, word in ((False, "user"), (True, "group")):
        some = sorted(name for kind, name in names if kind == is_group)
        if some:
            plural = "s" if len(some) > 1 else ""
            parts.append(f"the {word}{plural} {first_few(some, quoted)}")
    return " or ".join(parts)


def _domains(asker: Asker, found: Unmentioned, names: Set[Name]) -> str:
    """Returns which domains the lists have, if some of the names have none of these, and whether only case differs."""
    given = {asker.full_name(name).partition("@")[2] for _, name in names & found.foreign}
    if not given:
        return ""
    shown: Sequence[str] = sorted(found.domains)
    line = f"; the NFSv4 lists have the domain {first_few(shown, quoted)}"
    folded: Dict[str, List[str]] = {}
    for domain in shown:
        folded.setdefault(domain.casefold(), []).append(domain)
    for domain in sorted(given):
        for other in folded.get(domain.casefold(), []):
            line += f", and {quoted(domain)} differs from {quoted(other)} in upper and lower case"
    return line
