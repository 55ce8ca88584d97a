"""What decides about each right of one person on one object."""

from __future__ import annotations

from typing import Dict, Iterator, List, NamedTuple, Optional, Tuple, Union

from aclck import ALL, ALLOW, Decision, mask_text
from aclck.entries import PERMISSIONS, letters_of

from aclck_tree.answer.ask import DENIED, GRANTED, UNKNOWN, Answer, Asker
from aclck_tree.answer.identities import Identity
from aclck_tree.answer.lists import POSIX_MASKS, AskableList, Kind, RefusedList
from aclck_tree.answer.posix import check
from aclck_tree.answer.wants import Want
from aclck_tree.output.text import quoted
from aclck_tree.people.people import Person
from aclck_tree.snapshot.snapshot import Face


class Why(NamedTuple):
    """What decides about one right: the answer, and the ACE or entry, or the reason why there is none."""

    right: str
    answer: Answer
    place: Optional[int]
    text: str


def why_nfs(asker: Asker, face: Face, asked: AskableList, person: Person) -> List[Why]:
    """Returns for each right the ACE that decides it (RFC 8881, section 6.2.1)."""
    first, *others = (_why_as(asker, face, asked, one) for one in asker.identities(person, face, Kind.NFS4, asked.acl))
    return [one if all(other[place].answer is one.answer for other in others) else Why(
        one.right, UNKNOWN, None, "the name and the id of the user or of a group may be those of two accounts")
        for place, one in enumerate(first)]


def _why_as(asker: Asker, face: Face, asked: AskableList, identity: Identity) -> List[Why]:
    """Returns the same for one way in which the list may name the person."""
    lines = asked.lines()
    names = ", ".join(quoted(name) for name, _ in asked.specials)
    possible = asker.possible(face, asked, identity, ALL) if asked.specials else None
    fewest, most = (identity._replace(groups=groups) for groups in asked.fewest_and_most(identity.groups))
    rows = []
    for right in (1 << bit for bit in range(21) if ALL >> bit & 1):
        one = _deciding(asker, face, asked, fewest, right)
        if possible and one != _deciding(asker, face, asked, most, right):  # that of a special identifier comes first
            answer = GRANTED if possible.allowed & right else UNKNOWN if possible.unknown & right else DENIED
            rows.append(Why(mask_text(right), answer, None, f"depends on who is {names}"))
            continue
        rows.append(Why(mask_text(right), GRANTED if one and one.kind == ALLOW else DENIED,
                        asked.places[one.place] if one else None,
                        lines[one.place] if one else "no ACE has it for this user"))
    return rows


def _deciding(asker: Asker, face: Face, asked: AskableList, identity: Identity, right: int) -> Optional[Decision]:
    owner, group = asker.owner_and_group(face, asked.kind)
    return asked.acl.deciding(user=identity.user, groups=identity.groups, owner=owner, group=group, right=right)


def why_posix(asker: Asker, face: Face, asked: AskableList, person: Person) -> List[Why]:
    """Returns for each permission the entry that decides it, by the four cases of acl(5), "ACCESS CHECK ALGORITHM"."""
    identity = asker.identity(person, face, Kind.POSIX)
    assert asked.posix
    if identity is None:
        return [Why(letter, UNKNOWN, None, "no id is known for the user or a group") for letter in PERMISSIONS]
    user, groups = int(identity.user), set(map(int, identity.groups))
    entries = {(entry.tag, entry.id): entry.perm for entry in asked.posix if not entry.default}
    mask = entries.get(("mask", None), 7)
    rows = []
    for letter, bit in PERMISSIONS.items():
        tag, number, masked = _entry_for(entries, user, groups, face, bit)
        text = f"{tag}:{'' if number is None else number}:{letters_of(entries[tag, number])}"
        limited = f", mask::{letters_of(mask)}" if masked and mask != 7 else ""
        granted = check(asked.posix, face, identity, bit)
        rows.append(Why(letter, GRANTED if granted else DENIED, None, text + limited))
    return rows


def why_request(asker: Asker, face: Face, person: Person, want: Want) -> Iterator[Why]:
    """Yields what else decides about a request for several rights on an object with a POSIX ACL: rights that do not
    exist in such lists, and that no entry grants all of the permissions although each is granted by itself."""
    asked, identity = asker.ready(face.list), asker.identity(person, face, Kind.POSIX)
    if isinstance(asked, RefusedList) or not asked.posix:
        return
    for right in (1 << bit for bit in range(21)):
        if want.missing & right:
            yield Why(mask_text(right), Answer.REFUSED, None, "a POSIX ACL has no such right")
    if want.perms and identity and not check(asked.posix, face, identity, want.perms):
        if all(check(asked.posix, face, identity, bit) for bit in POSIX_MASKS if want.perms & bit):
            letters = letters_of(want.perms, absent="")
            yield Why(letters, DENIED, None, "no entry grants all of these permissions")


def _entry_for(entries: Dict[Tuple[str, Optional[int]], int], user: int, groups: "set[int]", face: Face,
               bit: int) -> Tuple[str, Optional[int], bool]:
    """Returns the tag and the id of the entry that decides, and whether the mask limits it."""
    if user == face.uid:
        return "user", None, False
    if ("user", user) in entries:
        return "user", user, True
    matching: List[Optional[int]] = [None] if face.gid in groups else []
    matching += sorted(number for tag, number in entries if tag == "group" and number is not None and number in groups)
    if matching:
        return "group", next((one for one in matching if entries["group", one] & bit), matching[0]), True
    return "other", None, False


def why(asker: Asker, face: Face, person: Person) -> Union[RefusedList, List[Why]]:
    """Returns what decides about each right for a person."""
    asked = asker.ready(face.list)
    if isinstance(asked, RefusedList):
        return asked
    return (why_posix if asked.posix else why_nfs)(asker, face, asked, person)
