"""What a POSIX ACL grants ids."""

from __future__ import annotations

from typing import Dict, FrozenSet, Optional, Sequence, Tuple

from aclck import PosixAcl

from aclck_tree.answer.bits import bits_of, chosen
from aclck_tree.answer.identities import Identity
from aclck_tree.snapshot.snapshot import Face


def at_once(face: Face, acl: PosixAcl, identities: Sequence[Optional[Identity]], people: int, perms: int) -> int:
    """Returns whom of some people a list grants several permissions at once, which one entry must have (acl(5)). Each
    of these people has ids, and is granted each single permission.

    Of the people of whom the list, the owner and the group of the object mention the same ids, the first is asked."""
    users, groups = ({str(number), *(str(one.id) for one in acl if one.tag == tag)} for tag, number in
                     (("user", face.uid), ("group", face.gid)))
    known: Dict[Tuple[str, FrozenSet[str]], bool] = {}
    granted = [False] * len(identities)
    for place in chosen(range(len(granted)), people):
        one = identities[place]
        assert one
        key = one.user if one.user in users else "", frozenset(groups.intersection(one.groups))
        if key not in known:
            known[key] = check(acl, face, one, perms)
        granted[place] = known[key]
    return bits_of(granted)


def check(acl: PosixAcl, face: Face, identity: Identity, perms: int) -> bool:
    """Returns whether a list grants some permissions to a user and groups, which are ids in digits."""
    return acl.check(user=int(identity.user), groups=map(int, identity.groups), owner=face.uid, group=face.gid,
                     want=perms)
