//! NFSv4 lists (RFC 8881, section 6.2.1). A list is the bytes of `nfsace4<>`.

use crate::answers::{answered, done, made};
use crate::raw::{self, Buffer, Bytes, Fault};
use crate::{AceKind, Decided, Decision, Difference, Error, Kind, Object, Profile, Requester, Rights};

/// The number of each option in `aclck.h`.
const NARROW: u32 = 0x0100_0000;
pub(crate) const DIRECTORY: u32 = 0x0200_0000;
const MARK_INHERITED: u32 = 0x2000_0000;

/// Returns which of the rights the list allows the requester on the object, and which it denies.
pub fn decide(
    acl: &[u8], object: Object, requester: Requester, rights: Rights, profile: Profile,
) -> Result<Decided, Error> {
    let groups = slices(requester.groups);
    let found: raw::Decided = answered(|found, fault| unsafe {
        let asked = (&owned(object), &asking(requester, &groups), &question(rights, profile));
        raw::aclck_decide(Bytes::of(acl), asked.0, asked.1, asked.2, found, fault)
    })?;
    Ok(Decided::of(found))
}

/// Returns whether the list grants the requester all of the rights on the object.
pub fn check(
    acl: &[u8], object: Object, requester: Requester, rights: Rights, profile: Profile,
) -> Result<bool, Error> {
    let groups = slices(requester.groups);
    let granted: u32 = answered(|granted, fault| unsafe {
        let asked = (&owned(object), &asking(requester, &groups), &question(rights, profile));
        raw::aclck_check(Bytes::of(acl), asked.0, asked.1, asked.2, granted, fault)
    })?;
    Ok(granted == 1)
}

/// Returns those of the rights that the list grants the requester on the object.
pub fn granted(
    acl: &[u8], object: Object, requester: Requester, rights: Rights, profile: Profile,
) -> Result<Rights, Error> {
    let groups = slices(requester.groups);
    answered(|found, fault| unsafe {
        let asked = (&owned(object), &asking(requester, &groups), &question(rights, profile));
        raw::aclck_granted(Bytes::of(acl), asked.0, asked.1, asked.2, found, fault)
    })
    .map(Rights::of)
}

/// Returns the ACE that decides one right for the requester, if there is one. Without one, the right is denied.
pub fn deciding(
    acl: &[u8], object: Object, requester: Requester, right: Rights, profile: Profile,
) -> Result<Option<Decision>, Error> {
    let groups = slices(requester.groups);
    let found: raw::Decision = answered(|found, fault| unsafe {
        let asked = (&owned(object), &asking(requester, &groups), &question(right, profile));
        raw::aclck_deciding(Bytes::of(acl), asked.0, asked.1, asked.2, found, fault)
    })?;
    Ok((found.kind != raw::UNDECIDED).then_some(Decision { place: found.place, kind: AceKind::of(found.kind) }))
}

/// Returns those of the rights that the list grants each requester on the object. Reads the list once.
pub fn check_many(
    acl: &[u8], object: Object, people: &[Requester], rights: Rights, profile: Profile,
) -> Result<Vec<Rights>, Error> {
    let groups: Vec<Vec<Bytes>> = people.iter().map(|one| slices(one.groups)).collect();
    let asking = requesters(people, &groups);
    let many = raw::Requesters { at: asking.as_ptr(), len: asking.len() };
    let (mut found, mut fault) = (vec![0; asking.len()], Fault::default());
    let status = unsafe {
        let room = Buffer::of(&mut found);
        raw::aclck_check_many(Bytes::of(acl), &owned(object), many, &question(rights, profile), room, &mut fault)
    };
    done(status, fault).map(|()| found.into_iter().map(Rights::of).collect())
}

/// Returns the mode of the list (section 6.3.2).
pub fn mode(acl: &[u8], profile: Profile) -> Result<u32, Error> {
    answered(|mode, fault| unsafe { raw::aclck_mode(Bytes::of(acl), options(profile), mode, fault) })
}

/// Returns the list of a new object in a directory with this list.
pub fn child(acl: &[u8], kind: Kind, profile: Profile) -> Result<Vec<u8>, Error> {
    let options = options(profile) | if kind == Kind::Directory { DIRECTORY } else { 0 };
    made(acl.len(), |out, needed, fault| unsafe { raw::aclck_child(Bytes::of(acl), options, out, needed, fault) })
}

/// Returns the same list with the flag INHERITED on each of its ACEs (section 6.4.3).
pub fn child_marked(acl: &[u8], kind: Kind, profile: Profile) -> Result<Vec<u8>, Error> {
    let options = options(profile) | MARK_INHERITED | if kind == Kind::Directory { DIRECTORY } else { 0 };
    made(acl.len(), |out, needed, fault| unsafe { raw::aclck_child(Bytes::of(acl), options, out, needed, fault) })
}

/// Returns the list after the mode of its object is set to these nine bits (section 6.4.1.1).
pub fn chmod(acl: &[u8], mode: u32, profile: Profile) -> Result<Vec<u8>, Error> {
    let options = options(profile);
    made(acl.len() + 256, |out, needed, fault| unsafe {
        raw::aclck_chmod(Bytes::of(acl), mode, options, out, needed, fault)
    })
}

/// Returns the list for one object, in which its owner, as a user, stands for `OWNER@`, and its owning group, as a group,
/// for `GROUP@`. If an ACE needs a name that no ACE can have, `offset` of the fault is the place of the ACE, from 0.
pub fn resolved(acl: &[u8], object: &Object, profile: Profile) -> Result<Vec<u8>, Error> {
    let object = raw::Object { owner: Bytes::of(object.owner), group: Bytes::of(object.group) };
    made(2 * acl.len(), |out, needed, fault| unsafe {
        raw::aclck_resolved(Bytes::of(acl), &object, options(profile), out, needed, fault)
    })
}

/// Returns the list without AUDIT and ALARM ACEs in which a group stands for each special identifier that nobody knows:
/// its name is the special identifier followed by the suffix. If such a name cannot be that of a group, or an ACE is
/// already for a group of that name, `offset` of the fault is the place of the ACE, from 0, among those that stay.
pub fn with_groups(acl: &[u8], suffix: &[u8], profile: Profile) -> Result<Vec<u8>, Error> {
    let suffix = Bytes::of(suffix);
    made(2 * acl.len(), |out, needed, fault| unsafe {
        raw::aclck_with_groups(Bytes::of(acl), &suffix, options(profile), out, needed, fault)
    })
}

/// Returns what a list keeps under a bound, which is a list too: a right of an ALLOW goes if and only if the DENYs before
/// it, and then it, grant the right to somebody whom the bound denies it. Of all lists that are made by taking rights out
/// of ALLOWs, and that grant at most what the bound grants, it is the one that keeps most.
pub fn restricted(acl: &[u8], bound: &[u8], profile: Profile) -> Result<Vec<u8>, Error> {
    let bound = Bytes::of(bound);
    made(acl.len(), |out, needed, fault| unsafe {
        raw::aclck_restricted(Bytes::of(acl), &bound, options(profile), out, needed, fault)
    })
}

/// Returns what a list keeps under a bound on its object and on everything that is ever created below it, by the lists
/// that `child` makes of both. Of all lists that are made by taking rights out of ALLOWs, and that grant at most what
/// the bound grants on each of these objects, it is the one that keeps most.
pub fn restricted_everywhere(acl: &[u8], bound: &[u8], profile: Profile) -> Result<Vec<u8>, Error> {
    let limit = Bytes::of(bound);
    made(acl.len(), |out, needed, fault| unsafe {
        raw::aclck_restricted_everywhere(Bytes::of(acl), &limit, options(profile), out, needed, fault)
    })
}

/// Returns the text of the list.
pub fn show(acl: &[u8], profile: Profile) -> Result<Vec<u8>, Error> {
    let options = options(profile);
    made(4 * acl.len(), |out, needed, fault| unsafe { raw::aclck_show(Bytes::of(acl), options, out, needed, fault) })
}

/// Returns the bytes of the list that has this text.
pub fn encode(text: &[u8], profile: Profile) -> Result<Vec<u8>, Error> {
    let options = options(profile);
    made(text.len() + 4, |out, needed, fault| unsafe {
        raw::aclck_encode(Bytes::of(text), options, out, needed, fault)
    })
}

/// Returns the normal form of the list. Two lists have equal normal forms if and only if they grant everybody the same.
pub fn normalize(acl: &[u8], profile: Profile) -> Result<Vec<u8>, Error> {
    let options = options(profile);
    made(acl.len(), |out, needed, fault| unsafe { raw::aclck_normalize(Bytes::of(acl), options, out, needed, fault) })
}

/// Returns the five normal forms of the list of a directory, one after the other.
pub fn normalize_inherit(acl: &[u8], profile: Profile) -> Result<Vec<u8>, Error> {
    let options = options(profile);
    made(3 * acl.len(), |out, needed, fault| unsafe {
        raw::aclck_normalize_inherit(Bytes::of(acl), options, out, needed, fault)
    })
}

/// Returns the ACEs of the normal form that have one right, one line per ACE.
pub fn table(acl: &[u8], right: Rights, profile: Profile) -> Result<Vec<u8>, Error> {
    let asked = question(right, profile);
    made(acl.len(), |out, needed, fault| unsafe { raw::aclck_table(Bytes::of(acl), &asked, out, needed, fault) })
}

/// Returns who has one right, in words: one line per ACE of the normal form that has the right, from the last ACE to
/// the first. Of the lines that are about a requester, the last one decides.
pub fn holders(acl: &[u8], right: Rights, profile: Profile) -> Result<Vec<u8>, Error> {
    let asked = question(right, profile);
    made(acl.len(), |out, needed, fault| unsafe { raw::aclck_holders(Bytes::of(acl), &asked, out, needed, fault) })
}

/// Returns for each ACE, in order, the rights that are needed: the list cut to them grants everybody the same, and no
/// right can be taken out of it.
pub fn needed(acl: &[u8], profile: Profile) -> Result<Vec<Rights>, Error> {
    let options = options(profile);
    // An ACE has at least 20 bytes.
    let masks = made(acl.len() / 20, |masks, needed, fault| unsafe {
        raw::aclck_needed(Bytes::of(acl), options, masks, needed, fault)
    })?;
    Ok(masks.into_iter().map(Rights::of).collect())
}

/// Returns whether two lists grant everybody the same.
pub fn same(first: &[u8], second: &[u8], profile: Profile) -> Result<bool, Error> {
    let same: u32 = answered(|same, fault| unsafe {
        raw::aclck_same(Bytes::of(first), Bytes::of(second), options(profile), same, fault)
    })?;
    Ok(same == 1)
}

/// Returns the first difference of two lists, or `None` if they grant everybody the same.
pub fn compare(first: &[u8], second: &[u8], profile: Profile) -> Result<Option<Difference>, Error> {
    differing(first, second, profile, raw::aclck_compare)
}

/// Returns the first difference in which the first list grants a right and the second does not, or `None` if the second
/// list grants everybody whatever the first grants.
pub fn excess(first: &[u8], second: &[u8], profile: Profile) -> Result<Option<Difference>, Error> {
    differing(first, second, profile, raw::aclck_excess)
}

/// Returns `None` if everybody to whom the list grants the one right also gets each of the others, and otherwise a
/// requester who gets the right, with the lowest of the others that the list denies.
pub fn implies(acl: &[u8], right: Rights, others: Rights, profile: Profile) -> Result<Option<Difference>, Error> {
    let asked = raw::Implication { right: right.bits(), others: others.bits(), options: options(profile) };
    found(|at, out, fault| unsafe { raw::aclck_implies(Bytes::of(acl), &asked, at, out, fault) })
}

type Comparing = unsafe extern "C" fn(Bytes, Bytes, u32, *mut raw::Difference, Buffer<u8>, *mut raw::Fault) -> u32;

fn differing(first: &[u8], second: &[u8], profile: Profile, call: Comparing) -> Result<Option<Difference>, Error> {
    found(|at, out, fault| unsafe {
        call(Bytes::of(first), Bytes::of(second), options(profile), at, out, fault)
    })
}

fn found(
    mut call: impl FnMut(*mut raw::Difference, Buffer<u8>, *mut raw::Fault) -> u32,
) -> Result<Option<Difference>, Error> {
    let mut at = raw::Difference::default();
    let names = made(256, |out, needed, fault| {
        let status = call(&mut at, out, fault);
        *needed = at.names as usize;
        status
    })?;
    if at.same == 1 {
        return Ok(None);
    }
    let mut names = names.split(|byte| *byte == 0).map(<[u8]>::to_vec);
    let mut next = || names.next().unwrap_or_default();
    let (owner, group, user) = (next(), next(), next());
    let mut groups: Vec<Vec<u8>> = names.collect();
    groups.pop(); // what follows the last zero byte
    Ok(Some(Difference { right: Rights::of(at.right), first_grants: at.first_grants == 1, owner, group, user, groups }))
}

pub(crate) fn options(profile: Profile) -> u32 {
    match profile {
        Profile::Full => 0,
        Profile::Narrow => NARROW,
    }
}

pub(crate) fn question(rights: Rights, profile: Profile) -> raw::Question {
    raw::Question { mask: rights.bits(), options: options(profile) }
}

pub(crate) fn owned(object: Object) -> raw::Object {
    raw::Object { owner: Bytes::of(object.owner), group: Bytes::of(object.group) }
}

pub(crate) fn asking(requester: Requester, groups: &[Bytes]) -> raw::Requester {
    raw::Requester { user: Bytes::of(requester.user), groups: groups.as_ptr(), ngroups: groups.len() }
}

pub(crate) fn requesters(people: &[Requester], groups: &[Vec<Bytes>]) -> Vec<raw::Requester> {
    people.iter().zip(groups).map(|(one, names)| asking(*one, names)).collect()
}

pub(crate) fn slices(names: &[&[u8]]) -> Vec<Bytes> {
    names.iter().map(|name| Bytes::of(name)).collect()
}
