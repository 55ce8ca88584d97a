//! POSIX ACLs by their entries, by the extended attributes of Linux, and of NFSv4 lists.

use crate::answers::{answered, made};
use crate::nfs4::DIRECTORY;
use crate::posix::{asked, raw_names};
use crate::raw::{self, Array, Bytes};
use crate::{Error, Kind, Name, PosixQuestion};

/// The number of each option in `aclck.h`.
const ADD_MASK: u32 = 0x4000_0000;

/// The id of an entry that has none.
const NO_ID: u32 = u32::MAX;

/// What an entry is about.
#[derive(Clone, Copy, Debug, PartialEq, Eq)]
pub enum Tag {
    UserObj,
    User(u32),
    GroupObj,
    Group(u32),
    Mask,
    Other,
}

/// One entry: its tag, and its permissions (4 read, 2 write, 1 execute).
#[derive(Clone, Copy, Debug, PartialEq, Eq)]
pub struct Entry {
    pub tag: Tag,
    pub perm: u32,
}

/// What happens to entries that need a mask and have none.
#[derive(Clone, Copy, Debug, PartialEq, Eq)]
pub enum MissingMask {
    Refused,
    Added,
}

/// How a request is decided: whether it is granted, and the place of the entry that decides. There is no such entry if
/// entries of groups match and none of them has all that is asked. `masked` says that the entry has all of it, and the
/// mask has not.
#[derive(Clone, Copy, Debug, PartialEq, Eq)]
pub struct PosixDecision {
    pub granted: bool,
    pub place: Option<u64>,
    pub masked: bool,
}

/// A request that one list of entries grants and another denies: the owner and the group of an object, a user, the
/// groups of that user, at most two, and the permissions that the user wants.
#[derive(Clone, Debug, PartialEq, Eq)]
pub struct PosixDifference {
    pub owner: u32,
    pub group: u32,
    pub user: u32,
    pub groups: Vec<u32>,
    pub want: u32,
}

/// A permission that a list grants and its POSIX ACL denies: the owner and the group of an object, a user, the groups
/// of that user, at most three, and the permission (4 read, 2 write, 1 execute).
#[derive(Clone, Debug, PartialEq, Eq)]
pub struct PosixLoss {
    pub owner: u32,
    pub group: u32,
    pub user: u32,
    pub groups: Vec<u32>,
    pub want: u32,
}

/// The POSIX ACL of a list: its entries, and who loses what with it. If nobody loses anything, both grant each of read,
/// write and execute to the same requesters.
#[derive(Clone, Debug, PartialEq, Eq)]
pub struct ToPosix {
    pub entries: Vec<Entry>,
    pub lost: Option<PosixLoss>,
}

/// Returns whether the entries, which are in canonical order, grant what is asked.
pub fn entries_check(entries: &[Entry], question: PosixQuestion) -> Result<bool, Error> {
    let entries = raw_entries(entries);
    let granted: u32 = answered(|granted, fault| unsafe {
        raw::aclck_entries_check(Array::of(&entries), &asked(question), granted, fault)
    })?;
    Ok(granted == 1)
}

/// Returns which of the entries, which are in canonical order, decides.
pub fn entries_deciding(entries: &[Entry], question: PosixQuestion) -> Result<PosixDecision, Error> {
    let entries = raw_entries(entries);
    let found: raw::PosixDecision = answered(|found, fault| unsafe {
        raw::aclck_entries_deciding(Array::of(&entries), &asked(question), found, fault)
    })?;
    let place = (found.tag != 0).then_some(found.place);
    Ok(PosixDecision { granted: found.granted == 1, place, masked: found.masked == 1 })
}

/// Returns a request that the first entries grant and the second deny, or `None` if the second entries grant whatever
/// the first grant. Both are in canonical order.
pub fn entries_excess(first: &[Entry], second: &[Entry]) -> Result<Option<PosixDifference>, Error> {
    let (first, second) = (raw_entries(first), raw_entries(second));
    let found: raw::PosixDifference = answered(|found, fault| unsafe {
        raw::aclck_entries_excess(Array::of(&first), Array::of(&second), found, fault)
    })?;
    let groups = [found.first_group, found.second_group].into_iter().take(found.ngroups as usize).collect();
    let raw::PosixDifference { owner, group, user, want, .. } = found;
    Ok((found.same == 0).then_some(PosixDifference { owner, group, user, groups, want }))
}

/// Returns the mode of the entries.
pub fn entries_mode(entries: &[Entry]) -> Result<u32, Error> {
    let entries = raw_entries(entries);
    answered(|mode, fault| unsafe { raw::aclck_entries_mode(Array::of(&entries), mode, fault) })
}

/// Returns the entries in canonical order, if they are a valid ACL.
pub fn entries_sorted(entries: &[Entry], mask: MissingMask) -> Result<Vec<Entry>, Error> {
    let options = if mask == MissingMask::Added { ADD_MASK } else { 0 };
    changed(entries, |entries, out, needed, fault| unsafe {
        raw::aclck_entries_sorted(entries, options, out, needed, fault)
    })
}

/// Returns the entries after the mode is set.
pub fn entries_chmod(entries: &[Entry], mode: u32) -> Result<Vec<Entry>, Error> {
    changed(entries, |entries, out, needed, fault| unsafe {
        raw::aclck_entries_chmod(entries, mode, out, needed, fault)
    })
}

/// Returns the entries after the mask is calculated.
pub fn entries_calc_mask(entries: &[Entry]) -> Result<Vec<Entry>, Error> {
    changed(entries, |entries, out, needed, fault| unsafe {
        raw::aclck_entries_calc_mask(entries, out, needed, fault)
    })
}

/// Returns the access ACL of a new object in a directory with this default ACL. A new directory also gets the default
/// ACL itself.
pub fn entries_create(default: &[Entry], mode: u32, umask: u32, kind: Kind) -> Result<Vec<Entry>, Error> {
    let creation = raw::Creation { mode, umask, options: if kind == Kind::Directory { DIRECTORY } else { 0 } };
    changed(default, |entries, out, needed, fault| unsafe {
        raw::aclck_entries_create(entries, &creation, out, needed, fault)
    })
}

/// Returns the bytes of the NFSv4 list that grants the same single permissions as the entries.
pub fn entries_bridge(entries: &[Entry]) -> Result<Vec<u8>, Error> {
    let entries = raw_entries(entries);
    made(64 * entries.len(), |out, needed, fault| unsafe {
        raw::aclck_entries_bridge(Array::of(&entries), out, needed, fault)
    })
}

/// Returns the POSIX ACL of an NFSv4 list, which never grants more than the list. The id of a name is that of the
/// table, or the number that the name is. A list that names more than `most` users and groups is refused.
pub fn to_posix(acl: &[u8], names: &[Name], most: u16) -> Result<ToPosix, Error> {
    let names = raw_names(names);
    let mut loss = raw::PosixLoss::default();
    let found = made(acl.len() / 16 + 4, |out, needed, fault| unsafe {
        raw::aclck_to_posix(Bytes::of(acl), &Array::of(&names), most.into(), out, needed, &mut loss, fault)
    })?;
    let raw::PosixLoss { owner, group, user, want, .. } = loss;
    let groups = [loss.first_group, loss.second_group, loss.third_group];
    let groups = groups.into_iter().take(loss.ngroups as usize).collect();
    let lost = (loss.exact == 0).then_some(PosixLoss { owner, group, user, groups, want });
    Ok(ToPosix { entries: found.into_iter().map(entry).collect(), lost })
}

/// Returns the entries of `system.posix_acl_access` or `system.posix_acl_default`. There are none if there is no ACL.
pub fn entries_from_attribute(attribute: &[u8]) -> Result<Vec<Entry>, Error> {
    let found = made(attribute.len() / 8, |out, needed, fault| unsafe {
        raw::aclck_entries_from_attribute(Bytes::of(attribute), out, needed, fault)
    })?;
    Ok(found.into_iter().map(entry).collect())
}

/// Returns the bytes of the extended attribute with these entries.
pub fn entries_to_attribute(entries: &[Entry]) -> Result<Vec<u8>, Error> {
    let entries = raw_entries(entries);
    made(4 + 8 * entries.len(), |out, needed, fault| unsafe {
        raw::aclck_entries_to_attribute(Array::of(&entries), out, needed, fault)
    })
}

/// Makes a call that makes entries of entries.
fn changed(
    entries: &[Entry],
    call: impl Fn(Array<raw::Entry>, raw::Buffer<raw::Entry>, &mut usize, &mut raw::Fault) -> u32,
) -> Result<Vec<Entry>, Error> {
    let entries = raw_entries(entries);
    let found = made(entries.len() + 1, |out, needed, fault| call(Array::of(&entries), out, needed, fault))?;
    Ok(found.into_iter().map(entry).collect())
}

pub(crate) fn raw_entries(entries: &[Entry]) -> Vec<raw::Entry> {
    entries.iter().map(raw_entry).collect()
}

fn raw_entry(entry: &Entry) -> raw::Entry {
    let (tag, id) = match entry.tag {
        Tag::UserObj => (1, NO_ID),
        Tag::User(id) => (2, id),
        Tag::GroupObj => (3, NO_ID),
        Tag::Group(id) => (4, id),
        Tag::Mask => (5, NO_ID),
        Tag::Other => (6, NO_ID),
    };
    raw::Entry { tag, id, perm: entry.perm }
}

/// Returns an entry that the library wrote.
pub(crate) fn entry(found: raw::Entry) -> Entry {
    let tag = match found.tag {
        1 => Tag::UserObj,
        2 => Tag::User(found.id),
        3 => Tag::GroupObj,
        4 => Tag::Group(found.id),
        5 => Tag::Mask,
        _ => Tag::Other,
    };
    Entry { tag, perm: found.perm }
}
