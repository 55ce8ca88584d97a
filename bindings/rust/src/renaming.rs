//! Lists with other names.

use crate::answers::made;
use crate::nfs4::options;
use crate::raw::{self, Array, Bytes};
use crate::{Error, Profile};

/// The number of each option in `aclck.h`.
const MAY_MERGE: u32 = 0x0080_0000;

/// A name that is exchanged for another one.
#[derive(Clone, Copy, Debug)]
pub struct Renaming<'a> {
    pub from: &'a [u8],
    pub to: &'a [u8],
    pub is_group: bool,
}

/// Whether two names may become one.
#[derive(Clone, Copy, Debug, PartialEq, Eq)]
pub enum Merging {
    Refused,
    Allowed,
}

/// Returns the list with the names of a table exchanged. If two names would become one, and that is refused, `offset`
/// of the fault is the place of an ACE, from 0.
pub fn renamed(acl: &[u8], table: &[Renaming], merging: Merging, profile: Profile) -> Result<Vec<u8>, Error> {
    let rows: Vec<raw::Renaming> = table
        .iter()
        .map(|one| raw::Renaming { from: Bytes::of(one.from), to: Bytes::of(one.to), is_group: one.is_group.into() })
        .collect();
    let options = options(profile) | if merging == Merging::Allowed { MAY_MERGE } else { 0 };
    made(2 * acl.len(), |out, needed, fault| unsafe {
        raw::aclck_renamed(Bytes::of(acl), &Array::of(&rows), options, out, needed, fault)
    })
}
