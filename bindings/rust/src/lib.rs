//! Access control lists of NFSv4 and POSIX, checked, converted and compared, by libaclck.
//!
//! The calls of libaclck require valid pointers and nothing else, so each function here passes slices to one call.
//! `aclck.h` says what the calls do. Rights have a type of their own, and options are enums, so the compiler refuses an
//! option in place of a right.

mod aces;
mod answers;
mod entries;
mod forms;
mod nfs4;
mod posix;
mod prepared;
mod raw;
mod renaming;
mod rights;
#[cfg(test)]
mod tests;
mod unknown;

use std::fmt;

pub use aces::{aces, build, Ace};
pub use nfs4::{
    check, check_many, child, child_marked, chmod, compare, decide, deciding, encode, excess, granted, holders, implies,
    mode, needed, normalize, normalize_inherit, resolved, restricted, restricted_everywhere, same, show, table,
    with_groups,
};
pub use entries::{
    entries_bridge, entries_calc_mask, entries_check, entries_chmod, entries_create, entries_deciding, entries_excess,
    entries_from_attribute, entries_mode, entries_sorted, entries_to_attribute, to_posix, Entry, MissingMask,
    PosixDecision, PosixDifference, PosixLoss, Tag, ToPosix,
};
pub use forms::{read_form, read_part, write_form, ListFlags, ListForm, TextStyle};
pub use posix::{
    entries_from_form, entries_to_text, posix_bridge, posix_calc_mask, posix_check, posix_chmod, posix_create,
    posix_show, Name, PosixForm, PosixQuestion, PosixText, Tar,
};
pub use prepared::{
    decide_ids, decide_prepared, decide_prepared_many, prepare, prepare_ids, IdObject, IdRequester,
};
pub use raw::{Fault, LeftOut};
pub use renaming::{renamed, Merging, Renaming};
pub use rights::Rights;
pub use unknown::{decide_unknown, Possible, Request};

/// The rights and flags that a list may have.
#[derive(Clone, Copy, Debug, Default, PartialEq, Eq)]
pub enum Profile {
    /// Every right and every flag of RFC 8881.
    #[default]
    Full,
    /// The rights and flags of the narrow profile (docs/reference/formats.md).
    Narrow,
}

/// The kind of object that is created in a directory.
#[derive(Clone, Copy, Debug, PartialEq, Eq)]
pub enum Kind {
    File,
    Directory,
}

/// The form of a POSIX text.
#[derive(Clone, Copy, Debug, PartialEq, Eq)]
pub enum Form {
    Canonical,
    Shown,
    Short,
}

/// An object: its owner and its owning group.
#[derive(Clone, Copy, Debug)]
pub struct Object<'a> {
    pub owner: &'a [u8],
    pub group: &'a [u8],
}

/// A user, and the groups of that user.
#[derive(Clone, Copy, Debug)]
pub struct Requester<'a> {
    pub user: &'a [u8],
    pub groups: &'a [&'a [u8]],
}

/// Of the rights that are asked: those that an ALLOW decides, and those that a DENY decides. No ACE decides the rest,
/// and so they are not granted.
#[derive(Clone, Copy, Debug, PartialEq, Eq)]
pub struct Decided {
    pub allowed: Rights,
    pub denied: Rights,
}

impl Decided {
    fn of(found: raw::Decided) -> Decided {
        Decided { allowed: Rights::of(found.allowed), denied: Rights::of(found.denied) }
    }
}

/// The kind of an ACE, which RFC 8881 calls its type (section 6.2.1.1).
#[derive(Clone, Copy, Debug, PartialEq, Eq)]
pub enum AceKind {
    Allow,
    Deny,
}

impl AceKind {
    fn of(kind: u32) -> AceKind {
        if kind == 0 { AceKind::Allow } else { AceKind::Deny }
    }
}

/// The ACE that decides a right: its place in the list, from 0, and its kind.
#[derive(Clone, Copy, Debug, PartialEq, Eq)]
pub struct Decision {
    pub place: u64,
    pub kind: AceKind,
}

/// A requester and a right for which two lists differ.
#[derive(Clone, Debug, PartialEq, Eq)]
pub struct Difference {
    pub right: Rights,
    pub first_grants: bool,
    pub owner: Vec<u8>,
    pub group: Vec<u8>,
    pub user: Vec<u8>,
    pub groups: Vec<Vec<u8>>,
}

/// The reason why a call has no answer.
#[derive(Clone, Copy, Debug, PartialEq, Eq)]
pub enum Error {
    /// The list or the text is refused.
    Refused(Fault),
    /// A name is empty, or a number means nothing.
    BadArgument,
    /// Memory ran out.
    Memory,
}

impl fmt::Display for Error {
    fn fmt(&self, f: &mut fmt::Formatter<'_>) -> fmt::Result {
        match self {
            Error::Refused(fault) => write!(f, "{} ({fault:?})", reason_text(fault.reason).unwrap_or_default()),
            Error::BadArgument => f.write_str("bad argument"),
            Error::Memory => f.write_str("out of memory"),
        }
    }
}

impl std::error::Error for Error {}

/// Returns the name of a reason, or `None` for a number that is not a reason.
pub fn reason_text(reason: u32) -> Option<String> {
    // SAFETY: as in `answers`.
    answers::short_text(|out, needed| unsafe { raw::aclck_reason_text(reason, out, needed) })
}

/// Returns the version of the library: major, minor, patch.
pub fn version() -> (u32, u32, u32) {
    // SAFETY: the call takes nothing.
    let version = unsafe { raw::aclck_version() };
    (version >> 16, version >> 8 & 255, version & 255)
}
