//! Lists with names that nobody knows.

use crate::answers::answered;
use crate::nfs4::{asking, owned, question, slices};
use crate::raw::{self, Bytes};
use crate::{Error, Object, Profile, Requester, Rights};

/// Whether a request for several rights is granted, whoever the names are that nobody knows.
#[derive(Clone, Copy, Debug, PartialEq, Eq)]
pub enum Request {
    Never,
    Depends,
    Always,
}

/// What is certain, whoever the names are that nobody knows. Of the rights that are asked: those that are granted,
/// those that are not granted and that a DENY decides or may decide, and those that depend on these names. No ACE
/// decides the rest. `request` is the answer for all rights together. `left_out` is the number of AUDIT and ALARM ACEs.
#[derive(Clone, Copy, Debug, PartialEq, Eq)]
pub struct Possible {
    pub allowed: Rights,
    pub denied: Rights,
    pub unknown: Rights,
    pub request: Request,
    pub left_out: u32,
}

/// Returns what is certain about a list of another server: AUDIT and ALARM ACEs are left out, and each special
/// identifier that nobody knows, such as `INTERACTIVE@`, may match the requester or not.
pub fn decide_unknown(
    acl: &[u8], object: Object, requester: Requester, rights: Rights, profile: Profile,
) -> Result<Possible, Error> {
    let groups = slices(requester.groups);
    let found: raw::Possible = answered(|found, fault| unsafe {
        let asked = (&owned(object), &asking(requester, &groups), &question(rights, profile));
        raw::aclck_decide_unknown(Bytes::of(acl), asked.0, asked.1, asked.2, found, fault)
    })?;
    let request = match found.request {
        0 => Request::Never,
        1 => Request::Depends,
        _ => Request::Always,
    };
    let [allowed, denied, unknown] = [found.allowed, found.denied, found.unknown].map(Rights::of);
    Ok(Possible { allowed, denied, unknown, request, left_out: found.left_out })
}
