//! Lists that are read once and asked many times.

use crate::answers::{done, made};
use crate::nfs4::{asking, options, owned, question, requesters, slices};
use crate::posix::raw_names;
use crate::raw::{self, Array, Buffer, Bytes, Fault};
use crate::{Decided, Error, Name, Object, Profile, Requester, Rights};

/// An object: the ids of its owner and of its owning group.
#[derive(Clone, Copy, Debug)]
pub struct IdObject {
    pub owner: u32,
    pub group: u32,
}

/// The id of a user, and the ids of the groups of that user. The latter rise, and none is there twice.
#[derive(Clone, Copy, Debug)]
pub struct IdRequester<'a> {
    pub user: u32,
    pub groups: &'a [u32],
}

/// Returns the bytes of the prepared list, from which `decide_prepared` answers as `decide` does from the list.
pub fn prepare(acl: &[u8], profile: Profile) -> Result<Vec<u8>, Error> {
    let options = options(profile);
    made(4 * acl.len(), |out, needed, fault| unsafe { raw::aclck_prepare(Bytes::of(acl), options, out, needed, fault) })
}

/// Returns which of the rights a prepared list allows the requester on the object, and which it denies.
pub fn decide_prepared(
    prepared: &[u8], object: Object, requester: Requester, rights: Rights,
) -> Result<Decided, Error> {
    let groups = slices(requester.groups);
    let asked = (owned(object), asking(requester, &groups), question(rights, Profile::Full));
    decided(|found| unsafe {
        raw::aclck_decide_prepared(Bytes::of(prepared), &asked.0, &asked.1, &asked.2, found)
    })
}

/// Returns the answers of `decide_prepared` for each requester.
pub fn decide_prepared_many(
    prepared: &[u8], object: Object, people: &[Requester], rights: Rights,
) -> Result<Vec<Decided>, Error> {
    let groups: Vec<Vec<Bytes>> = people.iter().map(|one| slices(one.groups)).collect();
    let asking = requesters(people, &groups);
    let many = raw::Requesters { at: asking.as_ptr(), len: asking.len() };
    let mut found = vec![raw::Decided::default(); asking.len()];
    let status = unsafe {
        let (asked, room) = (question(rights, Profile::Full), Buffer::of(&mut found));
        raw::aclck_decide_prepared_many(Bytes::of(prepared), &owned(object), many, &asked, room)
    };
    done(status, Fault::default()).map(|()| found.into_iter().map(Decided::of).collect())
}

/// Returns the bytes of the prepared list with ids in place of names, for `decide_ids`. The id of a name is that of the
/// table, or the number that the name is.
pub fn prepare_ids(acl: &[u8], names: &[Name], profile: Profile) -> Result<Vec<u8>, Error> {
    let (names, options) = (raw_names(names), options(profile));
    made(4 * acl.len(), |out, needed, fault| unsafe {
        raw::aclck_prepare_ids(Bytes::of(acl), &Array::of(&names), options, out, needed, fault)
    })
}

/// Returns which of the rights a prepared list with ids allows the requester on the object, and which it denies.
pub fn decide_ids(
    prepared: &[u8], object: IdObject, requester: IdRequester, rights: Rights,
) -> Result<Decided, Error> {
    let object = raw::IdObject { owner: object.owner, group: object.group };
    let IdRequester { user, groups } = requester;
    let asking = raw::IdRequester { user, groups: groups.as_ptr(), ngroups: groups.len() };
    let asked = question(rights, Profile::Full);
    decided(|found| unsafe { raw::aclck_decide_ids(Bytes::of(prepared), &object, &asking, &asked, found) })
}

/// Makes a call that has no fault.
fn decided(call: impl FnOnce(&mut raw::Decided) -> u32) -> Result<Decided, Error> {
    let mut found = raw::Decided::default();
    let status = call(&mut found);
    done(status, Fault::default()).map(|()| Decided::of(found))
}
