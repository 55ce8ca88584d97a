//! The ACEs of a list as values.

use crate::answers::{answered, made};
use crate::nfs4::options;
use crate::raw::{self, Array, Bytes};
use crate::{AceKind, Error, Profile, Rights};

/// One ACE: its kind, the sum of its flags (RFC 8881, section 6.2.1.4.1), its rights, and its who.
#[derive(Clone, Copy, Debug, PartialEq, Eq)]
pub struct Ace<'a> {
    pub kind: AceKind,
    pub flags: u32,
    pub rights: Rights,
    pub who: &'a [u8],
}

/// Returns the ACEs of the list.
pub fn aces(acl: &[u8], profile: Profile) -> Result<Vec<Ace<'_>>, Error> {
    let (mut offset, mut found) = (0, Vec::new());
    loop {
        let ace: raw::Ace = answered(|ace, fault| unsafe {
            raw::aclck_next(Bytes::of(acl), options(profile), &mut offset, ace, fault)
        })?;
        if ace.kind == raw::UNDECIDED {
            return Ok(found);
        }
        let kind = AceKind::of(ace.kind);
        found.push(Ace { kind, flags: ace.flags, rights: Rights::of(ace.mask), who: ace.who.within(acl) });
    }
}

/// Returns the bytes of the list of these ACEs. In a fault, `offset` is the place of the ACE, from 0.
pub fn build(aces: &[Ace], profile: Profile) -> Result<Vec<u8>, Error> {
    let rows: Vec<raw::Ace> = aces.iter().map(raw_ace).collect();
    let room = aces.iter().map(|ace| 20 + ace.who.len()).sum::<usize>() + 4;
    made(room, |out, needed, fault| unsafe {
        raw::aclck_build(Array::of(&rows), options(profile), out, needed, fault)
    })
}

fn raw_ace(ace: &Ace) -> raw::Ace {
    let kind = if ace.kind == AceKind::Allow { 0 } else { 1 };
    raw::Ace { kind, flags: ace.flags, mask: ace.rights.bits(), who: Bytes::of(ace.who) }
}
