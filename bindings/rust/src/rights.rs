//! Sets of rights.

use crate::answers::short_text;
use crate::raw::{self, Bytes};
use std::fmt;
use std::ops::{BitAnd, BitOr};
use std::str::FromStr;

/// A set of the rights of a mask (RFC 8881, section 6.2.1.3.1).
#[derive(Clone, Copy, Debug, Default, PartialEq, Eq, Hash)]
pub struct Rights(u32);

impl Rights {
    pub const NONE: Rights = Rights(0);
    pub const READ_DATA: Rights = Rights(0x0000_0001);
    pub const WRITE_DATA: Rights = Rights(0x0000_0002);
    pub const APPEND_DATA: Rights = Rights(0x0000_0004);
    pub const READ_NAMED_ATTRS: Rights = Rights(0x0000_0008);
    pub const WRITE_NAMED_ATTRS: Rights = Rights(0x0000_0010);
    pub const EXECUTE: Rights = Rights(0x0000_0020);
    pub const DELETE_CHILD: Rights = Rights(0x0000_0040);
    pub const READ_ATTRIBUTES: Rights = Rights(0x0000_0080);
    pub const WRITE_ATTRIBUTES: Rights = Rights(0x0000_0100);
    pub const WRITE_RETENTION: Rights = Rights(0x0000_0200);
    pub const WRITE_RETENTION_HOLD: Rights = Rights(0x0000_0400);
    pub const DELETE: Rights = Rights(0x0001_0000);
    pub const READ_ACL: Rights = Rights(0x0002_0000);
    pub const WRITE_ACL: Rights = Rights(0x0004_0000);
    pub const WRITE_OWNER: Rights = Rights(0x0008_0000);
    pub const SYNCHRONIZE: Rights = Rights(0x0010_0000);
    pub const ALL: Rights = Rights(0x001f_07ff);

    /// Returns the set that a mask means, or `None` if a bit is not a right.
    pub fn from_bits(mask: u32) -> Option<Rights> {
        (mask & !Rights::ALL.0 == 0).then_some(Rights(mask))
    }

    /// Returns the mask of the set.
    pub fn bits(self) -> u32 {
        self.0
    }

    /// Returns whether all of `other` is in this set.
    pub fn contains(self, other: Rights) -> bool {
        self.0 & other.0 == other.0
    }

    /// Returns whether no right is in this set.
    pub fn is_empty(self) -> bool {
        self.0 == 0
    }

    /// Returns the set that the library writes, which has only rights.
    pub(crate) fn of(mask: u32) -> Rights {
        Rights(mask)
    }
}

impl BitOr for Rights {
    type Output = Rights;

    fn bitor(self, other: Rights) -> Rights {
        Rights(self.0 | other.0)
    }
}

impl BitAnd for Rights {
    type Output = Rights;

    fn bitand(self, other: Rights) -> Rights {
        Rights(self.0 & other.0)
    }
}

/// Writes the names of the rights, with `|` between them, or `-` for none.
impl fmt::Display for Rights {
    fn fmt(&self, f: &mut fmt::Formatter<'_>) -> fmt::Result {
        // SAFETY: as in `answers`.
        let text = short_text(|out, needed| unsafe { raw::aclck_mask_text(self.0, out, needed) });
        f.write_str(&text.unwrap_or_default())
    }
}

/// A text names no set of rights.
#[derive(Clone, Copy, Debug, PartialEq, Eq)]
pub struct NoRights;

impl fmt::Display for NoRights {
    fn fmt(&self, f: &mut fmt::Formatter<'_>) -> fmt::Result {
        f.write_str("no names of rights with | between them")
    }
}

impl std::error::Error for NoRights {}

/// Reads names of rights with `|` between them, or `-` for none.
impl FromStr for Rights {
    type Err = NoRights;

    fn from_str(text: &str) -> Result<Rights, NoRights> {
        let mut mask = 0;
        // SAFETY: as in `answers`.
        match unsafe { raw::aclck_read_mask(Bytes::of(text.as_bytes()), &mut mask) } {
            raw::DONE => Ok(Rights(mask)),
            _ => Err(NoRights),
        }
    }
}
