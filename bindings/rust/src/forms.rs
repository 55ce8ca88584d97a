//! NFSv4 lists in the forms of other systems.

use crate::answers::made;
use crate::raw::{self, Buffer, Bytes, LeftOut, Part};
use crate::Error;
use std::ops::BitOr;

/// The greatest number of ACEs of a list.
const MOST_ACES: usize = 65_536;

/// A form in which another system keeps or prints a list.
#[derive(Clone, Copy, Debug, PartialEq, Eq)]
pub enum ListForm {
    /// The text of `nfs4_getfacl` for a file. It has no flags of the list.
    NfsToolsFile,
    /// The text of `nfs4_getfacl` for a directory. It has no flags of the list.
    NfsToolsDirectory,
    /// The attribute dacl (RFC 8881, section 6.2.2): flags of the list, and a list.
    NfsAcl41,
    /// Samba's attribute `security.nfs4acl_xdr`: flags of the list, and a list whose users and groups are ids.
    NfsAcl41Ids,
    /// The text of `getfacl` of FreeBSD, of ZFS and of archives, by its names. It has no flags of the list.
    NfsText(TextStyle),
    /// The same text. An entry with a name and an id is about the id.
    NfsTextIds(TextStyle),
}

impl ListForm {
    /// Returns the number of the form in `enum aclck_form`.
    fn number(self) -> u32 {
        match self {
            ListForm::NfsToolsFile => 1,
            ListForm::NfsToolsDirectory => 2,
            ListForm::NfsAcl41 => 3,
            ListForm::NfsAcl41Ids => 4,
            ListForm::NfsText(style) => 5 | style.0,
            ListForm::NfsTextIds(style) => 6 | style.0,
        }
    }
}

/// How the text of FreeBSD and of archives is written. A style has no effect when the text is read.
#[derive(Clone, Copy, Debug, Default, PartialEq, Eq)]
pub struct TextStyle(u32);

impl TextStyle {
    /// A line feed after each entry, and only the letters that the entry has.
    pub const LINES: TextStyle = TextStyle(0);
    /// Commas between the entries, as in `SCHILY.acl.ace`.
    pub const COMMAS: TextStyle = TextStyle(16);
    /// A place for each letter, with `-` for one that is absent.
    pub const FULL: TextStyle = TextStyle(32);
}

impl BitOr for TextStyle {
    type Output = TextStyle;

    fn bitor(self, other: TextStyle) -> TextStyle {
        TextStyle(self.0 | other.0)
    }
}

/// Flags of a whole list (RFC 8881, section 6.2.2). OpenZFS sets the last two in the same word.
#[derive(Clone, Copy, Debug, Default, PartialEq, Eq)]
pub struct ListFlags(u32);

impl ListFlags {
    pub const NONE: ListFlags = ListFlags(0);
    pub const AUTO_INHERIT: ListFlags = ListFlags(1);
    pub const PROTECTED: ListFlags = ListFlags(2);
    pub const DEFAULTED: ListFlags = ListFlags(4);
    pub const IS_TRIVIAL: ListFlags = ListFlags(0x10000);
    pub const IS_DIR: ListFlags = ListFlags(0x20000);

    /// Returns the number of the set.
    pub fn bits(self) -> u32 {
        self.0
    }

    /// Returns whether all flags of the other set are in this one.
    pub fn contains(self, other: ListFlags) -> bool {
        self.0 & other.0 == other.0
    }
}

impl BitOr for ListFlags {
    type Output = ListFlags;

    fn bitor(self, other: ListFlags) -> ListFlags {
        ListFlags(self.0 | other.0)
    }
}

/// Returns the bytes of the list that the value spells in the form, and the flags of the list, which a text does not
/// have. If the value is refused, `offset` of the fault is the place of a byte of it.
pub fn read_form(value: &[u8], form: ListForm) -> Result<(Vec<u8>, ListFlags), Error> {
    let mut flags = 0;
    let list = made(2 * value.len() + 64, |out, needed, fault| unsafe {
        raw::aclck_read_form(Bytes::of(value), form.number(), out, needed, &mut flags, fault)
    })?;
    Ok((list, ListFlags(flags)))
}

/// Returns what `read_form` returns of a value without the ACEs that access does not read, and these ACEs: AUDIT and
/// ALARM ACEs, and ALLOW ACEs of a special identifier other than `OWNER@`, `GROUP@` and `EVERYONE@`. The list grants no
/// more than the whole list. A DENY of such a name is refused.
pub fn read_part(value: &[u8], form: ListForm) -> Result<(Vec<u8>, ListFlags, Vec<LeftOut>), Error> {
    // No ACE that is left out has fewer than 5 bytes.
    let mut left = vec![LeftOut::default(); (value.len() / 5 + 1).min(MOST_ACES)];
    let mut part = Part::default();
    let list = made(2 * value.len() + 64, |out, needed, fault| unsafe {
        let room = Buffer::of(&mut left);
        let status = raw::aclck_read_part(Bytes::of(value), form.number(), &mut part, out, room, fault);
        *needed = part.needed as usize;
        status
    })?;
    left.truncate(part.left_out as usize);
    Ok((list, ListFlags(part.flags), left))
}

/// Returns the value of the flags and of the list in the form. If the form cannot hold them, `offset` of the fault is
/// the place of an ACE, from 0.
pub fn write_form(acl: &[u8], form: ListForm, flags: ListFlags) -> Result<Vec<u8>, Error> {
    made(acl.len() + 64, |out, needed, fault| unsafe {
        raw::aclck_write_form(Bytes::of(acl), form.number(), flags.bits(), out, needed, fault)
    })
}
