//! POSIX ACLs by their texts (acl(5); docs/reference/formats.md).

use crate::answers::{answered, made};
use crate::entries::{entry, raw_entries, Entry};
use crate::nfs4::DIRECTORY;
use crate::raw::{self, Array, Bytes};
use crate::{Error, Form, Kind};

/// The number of each option in `aclck.h`.
const FORM_SHOWN: u32 = 0x0400_0000;
const FORM_SHORT: u32 = 0x0800_0000;

/// A name that stands for an id.
#[derive(Clone, Copy, Debug)]
pub struct Name<'a> {
    pub name: &'a [u8],
    pub id: u32,
    pub is_group: bool,
}

/// The text of POSIX ACLs, and the names that it may use.
#[derive(Clone, Copy, Debug)]
pub struct PosixText<'a> {
    pub text: &'a [u8],
    pub names: &'a [Name<'a>],
}

/// Whether a user, who is in these groups, may do all of `want` (4 read, 2 write, 1 execute) to an object of this owner
/// and this group.
#[derive(Clone, Copy, Debug)]
pub struct PosixQuestion<'a> {
    pub owner: u32,
    pub group: u32,
    pub user: u32,
    pub groups: &'a [u32],
    pub want: u32,
}

/// Returns whether the access ACL of the text grants what is asked.
pub fn posix_check(text: PosixText, question: PosixQuestion) -> Result<bool, Error> {
    let asked = asked(question);
    let names = raw_names(text.names);
    let granted: u32 = answered(|granted, fault| unsafe {
        raw::aclck_posix_check(&raw_text(text, &names), &asked, granted, fault)
    })?;
    Ok(granted == 1)
}

/// Returns the text in a form.
pub fn posix_show(text: PosixText, form: Form) -> Result<Vec<u8>, Error> {
    let options = match form {
        Form::Canonical => 0,
        Form::Shown => FORM_SHOWN,
        Form::Short => FORM_SHORT,
    };
    changed(text, 2, |text, out, needed, fault| unsafe { raw::aclck_posix_show(text, options, out, needed, fault) })
}

/// Returns the canonical text after the mask is calculated.
pub fn posix_calc_mask(text: PosixText) -> Result<Vec<u8>, Error> {
    changed(text, 2, |text, out, needed, fault| unsafe { raw::aclck_posix_calc_mask(text, out, needed, fault) })
}

/// Returns the canonical text after the mode is set.
pub fn posix_chmod(text: PosixText, mode: u32) -> Result<Vec<u8>, Error> {
    changed(text, 2, |text, out, needed, fault| unsafe { raw::aclck_posix_chmod(text, mode, out, needed, fault) })
}

/// Returns the canonical text of a new object in a directory with this text.
pub fn posix_create(text: PosixText, mode: u32, umask: u32, kind: Kind) -> Result<Vec<u8>, Error> {
    let options = if kind == Kind::Directory { DIRECTORY } else { 0 };
    let creation = raw::Creation { mode, umask, options };
    changed(text, 2, |text, out, needed, fault| unsafe { raw::aclck_posix_create(text, &creation, out, needed, fault) })
}

/// Returns the bytes of the NFSv4 list that the bridge makes of the access ACL of the text.
pub fn posix_bridge(text: PosixText) -> Result<Vec<u8>, Error> {
    changed(text, 64, |text, out, needed, fault| unsafe { raw::aclck_posix_bridge(text, out, needed, fault) })
}

/// A form in which archives and Linux keep POSIX ACLs, and which ACL of a value is meant.
#[derive(Clone, Copy, Debug, PartialEq, Eq)]
pub enum PosixForm {
    /// The attribute `system.posix_acl_access` or `system.posix_acl_default`.
    Attribute,
    /// The access ACL of a text `SCHILY.acl.access` of an archive.
    Text,
    /// The default ACL of such a text, which need not have one.
    DefaultOfText,
    /// The ACL of a text `SCHILY.acl.default` of an archive.
    DefaultText,
}

/// The program whose text of a POSIX ACL is written.
#[derive(Clone, Copy, Debug, PartialEq, Eq)]
pub enum Tar {
    /// star and bsdtar.
    Star,
    /// GNU tar.
    Gnu,
}

/// The bit of `enum aclck_posix_form` for the style of GNU tar.
const GNU_STYLE: u32 = 16;

impl PosixForm {
    /// Returns the number of the form in `enum aclck_posix_form`.
    fn number(self) -> u32 {
        match self {
            PosixForm::Attribute => 1,
            PosixForm::Text => 2,
            PosixForm::DefaultOfText => 3,
            PosixForm::DefaultText => 4,
        }
    }
}

/// Returns the entries of the ACL that a value spells in a form. There are none if a text has no default ACL.
pub fn entries_from_form(value: PosixText, form: PosixForm) -> Result<Vec<Entry>, Error> {
    let names = raw_names(value.names);
    let found = made(value.text.len() / 5 + 3, |out, needed, fault| unsafe {
        raw::aclck_entries_from_form(&raw_text(value, &names), form.number(), out, needed, fault)
    })?;
    Ok(found.into_iter().map(entry).collect())
}

/// Returns the text of entries, in any order, as an archive keeps it: for `Tar::Star` with the id after each name, and
/// for `Tar::Gnu` with names alone. The first of `names` with an id is written in its place.
pub fn entries_to_text(entries: &[Entry], names: &[Name], tar: Tar) -> Result<Vec<u8>, Error> {
    let (entries, rows) = (raw_entries(entries), raw_names(names));
    let form = PosixForm::Text.number() + if tar == Tar::Gnu { GNU_STYLE } else { 0 };
    let longest = names.iter().map(|row| row.name.len()).max().unwrap_or(0);
    made(entries.len() * (32 + longest), |out, needed, fault| unsafe {
        raw::aclck_entries_to_form(Array::of(&entries), &Array::of(&rows), form, out, needed, fault)
    })
}

/// Makes a call on a text. The first buffer has room for some bytes for each byte of the text.
fn changed(
    text: PosixText, each: usize,
    call: impl Fn(&raw::PosixText, raw::Buffer<u8>, &mut usize, &mut raw::Fault) -> u32,
) -> Result<Vec<u8>, Error> {
    let names = raw_names(text.names);
    let given = raw_text(text, &names);
    made(each * text.text.len() + 64, |out, needed, fault| call(&given, out, needed, fault))
}

fn raw_text(text: PosixText, names: &[raw::Name]) -> raw::PosixText {
    raw::PosixText { text: Bytes::of(text.text), names: names.as_ptr(), nnames: names.len() }
}

pub(crate) fn asked(question: PosixQuestion) -> raw::PosixQuestion {
    let PosixQuestion { owner, group, user, groups, want } = question;
    raw::PosixQuestion { owner, group, user, want, groups: groups.as_ptr(), ngroups: groups.len() }
}

pub(crate) fn raw_names(names: &[Name]) -> Vec<raw::Name> {
    names.iter().map(|n| raw::Name { name: Bytes::of(n.name), id: n.id, is_group: n.is_group.into() }).collect()
}
