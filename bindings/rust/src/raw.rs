//! The declarations of `aclck.h`.

pub const DONE: u32 = 0;
pub const REFUSED: u32 = 2;
pub const BAD_ARGUMENT: u32 = 3;
pub const SHORT: u32 = 5;
pub const UNDECIDED: u32 = 2;

/// `aclck_bytes`.
#[repr(C)]
#[derive(Clone, Copy)]
pub struct Bytes {
    at: *const u8,
    len: usize,
}

impl Bytes {
    pub fn of(bytes: &[u8]) -> Bytes {
        Bytes { at: bytes.as_ptr(), len: bytes.len() }
    }

    /// Returns these bytes, which are a part of `whole`.
    pub fn within<'a>(&self, whole: &'a [u8]) -> &'a [u8] {
        let start = (self.at as usize).wrapping_sub(whole.as_ptr() as usize);
        whole.get(start..start.wrapping_add(self.len)).unwrap_or_default()
    }
}

impl Default for Bytes {
    fn default() -> Bytes {
        Bytes::of(&[])
    }
}

/// `aclck_buffer`, `aclck_masks`, `aclck_decided_list`, `aclck_entry_buffer` and `aclck_left_outs`.
#[repr(C)]
pub struct Buffer<T> {
    at: *mut T,
    len: usize,
}

impl<T> Buffer<T> {
    pub fn of(room: &mut [T]) -> Buffer<T> {
        Buffer { at: room.as_mut_ptr(), len: room.len() }
    }
}

/// `aclck_left_out`.
#[repr(C)]
#[derive(Clone, Copy, Debug, Default, PartialEq, Eq)]
pub struct LeftOut {
    /// The number of the ACE among all ACEs of the value, from 0.
    pub place: u64,
    /// The place of the ACE's first byte, from 0.
    pub offset: u64,
    /// The number of the reason in `enum aclck_reason`: 3 for AUDIT and ALARM, 11 for a special identifier.
    pub reason: u32,
}

/// `aclck_list_part`.
#[repr(C)]
#[derive(Default)]
pub struct Part {
    pub needed: u64,
    pub left_out: u64,
    pub flags: u32,
}

/// `aclck_object`.
#[repr(C)]
pub struct Object {
    pub owner: Bytes,
    pub group: Bytes,
}

/// `aclck_requester`.
#[repr(C)]
pub struct Requester {
    pub user: Bytes,
    pub groups: *const Bytes,
    pub ngroups: usize,
}

/// `aclck_requesters`.
#[repr(C)]
pub struct Requesters {
    pub at: *const Requester,
    pub len: usize,
}

/// `aclck_id_object`.
#[repr(C)]
pub struct IdObject {
    pub owner: u32,
    pub group: u32,
}

/// `aclck_id_requester`.
#[repr(C)]
pub struct IdRequester {
    pub user: u32,
    pub groups: *const u32,
    pub ngroups: usize,
}

/// `aclck_question`.
#[repr(C)]
pub struct Question {
    pub mask: u32,
    pub options: u32,
}

/// `aclck_implication`.
#[repr(C)]
pub struct Implication {
    pub right: u32,
    pub others: u32,
    pub options: u32,
}

/// `aclck_ace`.
#[repr(C)]
#[derive(Default)]
pub struct Ace {
    pub kind: u32,
    pub flags: u32,
    pub mask: u32,
    pub who: Bytes,
}

/// `aclck_name`.
#[repr(C)]
pub struct Name {
    pub name: Bytes,
    pub id: u32,
    pub is_group: u32,
}

/// `aclck_renaming`.
#[repr(C)]
pub struct Renaming {
    pub from: Bytes,
    pub to: Bytes,
    pub is_group: u32,
}

/// `aclck_posix_text`.
#[repr(C)]
pub struct PosixText {
    pub text: Bytes,
    pub names: *const Name,
    pub nnames: usize,
}

/// `aclck_posix_question`.
#[repr(C)]
pub struct PosixQuestion {
    pub owner: u32,
    pub group: u32,
    pub user: u32,
    pub want: u32,
    pub groups: *const u32,
    pub ngroups: usize,
}

/// `aclck_entry`.
#[repr(C)]
#[derive(Clone, Copy, Default)]
pub struct Entry {
    pub tag: u32,
    pub id: u32,
    pub perm: u32,
}

/// `aclck_creation`.
#[repr(C)]
pub struct Creation {
    pub mode: u32,
    pub umask: u32,
    pub options: u32,
}

/// `aclck_posix_decision`.
#[repr(C)]
#[derive(Default)]
pub struct PosixDecision {
    pub place: u64,
    pub granted: u32,
    pub tag: u32,
    pub masked: u32,
}

/// `aclck_posix_difference`.
#[repr(C)]
#[derive(Default)]
pub struct PosixDifference {
    pub same: u32,
    pub owner: u32,
    pub group: u32,
    pub user: u32,
    pub want: u32,
    pub ngroups: u32,
    pub first_group: u32,
    pub second_group: u32,
}

/// `aclck_posix_loss`.
#[repr(C)]
#[derive(Default)]
pub struct PosixLoss {
    pub exact: u32,
    pub owner: u32,
    pub group: u32,
    pub user: u32,
    pub want: u32,
    pub ngroups: u32,
    pub first_group: u32,
    pub second_group: u32,
    pub third_group: u32,
}

/// `aclck_fault`: why and where something is refused.
#[repr(C)]
#[derive(Clone, Copy, Debug, Default, PartialEq, Eq)]
pub struct Fault {
    pub offset: u64,
    pub line: u64,
    pub column: u64,
    pub reason: u32,
    pub list: u32,
    pub part: u32,
    pub tag: u32,
}

/// `aclck_names`, `aclck_aces`, `aclck_renamings` and `aclck_entries`.
#[repr(C)]
pub struct Array<T> {
    at: *const T,
    len: usize,
}

impl<T> Array<T> {
    pub fn of(values: &[T]) -> Array<T> {
        Array { at: values.as_ptr(), len: values.len() }
    }
}

/// `aclck_decided`.
#[repr(C)]
#[derive(Clone, Copy, Default)]
pub struct Decided {
    pub allowed: u32,
    pub denied: u32,
}

/// `aclck_possible`.
#[repr(C)]
#[derive(Default)]
pub struct Possible {
    pub allowed: u32,
    pub denied: u32,
    pub unknown: u32,
    pub request: u32,
    pub left_out: u32,
}

/// `aclck_decision`.
#[repr(C)]
#[derive(Default)]
pub struct Decision {
    pub place: u64,
    pub kind: u32,
}

/// `aclck_difference`.
#[repr(C)]
#[derive(Default)]
pub struct Difference {
    pub names: u64,
    pub same: u32,
    pub right: u32,
    pub first_grants: u32,
}

extern "C" {
    pub fn aclck_decide(
        acl: Bytes, object: *const Object, requester: *const Requester, question: *const Question,
        decided: *mut Decided, fault: *mut Fault,
    ) -> u32;
    pub fn aclck_check(
        acl: Bytes, object: *const Object, requester: *const Requester, question: *const Question, granted: *mut u32,
        fault: *mut Fault,
    ) -> u32;
    pub fn aclck_decide_unknown(
        acl: Bytes, object: *const Object, requester: *const Requester, question: *const Question,
        possible: *mut Possible, fault: *mut Fault,
    ) -> u32;
    pub fn aclck_granted(
        acl: Bytes, object: *const Object, requester: *const Requester, question: *const Question, rights: *mut u32,
        fault: *mut Fault,
    ) -> u32;
    pub fn aclck_deciding(
        acl: Bytes, object: *const Object, requester: *const Requester, question: *const Question,
        decision: *mut Decision, fault: *mut Fault,
    ) -> u32;
    pub fn aclck_prepare_ids(
        acl: Bytes, names: *const Array<Name>, options: u32, out: Buffer<u8>, needed: *mut usize, fault: *mut Fault,
    ) -> u32;
    pub fn aclck_decide_ids(
        prepared: Bytes, object: *const IdObject, requester: *const IdRequester, question: *const Question,
        decided: *mut Decided,
    ) -> u32;
    pub fn aclck_check_many(
        acl: Bytes, object: *const Object, requesters: Requesters, question: *const Question, rights: Buffer<u32>,
        fault: *mut Fault,
    ) -> u32;
    pub fn aclck_prepare(acl: Bytes, options: u32, out: Buffer<u8>, needed: *mut usize, fault: *mut Fault) -> u32;
    pub fn aclck_decide_prepared(
        prepared: Bytes, object: *const Object, requester: *const Requester, question: *const Question,
        decided: *mut Decided,
    ) -> u32;
    pub fn aclck_decide_prepared_many(
        prepared: Bytes, object: *const Object, requesters: Requesters, question: *const Question,
        decided: Buffer<Decided>,
    ) -> u32;
    pub fn aclck_mode(acl: Bytes, options: u32, mode: *mut u32, fault: *mut Fault) -> u32;
    pub fn aclck_child(acl: Bytes, options: u32, out: Buffer<u8>, needed: *mut usize, fault: *mut Fault) -> u32;
    pub fn aclck_chmod(
        acl: Bytes, mode: u32, options: u32, out: Buffer<u8>, needed: *mut usize, fault: *mut Fault,
    ) -> u32;
    pub fn aclck_show(acl: Bytes, options: u32, out: Buffer<u8>, needed: *mut usize, fault: *mut Fault) -> u32;
    pub fn aclck_build(
        aces: Array<Ace>, options: u32, out: Buffer<u8>, needed: *mut usize, fault: *mut Fault,
    ) -> u32;
    pub fn aclck_next(acl: Bytes, options: u32, offset: *mut usize, ace: *mut Ace, fault: *mut Fault) -> u32;
    pub fn aclck_encode(text: Bytes, options: u32, out: Buffer<u8>, needed: *mut usize, fault: *mut Fault) -> u32;
    pub fn aclck_renamed(
        acl: Bytes, table: *const Array<Renaming>, options: u32, out: Buffer<u8>, needed: *mut usize,
        fault: *mut Fault,
    ) -> u32;
    pub fn aclck_resolved(
        acl: Bytes, object: *const Object, options: u32, out: Buffer<u8>, needed: *mut usize, fault: *mut Fault,
    ) -> u32;
    pub fn aclck_with_groups(
        acl: Bytes, suffix: *const Bytes, options: u32, out: Buffer<u8>, needed: *mut usize, fault: *mut Fault,
    ) -> u32;
    pub fn aclck_restricted(
        acl: Bytes, bound: *const Bytes, options: u32, out: Buffer<u8>, needed: *mut usize, fault: *mut Fault,
    ) -> u32;
    pub fn aclck_restricted_everywhere(
        acl: Bytes, bound: *const Bytes, options: u32, out: Buffer<u8>, needed: *mut usize, fault: *mut Fault,
    ) -> u32;
    pub fn aclck_read_form(
        value: Bytes, form: u32, out: Buffer<u8>, needed: *mut usize, flags: *mut u32, fault: *mut Fault,
    ) -> u32;
    pub fn aclck_read_part(
        value: Bytes, form: u32, part: *mut Part, out: Buffer<u8>, left: Buffer<LeftOut>, fault: *mut Fault,
    ) -> u32;
    pub fn aclck_write_form(
        acl: Bytes, form: u32, flags: u32, out: Buffer<u8>, needed: *mut usize, fault: *mut Fault,
    ) -> u32;
    pub fn aclck_normalize(acl: Bytes, options: u32, out: Buffer<u8>, needed: *mut usize, fault: *mut Fault) -> u32;
    pub fn aclck_normalize_inherit(
        acl: Bytes, options: u32, out: Buffer<u8>, needed: *mut usize, fault: *mut Fault,
    ) -> u32;
    pub fn aclck_table(
        acl: Bytes, question: *const Question, out: Buffer<u8>, needed: *mut usize, fault: *mut Fault,
    ) -> u32;
    pub fn aclck_holders(
        acl: Bytes, question: *const Question, out: Buffer<u8>, needed: *mut usize, fault: *mut Fault,
    ) -> u32;
    pub fn aclck_needed(acl: Bytes, options: u32, masks: Buffer<u32>, needed: *mut usize, fault: *mut Fault) -> u32;
    pub fn aclck_same(first: Bytes, second: Bytes, options: u32, same: *mut u32, fault: *mut Fault) -> u32;
    pub fn aclck_compare(
        first: Bytes, second: Bytes, options: u32, difference: *mut Difference, out: Buffer<u8>, fault: *mut Fault,
    ) -> u32;
    pub fn aclck_excess(
        first: Bytes, second: Bytes, options: u32, difference: *mut Difference, out: Buffer<u8>, fault: *mut Fault,
    ) -> u32;
    pub fn aclck_implies(
        acl: Bytes, implication: *const Implication, difference: *mut Difference, out: Buffer<u8>, fault: *mut Fault,
    ) -> u32;
    pub fn aclck_read_mask(text: Bytes, mask: *mut u32) -> u32;
    pub fn aclck_mask_text(mask: u32, out: Buffer<u8>, needed: *mut usize) -> u32;
    pub fn aclck_reason_text(reason: u32, out: Buffer<u8>, needed: *mut usize) -> u32;
    pub fn aclck_posix_check(
        text: *const PosixText, question: *const PosixQuestion, granted: *mut u32, fault: *mut Fault,
    ) -> u32;
    pub fn aclck_posix_show(
        text: *const PosixText, options: u32, out: Buffer<u8>, needed: *mut usize, fault: *mut Fault,
    ) -> u32;
    pub fn aclck_posix_calc_mask(
        text: *const PosixText, out: Buffer<u8>, needed: *mut usize, fault: *mut Fault,
    ) -> u32;
    pub fn aclck_posix_chmod(
        text: *const PosixText, mode: u32, out: Buffer<u8>, needed: *mut usize, fault: *mut Fault,
    ) -> u32;
    pub fn aclck_posix_create(
        text: *const PosixText, creation: *const Creation, out: Buffer<u8>, needed: *mut usize, fault: *mut Fault,
    ) -> u32;
    pub fn aclck_posix_bridge(
        text: *const PosixText, out: Buffer<u8>, needed: *mut usize, fault: *mut Fault,
    ) -> u32;
    pub fn aclck_entries_check(
        entries: Array<Entry>, question: *const PosixQuestion, granted: *mut u32, fault: *mut Fault,
    ) -> u32;
    pub fn aclck_entries_deciding(
        entries: Array<Entry>, question: *const PosixQuestion, decision: *mut PosixDecision, fault: *mut Fault,
    ) -> u32;
    pub fn aclck_entries_excess(
        first: Array<Entry>, second: Array<Entry>, difference: *mut PosixDifference, fault: *mut Fault,
    ) -> u32;
    pub fn aclck_entries_mode(entries: Array<Entry>, mode: *mut u32, fault: *mut Fault) -> u32;
    pub fn aclck_entries_sorted(
        entries: Array<Entry>, options: u32, out: Buffer<Entry>, needed: *mut usize, fault: *mut Fault,
    ) -> u32;
    pub fn aclck_entries_chmod(
        entries: Array<Entry>, mode: u32, out: Buffer<Entry>, needed: *mut usize, fault: *mut Fault,
    ) -> u32;
    pub fn aclck_entries_calc_mask(
        entries: Array<Entry>, out: Buffer<Entry>, needed: *mut usize, fault: *mut Fault,
    ) -> u32;
    pub fn aclck_entries_create(
        default: Array<Entry>, creation: *const Creation, out: Buffer<Entry>, needed: *mut usize, fault: *mut Fault,
    ) -> u32;
    pub fn aclck_entries_bridge(
        entries: Array<Entry>, out: Buffer<u8>, needed: *mut usize, fault: *mut Fault,
    ) -> u32;
    pub fn aclck_to_posix(
        acl: Bytes, names: *const Array<Name>, most: u32, out: Buffer<Entry>, needed: *mut usize,
        loss: *mut PosixLoss, fault: *mut Fault,
    ) -> u32;
    pub fn aclck_entries_from_attribute(
        attribute: Bytes, out: Buffer<Entry>, needed: *mut usize, fault: *mut Fault,
    ) -> u32;
    pub fn aclck_entries_from_form(
        value: *const PosixText, form: u32, out: Buffer<Entry>, needed: *mut usize, fault: *mut Fault,
    ) -> u32;
    pub fn aclck_entries_to_form(
        entries: Array<Entry>, names: *const Array<Name>, form: u32, out: Buffer<u8>, needed: *mut usize,
        fault: *mut Fault,
    ) -> u32;
    pub fn aclck_entries_to_attribute(
        entries: Array<Entry>, out: Buffer<u8>, needed: *mut usize, fault: *mut Fault,
    ) -> u32;
    pub fn aclck_version() -> u32;
}
