/* aclck.h: access control lists of NFSv4 and POSIX, checked, converted and compared, for C99 and C++.
 *
 * Each function of the library is proved to keep its contract, which docs/proofs/contracts.md describes. The inline
 * functions of this header are only tested. man/libaclck.3 explains the calls. These rules hold for all calls:
 *
 * - A call returns ACLCK_DONE, which is 0, if its answer is written, and another number of `enum aclck_status` if it
 *   failed. So `if (aclck_...(...))` means "it failed". No status is an answer: answers are written through pointers.
 * - A call that answers a question about access writes the answer that grants nothing if it fails. All other calls
 *   write what their comment names, only at the status that their comment names. Everything else stays as it was, also
 *   the bytes after a text in a buffer.
 * - No other number is returned, and no call ends the process.
 * - A call that takes options takes the sum of those that its comment names. It refuses every other bit, and so it
 *   refuses rights that are given as options, and options that are given as rights.
 * - A call reads what it is given until it returns, and keeps no pointer.
 * - A pointer must not be NULL, also where its length is 0. aclck_bytes_of() and the functions beside it take NULL for
 *   the length 0.
 * - What a call writes must not overlap anything else that the call is given.
 * - Any number of threads may call at once, because calls share nothing but what their callers share.
 * - Calls marked "no memory" call no malloc. They may be called from a signal handler, and after fork() in a child of a
 *   program with threads. Calls marked "memory for groups" are such calls too, except if a list has more than 64 ACEs and
 *   the groups of a requester, which do not rise in the order of their bytes, are more than 16, and so many that ACEs
 *   times groups are more than 262,144. Then they sort a copy of the groups, and call malloc and free. If malloc returns
 *   NULL, the answer is the same and takes longer: they never return ACLCK_MEMORY. All other calls use malloc, realloc
 *   and free.
 *
 * The library needs an x86-64 processor with SSE4.2 and POPCNT (x86-64-v2). aclck_version() runs on every x86-64.
 */
#ifndef ACLCK_H
#define ACLCK_H

#include <stddef.h>
#include <stdint.h>

/* Attributes for compilers that have them: a status must be looked at, no pointer is NULL, and which argument, counted
   from 1, is read or written through its pointer. */
#ifdef __has_attribute
#if __has_attribute(warn_unused_result)
#define ACLCK_MUST_USE __attribute__((warn_unused_result))
#endif
#if __has_attribute(nonnull)
#define ACLCK_NO_NULL __attribute__((nonnull))
#endif
#if __has_attribute(access)
#define ACLCK_READS(n) __attribute__((access(read_only, n)))
#define ACLCK_WRITES(n) __attribute__((access(write_only, n)))
#define ACLCK_CHANGES(n) __attribute__((access(read_write, n)))
#endif
#endif
#ifndef ACLCK_MUST_USE
#define ACLCK_MUST_USE
#endif
#ifndef ACLCK_NO_NULL
#define ACLCK_NO_NULL
#endif
#ifndef ACLCK_READS
#define ACLCK_READS(n)
#define ACLCK_WRITES(n)
#define ACLCK_CHANGES(n)
#endif
#define ACLCK_CALL ACLCK_MUST_USE ACLCK_NO_NULL

#ifdef __cplusplus
extern "C" {
#endif

/* The version of this header, as aclck_version() returns that of the library: major * 65536 + minor * 256 + patch. */
#define ACLCK_VERSION 0x010000u

/* What a call returns. */
enum aclck_status {
    ACLCK_DONE = 0,         /* the answer is written */
    ACLCK_REFUSED = 2,      /* the list or the text is refused; the fault says why and where */
    ACLCK_BAD_ARGUMENT = 3, /* a name is empty, or a number or an option means nothing */
    ACLCK_MEMORY = 4,       /* memory ran out */
    ACLCK_SHORT = 5         /* the buffer is too short; *needed says how much room it must have */
};

/* Options. Their numbers are outside ACLCK_ALL_RIGHTS. */
enum aclck_option {
    ACLCK_FULL = 0,                     /* every right and every flag of RFC 8881 */
    ACLCK_NARROW = 0x01000000,          /* only rights and flags of the narrow profile (docs/reference/formats.md) */
    ACLCK_FILE = 0,                     /* the new object is a file */
    ACLCK_DIRECTORY = 0x02000000,       /* the new object is a directory */
    ACLCK_CANONICAL = 0,                /* the canonical text: one line per entry, with ids */
    ACLCK_FORM_SHOWN = 0x04000000,      /* the text with comments on entries that the mask limits */
    ACLCK_FORM_SHORT = 0x08000000,      /* the short text: entries between commas */
    ACLCK_GROUPS_IN_ORDER = 0x10000000, /* the groups of each requester rise; if not, some of them do not count */
    ACLCK_MARK_INHERITED = 0x20000000,  /* each ACE of the new object gets the flag INHERITED */
    ACLCK_ADD_MASK = 0x40000000,        /* a list with USER or GROUP entries and no MASK gets the MASK of setfacl */
    ACLCK_MAY_MERGE = 0x00800000        /* two names of a list may become one */
};

/* Why something is refused. The numbers never change; later versions may add some. */
enum aclck_reason {
    ACLCK_TRUNCATED = 1,
    ACLCK_TOO_MANY_ACES = 2,
    ACLCK_AUDIT_OR_ALARM = 3,
    ACLCK_ACE_TYPE = 4,
    ACLCK_FLAG_BITS = 5,
    ACLCK_MASK_BITS = 6,
    ACLCK_TOO_HEAVY = 7,
    ACLCK_WHO_LENGTH = 8,
    ACLCK_WHO_UTF8 = 9,
    ACLCK_WHO_CONTROL = 10,
    ACLCK_SPECIAL_WHO = 11,
    ACLCK_PADDING = 12,
    ACLCK_TRAILING_BYTES = 13,
    /* 14 and 15 are the program's alone: Read and Memory. No call here reports them. */
    ACLCK_FIELDS = 16,
    ACLCK_FLAG = 17,
    ACLCK_MASK = 18,
    ACLCK_TAG = 19,
    ACLCK_QUALIFIER = 20,
    ACLCK_ID = 21,
    ACLCK_UNKNOWN_NAME = 22,
    ACLCK_PERMISSION = 23,
    ACLCK_EMPTY_ENTRY = 24,
    ACLCK_MULTI = 25,
    ACLCK_DUPLICATE = 26,
    ACLCK_MISS = 27,
    ACLCK_LIMITS = 28,
    ACLCK_SIZE = 29,
    ACLCK_VERSION_2 = 30,
    ACLCK_ORDER = 31,
    ACLCK_MERGED = 32,
    ACLCK_ACL_FLAG_BITS = 33,
    ACLCK_IFLAG_BITS = 34,
    ACLCK_NOT_DIRECTORY = 35,
    ACLCK_EMPTY = 36,
    ACLCK_ID_DIFFERS = 37,
    ACLCK_COMMENT = 38,
    ACLCK_NUL = 39,
    ACLCK_TOO_LONG = 40,
    ACLCK_NO_ID = 41,
    ACLCK_INHERITED_ACE = 42,
    ACLCK_RETENTION = 43,
    ACLCK_SEPARATOR = 44,
    ACLCK_ACL_FLAGS = 45,
    ACLCK_TOO_MANY = 46
};

/* Parts of a POSIX ACL, in aclck_fault. */
enum aclck_part { ACLCK_PART_ACCESS = 0, ACLCK_PART_DEFAULT = 1 };

/* Tags of POSIX entries. */
enum aclck_tag {
    ACLCK_TAG_USER_OBJ = 1,
    ACLCK_TAG_USER = 2,
    ACLCK_TAG_GROUP_OBJ = 3,
    ACLCK_TAG_GROUP = 4,
    ACLCK_TAG_MASK = 5,
    ACLCK_TAG_OTHER = 6
};

/* Kinds of ACEs, which RFC 8881 calls types (section 6.2.1.1). */
enum aclck_kind {
    ACLCK_ALLOW = 0,
    ACLCK_DENY = 1,
    ACLCK_UNDECIDED = 2 /* no ACE: only in aclck_decision, and at the end of a list in aclck_ace */
};

/* Rights of a mask (RFC 8881, section 6.2.1.3.1). */
enum aclck_right {
    ACLCK_READ_DATA = 0x00000001,
    ACLCK_LIST_DIRECTORY = 0x00000001,
    ACLCK_WRITE_DATA = 0x00000002,
    ACLCK_ADD_FILE = 0x00000002,
    ACLCK_APPEND_DATA = 0x00000004,
    ACLCK_ADD_SUBDIRECTORY = 0x00000004,
    ACLCK_READ_NAMED_ATTRS = 0x00000008,
    ACLCK_WRITE_NAMED_ATTRS = 0x00000010,
    ACLCK_EXECUTE = 0x00000020,
    ACLCK_DELETE_CHILD = 0x00000040,
    ACLCK_READ_ATTRIBUTES = 0x00000080,
    ACLCK_WRITE_ATTRIBUTES = 0x00000100,
    ACLCK_WRITE_RETENTION = 0x00000200,
    ACLCK_WRITE_RETENTION_HOLD = 0x00000400,
    ACLCK_DELETE = 0x00010000,
    ACLCK_READ_ACL = 0x00020000,
    ACLCK_WRITE_ACL = 0x00040000,
    ACLCK_WRITE_OWNER = 0x00080000,
    ACLCK_SYNCHRONIZE = 0x00100000,
    ACLCK_ALL_RIGHTS = 0x001f07ff
};

/* Flags of an ACE (RFC 8881, section 6.2.1.4.1). */
enum aclck_flag {
    ACLCK_FILE_INHERIT = 0x01,
    ACLCK_DIRECTORY_INHERIT = 0x02,
    ACLCK_NO_PROPAGATE_INHERIT = 0x04,
    ACLCK_INHERIT_ONLY = 0x08,
    ACLCK_SUCCESSFUL_ACCESS = 0x10,
    ACLCK_FAILED_ACCESS = 0x20,
    ACLCK_IDENTIFIER_GROUP = 0x40,
    ACLCK_INHERITED = 0x80
};

/* Flags of a whole list (RFC 8881, section 6.2.2). OpenZFS sets the last two in the same word. */
enum aclck_acl_flag {
    ACLCK_AUTO_INHERIT = 0x1,
    ACLCK_PROTECTED = 0x2,
    ACLCK_DEFAULTED = 0x4,
    ACLCK_IS_TRIVIAL = 0x10000,
    ACLCK_IS_DIR = 0x20000
};

/* Forms in which other systems keep or print a list (docs/reference/c.md). */
enum aclck_form {
    ACLCK_NFS_TOOLS_FILE = 1,      /* the text of nfs4_getfacl for a file; it has no flags of the list */
    ACLCK_NFS_TOOLS_DIRECTORY = 2, /* the text of nfs4_getfacl for a directory; it has no flags of the list */
    ACLCK_NFS_ACL41 = 3,           /* flags and a list: the attribute dacl (RFC 8881, section 6.2.2) */
    ACLCK_NFS_ACL41_IDS = 4,       /* flags and a list with ids: Samba's attribute security.nfs4acl_xdr */
    ACLCK_NFS_TEXT = 5,            /* the text of getfacl of FreeBSD, of ZFS and of archives; it has no flags */
    ACLCK_NFS_TEXT_IDS = 6,        /* the same text, of which the ids and not the names are read */
    ACLCK_FORM_COMMAS = 16,        /* may be added to 5 and 6: commas between the entries, and not lines */
    ACLCK_FORM_FULL = 32           /* may be added to 5 and 6: a place for each letter, with - for one that is absent */
};

/* Forms in which other systems keep POSIX ACLs, and which ACL of a value is meant (docs/reference/c.md). */
enum aclck_posix_form {
    ACLCK_POSIX_ATTRIBUTE = 1,       /* the attributes system.posix_acl_access and system.posix_acl_default of Linux */
    ACLCK_POSIX_TEXT = 2,            /* the access ACL of a text SCHILY.acl.access of an archive */
    ACLCK_POSIX_DEFAULT_OF_TEXT = 3, /* the default ACL of such a text, which need not have one */
    ACLCK_POSIX_DEFAULT_TEXT = 4,    /* the ACL of a text SCHILY.acl.default of an archive */
    ACLCK_POSIX_GNU_STYLE = 16       /* may be added to 2 and 4: as GNU tar writes the text, and not as star does */
};

/* What is certain of a request, where a list has names that nobody knows. */
enum aclck_request_answer {
    ACLCK_NEVER = 0,   /* it is not granted in any case */
    ACLCK_DEPENDS = 1, /* it depends on these names */
    ACLCK_ALWAYS = 2   /* it is granted in any case */
};

/* Permissions of a POSIX entry (acl(5)). */
enum aclck_permission { ACLCK_PERM_EXECUTE = 1, ACLCK_PERM_WRITE = 2, ACLCK_PERM_READ = 4 };

/* Some bytes. It has the layout of struct iovec. */
typedef struct aclck_bytes {
    const void *at;
    size_t len;
} aclck_bytes;

/* Room for bytes. */
typedef struct aclck_buffer {
    void *at;
    size_t cap;
} aclck_buffer;

/* An object: its owner and its owning group. No name may be empty. */
typedef struct aclck_object {
    aclck_bytes owner;
    aclck_bytes group;
} aclck_object;

/* A user and the groups of that user. No name may be empty. */
typedef struct aclck_requester {
    aclck_bytes user;
    const aclck_bytes *groups;
    size_t ngroups;
} aclck_requester;

/* Some requesters. */
typedef struct aclck_requesters {
    const aclck_requester *at;
    size_t len;
} aclck_requesters;

/* What is asked: rights, and options. A question without rights is granted. */
typedef struct aclck_question {
    enum aclck_right mask;
    enum aclck_option options;
} aclck_question;

/* What is asked of a list: whether everybody to whom it grants a right also gets others. */
typedef struct aclck_implication {
    enum aclck_right right;
    enum aclck_right others;
    enum aclck_option options;
} aclck_implication;

/* Room for masks of rights. */
typedef struct aclck_masks {
    uint32_t *at;
    size_t len;
} aclck_masks;

/* An ACE that aclck_read_part() leaves out: its number among all ACEs of the value, the place of its first byte, both
   from 0, and the reason: ACLCK_AUDIT_OR_ALARM or ACLCK_SPECIAL_WHO. */
typedef struct aclck_left_out {
    uint64_t place;
    uint64_t offset;
    enum aclck_reason reason;
} aclck_left_out;

/* Room for the ACEs that are left out. */
typedef struct aclck_left_outs {
    aclck_left_out *at;
    size_t cap;
} aclck_left_outs;

/* What aclck_read_part() makes: the number of bytes of the list, the number of the ACEs that are left out, and the
   flags of the list (enum aclck_acl_flag). */
typedef struct aclck_list_part {
    uint64_t needed;
    uint64_t left_out;
    uint32_t flags;
} aclck_list_part;

/* An ACE: its kind, the sums of its flags and of its rights, and its who: a name, or OWNER@, GROUP@ or EVERYONE@. */
typedef struct aclck_ace {
    enum aclck_kind kind;
    enum aclck_flag flags;
    enum aclck_right mask;
    aclck_bytes who;
} aclck_ace;

/* The ACEs of a list, in order. */
typedef struct aclck_aces {
    const aclck_ace *at;
    size_t len;
} aclck_aces;

/* A name that is exchanged: of a group where `is_group` is 1, of a user where it is 0. */
typedef struct aclck_renaming {
    aclck_bytes from;
    aclck_bytes to;
    uint32_t is_group;
} aclck_renaming;

/* A table of names to exchange. It is refused with ACLCK_BAD_ARGUMENT if a name is empty, ends with `@`, or is no who
   of a list, if a `from` occurs twice for users or twice for groups, or if an `is_group` is above 1. */
typedef struct aclck_renamings {
    const aclck_renaming *at;
    size_t len;
} aclck_renamings;

/* A user and the groups of that user, as ids. The ids of the groups rise, and none occurs twice. */
typedef struct aclck_id_requester {
    uint32_t user;
    const uint32_t *groups;
    size_t ngroups;
} aclck_id_requester;

/* An object: the ids of its owner and of its owning group. */
typedef struct aclck_id_object {
    uint32_t owner;
    uint32_t group;
} aclck_id_object;

/* A name of an id: of a group where `is_group` is 1, of a user where it is 0. */
typedef struct aclck_name {
    aclck_bytes name;
    uint32_t id;
    uint32_t is_group;
} aclck_name;

/* A table of names and their ids. It is refused with ACLCK_BAD_ARGUMENT if a name is empty, has digits alone, or occurs
   twice for users or twice for groups, if an id is 4294967295, or if an `is_group` is above 1. */
typedef struct aclck_names {
    const aclck_name *at;
    size_t len;
} aclck_names;

/* The text of POSIX ACLs, and the names that it may use. */
typedef struct aclck_posix_text {
    aclck_bytes text;
    aclck_names names;
} aclck_posix_text;

/* What is asked of a POSIX ACL: whether a user, who is in these groups, may do all of `want` to an object of this owner
   and this group. */
typedef struct aclck_posix_question {
    uint32_t owner;
    uint32_t group;
    uint32_t user;
    enum aclck_permission want;
    const uint32_t *groups;
    size_t ngroups;
} aclck_posix_question;

/* An entry of a POSIX ACL: its tag, the id of a USER or GROUP entry, and the sum of its permissions. The id of every
   other entry means nothing, and calls write 4294967295 there. */
typedef struct aclck_entry {
    enum aclck_tag tag;
    uint32_t id;
    enum aclck_permission perm;
} aclck_entry;

/* The entries of a POSIX ACL. */
typedef struct aclck_entries {
    const aclck_entry *at;
    size_t len;
} aclck_entries;

/* Room for entries. */
typedef struct aclck_entry_buffer {
    aclck_entry *at;
    size_t cap;
} aclck_entry_buffer;

/* How a new object is created: its mode, the umask of its creator, and ACLCK_FILE or ACLCK_DIRECTORY. */
typedef struct aclck_creation {
    uint32_t mode;
    uint32_t umask;
    enum aclck_option options;
} aclck_creation;

/* Why and where something is refused. At ACLCK_REFUSED a call writes all of it; what a reason does not use is 0.
   - A list of bytes (reasons 1 to 13): `offset` is the place of the refused field, from 0. `list` is 0 for the first or
     only list, and 1 for the second of two.
   - A text (reasons 2 to 24 of a call that takes a text): `line` and `column`, each from 1.
   - A POSIX ACL that is not valid (reasons 25 to 27): `part` says which. At 25 and 26 `offset` is the place of an entry
     in that part, from 0. At 27 `tag` is the entry that is missing.
   - ACLCK_LIMITS (28): the list of the whole ACL would be too long or too heavy, or aclck_to_posix() is given a list
     that names too many users and groups. No place.
   - An array of ACEs, and a name that has no id or would become another one (22 and 32): `offset` is the place of the
     ACE, from 0. So it is for every reason of aclck_build().
   - A value of a form that aclck_read_form() refuses: `offset` is the place of the first byte that is refused, from 0.
   - A list that aclck_write_form() cannot write in a form (reasons 35, 36 and 40 to 45): `offset` is the place of the
     ACE, from 0.
   - Entries that aclck_entries_to_form() cannot write in a form (reasons 21, 40 and 44): `offset` is the place of the
     entry in canonical order, from 0. At 21 its id is above 2147483647, and not 4294967295.
   - Entries and attributes of POSIX ACLs: at 19, 21, 23 and 31 `offset` is the place of an entry, from 0. At 29 and 30
     the whole attribute is refused. No place. */
typedef struct aclck_fault {
    uint64_t offset;
    uint64_t line;
    uint64_t column;
    enum aclck_reason reason;
    uint32_t list;
    enum aclck_part part;
    enum aclck_tag tag;
} aclck_fault;

/* Of the rights that are asked: those that an ALLOW decides, and those that a DENY decides. No ACE decides the rest,
   and so they are not granted. */
typedef struct aclck_decided {
    uint32_t allowed;
    uint32_t denied;
} aclck_decided;

/* Room for such answers. */
typedef struct aclck_decided_list {
    aclck_decided *at;
    size_t len;
} aclck_decided_list;

/* What is certain, whoever the names are that nobody knows. Of the rights that are asked: those that are granted, those
   that are not granted and that a DENY decides or may decide, and those that depend on these names. No ACE decides the
   rest. `request` is the answer for all rights together. `left_out` is the number of AUDIT and ALARM ACEs, which grant
   and deny nothing. */
typedef struct aclck_possible {
    uint32_t allowed;
    uint32_t denied;
    uint32_t unknown;
    enum aclck_request_answer request;
    uint32_t left_out;
} aclck_possible;

/* The ACE that decides a right: its place in the list, from 0, and its kind. If no ACE decides the right, which denies
   it, the kind is ACLCK_UNDECIDED and the place is 0. */
typedef struct aclck_decision {
    uint64_t place;
    enum aclck_kind kind;
} aclck_decision;

/* How a request is decided by POSIX entries. `granted` is 1 if all that is asked is granted, and otherwise 0. `place`
   and `tag` are the place of the entry that decides, from 0, and its tag. If entries of groups match and none of them
   has all that is asked, no entry alone decides, and both are 0. `masked` is 1 if that entry has all that is asked and
   the MASK does not, and otherwise 0. */
typedef struct aclck_posix_decision {
    uint64_t place;
    uint32_t granted;
    enum aclck_tag tag;
    uint32_t masked;
} aclck_posix_decision;

/* What a first POSIX ACL grants and a second denies. `same` is 1 if there is nothing. Otherwise it is 0, and a user who
   is in `ngroups` groups, at most two, is granted all of `want` on an object of this owner and group by the first ACL,
   and denied it by the second. What is not used is 0. */
typedef struct aclck_posix_difference {
    uint32_t same;
    uint32_t owner;
    uint32_t group;
    uint32_t user;
    enum aclck_permission want;
    uint32_t ngroups;
    uint32_t first_group;
    uint32_t second_group;
} aclck_posix_difference;

/* What an NFSv4 list grants and its POSIX ACL denies. `exact` is 1 if there is nothing: the ACL grants read, write and
   execute, each alone, if and only if the list does. Otherwise it is 0, and a user who is in `ngroups` groups, at most
   three, is granted `want` on an object of this owner and group by the list, and denied it by the ACL. What is not used
   is 0. */
typedef struct aclck_posix_loss {
    uint32_t exact;
    uint32_t owner;
    uint32_t group;
    uint32_t user;
    enum aclck_permission want;
    uint32_t ngroups;
    uint32_t first_group;
    uint32_t second_group;
    uint32_t third_group;
} aclck_posix_loss;

/* Whether two lists grant everybody the same. If not, where they differ: one right, 1 if the first list grants it and
   the second does not, and 0 otherwise, and how many bytes the names are for whom they differ. */
typedef struct aclck_difference {
    uint64_t names;
    uint32_t same;
    uint32_t right;
    uint32_t first_grants;
} aclck_difference;

/* ---- NFSv4 lists: questions (RFC 8881, section 6.2.1). A list is the bytes of `nfsace4<>`, as the extended attribute
   system.nfs4_acl holds them. Options: ACLCK_NARROW. Each call answers whatever it returns: if it returns no
   ACLCK_DONE, its answer grants nothing. ACLCK_DONE, ACLCK_REFUSED (*fault), ACLCK_BAD_ARGUMENT. Memory for groups, and
   none for aclck_mode(). */

/* Writes to *decided which of the rights that are asked the list allows the requester on the object, and which it
   denies. */
ACLCK_CALL ACLCK_READS(2) ACLCK_READS(3) ACLCK_READS(4) ACLCK_WRITES(5) ACLCK_WRITES(6)
enum aclck_status aclck_decide(aclck_bytes acl, const aclck_object *object, const aclck_requester *requester,
                               const aclck_question *question, aclck_decided *decided, aclck_fault *fault);

/* Writes to *granted 1 if the list grants the requester all the rights that are asked, and otherwise 0. */
ACLCK_CALL ACLCK_READS(2) ACLCK_READS(3) ACLCK_READS(4) ACLCK_WRITES(5) ACLCK_WRITES(6)
enum aclck_status aclck_check(aclck_bytes acl, const aclck_object *object, const aclck_requester *requester,
                              const aclck_question *question, uint32_t *granted, aclck_fault *fault);

/* Writes to *rights which of the rights that are asked the list grants the requester. */
ACLCK_CALL ACLCK_READS(2) ACLCK_READS(3) ACLCK_READS(4) ACLCK_WRITES(5) ACLCK_WRITES(6)
enum aclck_status aclck_granted(aclck_bytes acl, const aclck_object *object, const aclck_requester *requester,
                                const aclck_question *question, uint32_t *rights, aclck_fault *fault);

/* Writes to *decision which ACE decides the one right that is asked: the first one that has the right, matches the
   requester, and does not have INHERIT_ONLY. ACLCK_BAD_ARGUMENT also where not exactly one right is asked. */
ACLCK_CALL ACLCK_READS(2) ACLCK_READS(3) ACLCK_READS(4) ACLCK_WRITES(5) ACLCK_WRITES(6)
enum aclck_status aclck_deciding(aclck_bytes acl, const aclck_object *object, const aclck_requester *requester,
                                 const aclck_question *question, aclck_decision *decision, aclck_fault *fault);

/* Writes to rights.at[i] which of the rights that are asked the list grants requesters.at[i], for every i, and reads
   the list once. ACLCK_BAD_ARGUMENT also where `rights` has another length than `requesters`. */
ACLCK_CALL ACLCK_READS(2) ACLCK_READS(4) ACLCK_WRITES(6)
enum aclck_status aclck_check_many(aclck_bytes acl, const aclck_object *object, aclck_requesters requesters,
                                   const aclck_question *question, aclck_masks rights, aclck_fault *fault);

/* Writes the mode of the list to *mode (RFC 8881, section 6.3.2), and 0 if it fails. */
ACLCK_CALL ACLCK_WRITES(3) ACLCK_WRITES(4)
enum aclck_status aclck_mode(aclck_bytes acl, enum aclck_option options, uint32_t *mode, aclck_fault *fault);

/* ---- NFSv4 lists: prepared lists. aclck_prepare() reads a list once, and makes bytes of it from which the other calls
   answer as aclck_decide() answers from the list. Prepared bytes may be copied, stored, mapped, and read by any number
   of threads. A later version may have another form of them; it then refuses the older form with ACLCK_BAD_ARGUMENT.
   Other bytes are refused with ACLCK_BAD_ARGUMENT, or get an answer that means nothing, and no byte outside of them is
   read. So guard stored bytes as the list itself. */

/* Writes the prepared bytes of the list to the front of `out`, and their number to *needed. Options: ACLCK_NARROW.
   ACLCK_DONE (`out`, *needed), ACLCK_REFUSED (*fault), ACLCK_BAD_ARGUMENT, ACLCK_MEMORY, ACLCK_SHORT (*needed). */
ACLCK_CALL ACLCK_WRITES(4) ACLCK_WRITES(5)
enum aclck_status aclck_prepare(aclck_bytes acl, enum aclck_option options, aclck_buffer out, size_t *needed,
                                aclck_fault *fault);

/* Writes to *decided which of the rights that are asked the prepared list allows the requester on the object, and which
   it denies. If it fails, both are 0. Options: ACLCK_GROUPS_IN_ORDER, by which the caller says that the groups of the
   requester rise in the order of their bytes. They are then looked up by binary search, and the order is not tested: if
   they do not rise, those that the search misses do not count, and a DENY of them denies nothing. ACLCK_DONE,
   ACLCK_BAD_ARGUMENT: also where the bytes are no prepared bytes. Memory for groups, where an eighth of the number of
   bytes counts as the number of ACEs. With the option, no memory. */
ACLCK_CALL ACLCK_READS(2) ACLCK_READS(3) ACLCK_READS(4) ACLCK_WRITES(5)
enum aclck_status aclck_decide_prepared(aclck_bytes prepared, const aclck_object *object,
                                        const aclck_requester *requester, const aclck_question *question,
                                        aclck_decided *decided);

/* Writes to decided.at[i] what aclck_decide_prepared() writes for requesters.at[i], for every i. If it fails, all of
   them are 0. Options: ACLCK_GROUPS_IN_ORDER. ACLCK_DONE, ACLCK_BAD_ARGUMENT: also where the bytes are no prepared
   bytes, or `decided` has another length than `requesters`. Memory as for aclck_decide_prepared(). */
ACLCK_CALL ACLCK_READS(2) ACLCK_READS(4)
enum aclck_status aclck_decide_prepared_many(aclck_bytes prepared, const aclck_object *object,
                                             aclck_requesters requesters, const aclck_question *question,
                                             aclck_decided_list decided);

/* Writes the prepared bytes of the list with an id in place of each name, for aclck_decide_ids() alone. The id of a
   user or of a group is that of the name in `names`. A name that is not there is an id if it is the decimal number of
   one, without zeros in front and at most 4294967294. Any other name is refused with ACLCK_UNKNOWN_NAME, and the fault
   has the place of its ACE. Everything else is as for aclck_prepare(). */
ACLCK_CALL ACLCK_READS(2) ACLCK_WRITES(5) ACLCK_WRITES(6)
enum aclck_status aclck_prepare_ids(aclck_bytes acl, const aclck_names *names, enum aclck_option options,
                                    aclck_buffer out, size_t *needed, aclck_fault *fault);

/* Writes to *decided which of the rights that are asked the prepared list allows the requester on the object, and which
   it denies: all that names are compared for is done by ids. If it fails, both are 0. No options. ACLCK_DONE,
   ACLCK_BAD_ARGUMENT: also where the ids of the groups do not rise, or the bytes are no prepared bytes with ids. No
   memory. */
ACLCK_CALL ACLCK_READS(2) ACLCK_READS(3) ACLCK_READS(4) ACLCK_WRITES(5)
enum aclck_status aclck_decide_ids(aclck_bytes prepared, const aclck_id_object *object,
                                   const aclck_id_requester *requester, const aclck_question *question,
                                   aclck_decided *decided);

/* ---- NFSv4 lists: names that nobody knows */

/* Writes to *possible what is certain about a list of another server. It is read as other calls read it, but AUDIT and
   ALARM ACEs are left out, and special identifiers such as INTERACTIVE@ are kept: each of them may match the requester
   or not. If it fails, all of *possible is 0. Options: ACLCK_NARROW. ACLCK_DONE, ACLCK_REFUSED (*fault),
   ACLCK_BAD_ARGUMENT, ACLCK_MEMORY. */
ACLCK_CALL ACLCK_READS(2) ACLCK_READS(3) ACLCK_READS(4) ACLCK_WRITES(5) ACLCK_WRITES(6)
enum aclck_status aclck_decide_unknown(aclck_bytes acl, const aclck_object *object, const aclck_requester *requester,
                                       const aclck_question *question, aclck_possible *possible, aclck_fault *fault);

/* ---- NFSv4 lists: ACE by ACE */

/* Writes to *ace the ACE at *offset, and moves *offset to the next one. Begin with the offset 0: there the whole list
   is judged. When no ACE is left, `ace->kind` is ACLCK_UNDECIDED, its other numbers are 0, and *offset stays. `ace->who`
   points into `acl`. An offset that no call wrote gives some ACE of these bytes, the end of the list, ACLCK_REFUSED or
   ACLCK_BAD_ARGUMENT, and no byte outside is read. At the offset acl.len, if it is not 0, no ACE is left, also where the
   bytes are no list. Options: ACLCK_NARROW. ACLCK_DONE (*ace, *offset), ACLCK_REFUSED (*fault),
   ACLCK_BAD_ARGUMENT: also where *offset is above acl.len. No memory. */
ACLCK_CALL ACLCK_CHANGES(3) ACLCK_WRITES(4) ACLCK_WRITES(5)
enum aclck_status aclck_next(aclck_bytes acl, enum aclck_option options, size_t *offset, aclck_ace *ace,
                             aclck_fault *fault);

/* Writes the bytes of the list of these ACEs to the front of `out`, and their number to *needed. The fault has the
   reason and, as its offset, the place of the ACE, from 0. Options: ACLCK_NARROW. ACLCK_DONE (`out`, *needed),
   ACLCK_REFUSED (*fault), ACLCK_BAD_ARGUMENT, ACLCK_MEMORY, ACLCK_SHORT (*needed). */
ACLCK_CALL ACLCK_WRITES(4) ACLCK_WRITES(5)
enum aclck_status aclck_build(aclck_aces aces, enum aclck_option options, aclck_buffer out, size_t *needed,
                              aclck_fault *fault);

/* ---- NFSv4 lists: texts and bytes. Each call writes its result to the front of `out`, and the number of its bytes to
   *needed. ACLCK_DONE (`out`, *needed), ACLCK_REFUSED (*fault), ACLCK_BAD_ARGUMENT, ACLCK_MEMORY, ACLCK_SHORT
   (*needed). */

/* The list that a new object gets in a directory with this list (RFC 8881, section 6.4.3). With ACLCK_MARK_INHERITED
   each of its ACEs has the flag INHERITED, which the narrow profile does not have: the call takes ACLCK_DIRECTORY, and
   one of ACLCK_NARROW and ACLCK_MARK_INHERITED. */
ACLCK_CALL ACLCK_WRITES(4) ACLCK_WRITES(5)
enum aclck_status aclck_child(aclck_bytes acl, enum aclck_option options, aclck_buffer out, size_t *needed,
                              aclck_fault *fault);

/* The list after the mode of its object is set (RFC 8881, section 6.4.1.1): the list has this mode, a name is granted
   at most what the group is, other rights are granted as before, and new objects inherit what they inherited before.
   ACLCK_BAD_ARGUMENT also where `mode` is above 0777. ACLCK_REFUSED also with ACLCK_LIMITS. Options: ACLCK_NARROW. */
ACLCK_CALL ACLCK_WRITES(5) ACLCK_WRITES(6)
enum aclck_status aclck_chmod(aclck_bytes acl, uint32_t mode, enum aclck_option options, aclck_buffer out,
                              size_t *needed, aclck_fault *fault);

/* The list with names exchanged by a table: a name of a user that the table has for users, and a name of a group that
   it has for groups. All other names stay, and so does everything else. Unless the options have ACLCK_MAY_MERGE, the
   list is refused with ACLCK_MERGED if two different names of users, or of groups, become one: the fault has the place
   of the first ACE whose new name an earlier ACE got from another name. Options: ACLCK_NARROW, ACLCK_MAY_MERGE. */
ACLCK_CALL ACLCK_READS(2) ACLCK_WRITES(5) ACLCK_WRITES(6)
enum aclck_status aclck_renamed(aclck_bytes acl, const aclck_renamings *table, enum aclck_option options,
                                aclck_buffer out, size_t *needed, aclck_fault *fault);

/* The list for one object: OWNER@ becomes its owner, as the name of a user, GROUP@ its owning group, as the name of a
   group, and everything else stays. Whatever object the new list is asked for, it grants each requester what `acl`
   grants for this object. So aclck_compare(), aclck_excess() and aclck_normalize() of new lists are about this object
   alone. A new object has another owner: take aclck_child() of `acl`. The list is refused with ACLCK_UNKNOWN_NAME if an
   ACE needs a name that no ACE can have: the fault has the place of the first one. ACLCK_BAD_ARGUMENT also where a name
   is empty. Options: ACLCK_NARROW. */
ACLCK_CALL ACLCK_READS(2) ACLCK_WRITES(5) ACLCK_WRITES(6)
enum aclck_status aclck_resolved(aclck_bytes acl, const aclck_object *object, enum aclck_option options,
                                 aclck_buffer out, size_t *needed, aclck_fault *fault);

/* The list in which a group stands for each special identifier that nobody knows, such as AUTHENTICATED@: the name of
   the group is that name with `*suffix` behind it. AUDIT and ALARM ACEs are left out, and all else stays. A requester
   of whom you know which special identifiers match is in the groups of these names. So aclck_compare(), aclck_excess()
   and aclck_normalize() of new lists are about every way to match them. An ACE is counted among those that stay. The
   list is refused with ACLCK_UNKNOWN_NAME if a name with the suffix is not the name of a group, and with ACLCK_MERGED
   if an ACE is already for a group of such a name: the fault has the place of the first one. Options: ACLCK_NARROW. */
ACLCK_CALL ACLCK_READS(2) ACLCK_WRITES(5) ACLCK_WRITES(6)
enum aclck_status aclck_with_groups(aclck_bytes acl, const aclck_bytes *suffix, enum aclck_option options,
                                    aclck_buffer out, size_t *needed, aclck_fault *fault);

/* What the list keeps under `*bound`, which is a list too: a right of an ALLOW goes if and only if the DENYs before it,
   and then it, grant the right to somebody whom the bound denies it. The new list grants at most what both lists grant,
   and of all lists that are made by taking rights out of ALLOWs and do so, it keeps most. It has the bytes of `acl` if
   and only if aclck_excess() finds nothing. Options: ACLCK_NARROW. */
ACLCK_CALL ACLCK_READS(2) ACLCK_WRITES(5) ACLCK_WRITES(6)
enum aclck_status aclck_restricted(aclck_bytes acl, const aclck_bytes *bound, enum aclck_option options,
                                   aclck_buffer out, size_t *needed, aclck_fault *fault);

/* What the list keeps under `*bound` on its object and on everything that is ever created below it, as aclck_child()
   makes the lists there: on each of these objects, the new list grants at most what both lists grant there. Of all
   lists that are made by taking rights out of ALLOWs and do so, it keeps most. aclck_restricted() leaves the ALLOWs
   with INHERIT_ONLY as they are, and this call does not. An ACE of the bound counts for new objects only if they
   inherit it. Options: ACLCK_NARROW. */
ACLCK_CALL ACLCK_READS(2) ACLCK_WRITES(5) ACLCK_WRITES(6)
enum aclck_status aclck_restricted_everywhere(aclck_bytes acl, const aclck_bytes *bound, enum aclck_option options,
                                              aclck_buffer out, size_t *needed, aclck_fault *fault);

/* The questions of the list, as XDR (docs/reference/formats.md): each is the owner and the owning group of an object,
   and a user and the groups of that user. Another list that mentions no other principals, and that grants the same in
   each question, grants the same to everybody. A list that mentions n principals has at most 1 + n + n(n-1)/2
   questions. It is refused with ACLCK_TOO_MANY if it has more than `most`. Options: ACLCK_NARROW. */
ACLCK_CALL ACLCK_WRITES(5) ACLCK_WRITES(6)
enum aclck_status aclck_questions(aclck_bytes acl, uint32_t most, enum aclck_option options, aclck_buffer out,
                                  size_t *needed, aclck_fault *fault);

/* The text of the list, one line per ACE (docs/reference/formats.md). Options: ACLCK_NARROW. */
ACLCK_CALL ACLCK_WRITES(4) ACLCK_WRITES(5)
enum aclck_status aclck_show(aclck_bytes acl, enum aclck_option options, aclck_buffer out, size_t *needed,
                             aclck_fault *fault);

/* The bytes of the list whose text this is. The fault has a line and a column. Options: ACLCK_NARROW. */
ACLCK_CALL ACLCK_WRITES(4) ACLCK_WRITES(5)
enum aclck_status aclck_encode(aclck_bytes text, enum aclck_option options, aclck_buffer out, size_t *needed,
                               aclck_fault *fault);

/* The normal form of the list: two lists get equal bytes if and only if they grant everybody the same.
   Options: ACLCK_NARROW. */
ACLCK_CALL ACLCK_WRITES(4) ACLCK_WRITES(5)
enum aclck_status aclck_normalize(aclck_bytes acl, enum aclck_option options, aclck_buffer out, size_t *needed,
                                  aclck_fault *fault);

/* The five normal forms of a directory's list, one after the other: of the directory, of a new file, of a new
   directory, and of a new file and a new directory in that new directory. Options: ACLCK_NARROW. */
ACLCK_CALL ACLCK_WRITES(4) ACLCK_WRITES(5)
enum aclck_status aclck_normalize_inherit(aclck_bytes acl, enum aclck_option options, aclck_buffer out, size_t *needed,
                                          aclck_fault *fault);

/* The ACEs of the normal form that have the one right that is asked, one line per ACE: the place in the given list,
   from 0, the kind, GROUP or `-`, and the who. ACLCK_BAD_ARGUMENT also where not exactly one right of the profile is
   asked. Options: ACLCK_NARROW. */
ACLCK_CALL ACLCK_READS(2) ACLCK_WRITES(4) ACLCK_WRITES(5)
enum aclck_status aclck_table(aclck_bytes acl, const aclck_question *question, aclck_buffer out, size_t *needed,
                              aclck_fault *fault);

/* Who has the one right that is asked, in words: one line per ACE of the normal form that has the right, from the last
   ACE to the first. A line names a `user`, a `group`, `the owner`, `the owning group` or `everybody`, after `not` if
   the ACE denies; a later line begins with `and` if its ACE has the kind of that of the line before, and else with
   `but`. The last line that is about a requester decides. The text is `nobody` if there is no such ACE.
   ACLCK_BAD_ARGUMENT also where not exactly one right of the profile is asked. Options: ACLCK_NARROW. */
ACLCK_CALL ACLCK_READS(2) ACLCK_WRITES(4) ACLCK_WRITES(5)
enum aclck_status aclck_holders(aclck_bytes acl, const aclck_question *question, aclck_buffer out, size_t *needed,
                                aclck_fault *fault);

/* ---- NFSv4 lists: forms of other systems. In a list, the who of an id is the decimal digits of the id.
   ACLCK_DONE, ACLCK_REFUSED (*fault), ACLCK_BAD_ARGUMENT: also where `form` is no form, ACLCK_MEMORY, ACLCK_SHORT. */

/* Writes the bytes of the list that all of the value spells in the form to the front of `out`, their number to *needed,
   and the flags of the list (enum aclck_acl_flag) to *flags: 0 for a text. ACLCK_FORM_COMMAS and ACLCK_FORM_FULL have
   no effect. ACLCK_DONE (`out`, *needed, *flags), ACLCK_SHORT (*needed, *flags). */
ACLCK_CALL ACLCK_WRITES(4) ACLCK_WRITES(5) ACLCK_WRITES(6)
enum aclck_status aclck_read_form(aclck_bytes value, enum aclck_form form, aclck_buffer out, size_t *needed,
                                  uint32_t *flags, aclck_fault *fault);

/* The same without the ACEs that access does not read: AUDIT and ALARM ACEs, and ALLOW ACEs of a special identifier
   other than OWNER@, GROUP@ and EVERYONE@. They are at the front of `left`, in order; without them the list grants no
   more. A DENY of such a name is refused with ACLCK_SPECIAL_WHO. A value of n bytes has fewer than n / 5 + 1 ACEs that
   are left out, and at most 65,536. ACLCK_DONE (`out`, `left`, *part), ACLCK_SHORT where `out` or `left` has no room
   (*part). */
ACLCK_CALL ACLCK_WRITES(3) ACLCK_WRITES(6)
enum aclck_status aclck_read_part(aclck_bytes value, enum aclck_form form, aclck_list_part *part, aclck_buffer out,
                                  aclck_left_outs left, aclck_fault *fault);

/* Writes the value of the flags and of the list in the form to the front of `out`, and the number of its bytes to
   *needed. ACLCK_REFUSED also where the form cannot hold the list or the flags. Where it can, aclck_read_form() reads
   the value as the same flags and list; only in the texts of nfs4_getfacl does GROUP@ get the flag IDENTIFIER_GROUP,
   and in the text of FreeBSD does each special identifier lose it. It has no effect there. ACLCK_BAD_ARGUMENT also
   where `flags` has another bit. ACLCK_DONE (`out`, *needed), ACLCK_SHORT (*needed). */
ACLCK_CALL ACLCK_WRITES(5) ACLCK_WRITES(6)
enum aclck_status aclck_write_form(aclck_bytes acl, enum aclck_form form, uint32_t flags, aclck_buffer out,
                                   size_t *needed, aclck_fault *fault);

/* ---- NFSv4 lists: which rights are needed */

/* Writes to masks.at[i] the rights of the ACE at place i that are needed, for every ACE, and their number to *needed.
   The list cut to these masks grants everybody the same, and no right can be taken out of it. So all ACEs whose mask is
   0 can be removed together. The first four bytes of a list are the number of its ACEs. ACLCK_DONE (`masks`, *needed),
   ACLCK_REFUSED (*fault), ACLCK_BAD_ARGUMENT, ACLCK_MEMORY, ACLCK_SHORT (*needed). Options: ACLCK_NARROW. */
ACLCK_CALL ACLCK_WRITES(4) ACLCK_WRITES(5)
enum aclck_status aclck_needed(aclck_bytes acl, enum aclck_option options, aclck_masks masks, size_t *needed,
                               aclck_fault *fault);

/* ---- NFSv4 lists: two lists. Options: ACLCK_NARROW. If a call fails, its answer is that they are not the same. */

/* Writes to *same 1 if two lists grant everybody the same, and otherwise 0. ACLCK_DONE, ACLCK_REFUSED (*fault),
   ACLCK_BAD_ARGUMENT, ACLCK_MEMORY. */
ACLCK_CALL ACLCK_WRITES(4) ACLCK_WRITES(5)
enum aclck_status aclck_same(aclck_bytes first, aclck_bytes second, enum aclck_option options, uint32_t *same,
                             aclck_fault *fault);

/* Writes to *difference whether two lists grant everybody the same, and if not, on whom and on what they differ. Where
   they differ, `out` has the owner, the owning group, the user and each group of the user, in this order, each with a
   zero byte after it. At ACLCK_SHORT they also differ: *difference is written, and `out` is not. ACLCK_DONE
   (*difference, `out`), ACLCK_REFUSED (*fault), ACLCK_BAD_ARGUMENT, ACLCK_MEMORY, ACLCK_SHORT (*difference). If it
   fails otherwise, all of *difference is 0. */
ACLCK_CALL ACLCK_WRITES(4) ACLCK_WRITES(6)
enum aclck_status aclck_compare(aclck_bytes first, aclck_bytes second, enum aclck_option options,
                                aclck_difference *difference, aclck_buffer out, aclck_fault *fault);

/* Writes to *difference whether the second list grants everybody whatever the first grants: `same` is then 1. If not,
   `right` is a right that the first list grants somebody and the second does not, `first_grants` is 1, and `out` has
   the names, as aclck_compare() writes them. Everything else is as for aclck_compare(). Two lists grant everybody the
   same if and only if neither grants more than the other. */
ACLCK_CALL ACLCK_WRITES(4) ACLCK_WRITES(6)
enum aclck_status aclck_excess(aclck_bytes first, aclck_bytes second, enum aclck_option options,
                               aclck_difference *difference, aclck_buffer out, aclck_fault *fault);

/* Writes to *difference whether the list grants each of the rights implication->others to everybody to whom it grants
   implication->right: `same` is then 1. If not, `right` of *difference is the lowest of the others that the list denies a
   requester to whom it grants the one right, `first_grants` is 0, and `out` has the names, as aclck_compare() writes
   them. Everything else is as for aclck_compare(). ACLCK_BAD_ARGUMENT also where implication->right is not exactly one
   right, or implication->others is no mask. Options: ACLCK_NARROW. */
ACLCK_CALL ACLCK_READS(2) ACLCK_WRITES(3) ACLCK_WRITES(5)
enum aclck_status aclck_implies(aclck_bytes acl, const aclck_implication *implication, aclck_difference *difference,
                                aclck_buffer out, aclck_fault *fault);

/* ---- Names. No memory. */

/* Writes to *mask which rights a text names: names with `|` between them, or `-` for none. ACLCK_DONE (*mask),
   ACLCK_BAD_ARGUMENT: the text names no mask. */
ACLCK_CALL ACLCK_WRITES(2)
enum aclck_status aclck_read_mask(aclck_bytes text, uint32_t *mask);

/* Writes the names of the rights of `mask`, with `|` between them, or `-` for none. ACLCK_DONE (`out`, *needed),
   ACLCK_BAD_ARGUMENT: a bit is no right, ACLCK_SHORT (*needed). 250 bytes are always enough. */
ACLCK_CALL ACLCK_WRITES(3)
enum aclck_status aclck_mask_text(enum aclck_right mask, aclck_buffer out, size_t *needed);

/* Writes the name of a reason, as the program prints it. ACLCK_DONE (`out`, *needed), ACLCK_BAD_ARGUMENT: no reason has
   this number, ACLCK_SHORT (*needed). 13 bytes are always enough. */
ACLCK_CALL ACLCK_WRITES(3)
enum aclck_status aclck_reason_text(enum aclck_reason reason, aclck_buffer out, size_t *needed);

/* ---- POSIX ACLs: texts as acl(5) and docs/reference/formats.md describe them, with a table of the names that a text
   may use. */

/* Writes to *granted 1 if the access ACL of the text grants what is asked (acl(5), "ACCESS CHECK ALGORITHM"), and
   otherwise 0, also if it fails. ACLCK_DONE, ACLCK_REFUSED (*fault), ACLCK_BAD_ARGUMENT: also an id of 4294967295, or
   `want` above 7, ACLCK_MEMORY. */
ACLCK_CALL ACLCK_READS(1) ACLCK_READS(2) ACLCK_WRITES(3) ACLCK_WRITES(4)
enum aclck_status aclck_posix_check(const aclck_posix_text *text, const aclck_posix_question *question,
                                    uint32_t *granted, aclck_fault *fault);

/* The other calls write their result to the front of `out` and the number of its bytes to *needed. ACLCK_DONE (`out`,
   *needed), ACLCK_REFUSED (*fault), ACLCK_BAD_ARGUMENT, ACLCK_MEMORY, ACLCK_SHORT (*needed). */

/* The text of the ACLs in one form. The short text has a line feed after it. Options: ACLCK_CANONICAL, ACLCK_FORM_SHOWN
   or ACLCK_FORM_SHORT. */
ACLCK_CALL ACLCK_READS(1) ACLCK_WRITES(4) ACLCK_WRITES(5)
enum aclck_status aclck_posix_show(const aclck_posix_text *text, enum aclck_option options, aclck_buffer out,
                                   size_t *needed, aclck_fault *fault);

/* The canonical text after the mask of the access ACL is calculated. */
ACLCK_CALL ACLCK_READS(1) ACLCK_WRITES(3) ACLCK_WRITES(4)
enum aclck_status aclck_posix_calc_mask(const aclck_posix_text *text, aclck_buffer out, size_t *needed,
                                        aclck_fault *fault);

/* The canonical text after the mode of the access ACL is set. ACLCK_BAD_ARGUMENT also where `mode` is above 0777. */
ACLCK_CALL ACLCK_READS(1) ACLCK_WRITES(4) ACLCK_WRITES(5)
enum aclck_status aclck_posix_chmod(const aclck_posix_text *text, uint32_t mode, aclck_buffer out, size_t *needed,
                                    aclck_fault *fault);

/* The canonical text of a new object in a directory with this text. ACLCK_BAD_ARGUMENT also where the mode or the umask
   is above 0777. */
ACLCK_CALL ACLCK_READS(1) ACLCK_READS(2) ACLCK_WRITES(4) ACLCK_WRITES(5)
enum aclck_status aclck_posix_create(const aclck_posix_text *text, const aclck_creation *creation, aclck_buffer out,
                                     size_t *needed, aclck_fault *fault);

/* The bytes of the NFSv4 list that grants the same single permissions as the access ACL of the text. ACLCK_REFUSED also
   with ACLCK_LIMITS. */
ACLCK_CALL ACLCK_READS(1) ACLCK_WRITES(3) ACLCK_WRITES(4)
enum aclck_status aclck_posix_bridge(const aclck_posix_text *text, aclck_buffer out, size_t *needed,
                                     aclck_fault *fault);

/* ---- POSIX ACLs: entries, and the extended attributes of Linux. At ACLCK_REFUSED the reason is ACLCK_TAG, ACLCK_ID or
   ACLCK_PERMISSION if an entry is none, and otherwise ACLCK_ORDER, ACLCK_MULTI, ACLCK_DUPLICATE or ACLCK_MISS. */

/* These three calls, which a server makes for each request, take entries in canonical order: USER_OBJ, USER by rising
   id, GROUP_OBJ, GROUP by rising id, MASK, OTHER. ACLCK_REFUSED with ACLCK_ORDER where an entry is not in its place. The
   question is that of aclck_posix_check(). If they fail, their answer is 0. ACLCK_DONE, ACLCK_REFUSED (*fault),
   ACLCK_BAD_ARGUMENT. No memory. */

/* Writes to *granted 1 if the entries grant what is asked (acl(5), "ACCESS CHECK ALGORITHM"), and otherwise 0. */
ACLCK_CALL ACLCK_READS(2) ACLCK_WRITES(3) ACLCK_WRITES(4)
enum aclck_status aclck_entries_check(aclck_entries entries, const aclck_posix_question *question, uint32_t *granted,
                                      aclck_fault *fault);

/* Writes to *decision which entry decides. */
ACLCK_CALL ACLCK_READS(2) ACLCK_WRITES(3) ACLCK_WRITES(4)
enum aclck_status aclck_entries_deciding(aclck_entries entries, const aclck_posix_question *question,
                                         aclck_posix_decision *decision, aclck_fault *fault);

/* Writes the mode of the entries to *mode. */
ACLCK_CALL ACLCK_WRITES(2) ACLCK_WRITES(3)
enum aclck_status aclck_entries_mode(aclck_entries entries, uint32_t *mode, aclck_fault *fault);

/* Writes to *difference whether the first entries grant nobody more than the second, and otherwise to whom and what:
   some requester, and the lowest number of `want` for which there is one. Both must be in canonical order. fault->list
   is 1 if the second are refused. All of *difference is 0 if the call fails. ACLCK_DONE, ACLCK_REFUSED (*fault). No
   memory. */
ACLCK_CALL ACLCK_WRITES(3) ACLCK_WRITES(4)
enum aclck_status aclck_entries_excess(aclck_entries first, aclck_entries second, aclck_posix_difference *difference,
                                       aclck_fault *fault);

/* The other calls take entries in any order. They write their result to the front of `out`, entries in canonical order,
   and the number of its entries or bytes to *needed. ACLCK_DONE (`out`, *needed), ACLCK_REFUSED (*fault),
   ACLCK_BAD_ARGUMENT, ACLCK_MEMORY, ACLCK_SHORT (*needed). */

/* The entries, if they are a valid ACL. With ACLCK_ADD_MASK, entries with a USER or a GROUP and without a MASK get the
   MASK that setfacl(1) adds: the permissions of all USER, GROUP_OBJ and GROUP entries. Options: ACLCK_ADD_MASK. */
ACLCK_CALL ACLCK_WRITES(4) ACLCK_WRITES(5)
enum aclck_status aclck_entries_sorted(aclck_entries entries, enum aclck_option options, aclck_entry_buffer out,
                                       size_t *needed, aclck_fault *fault);

/* The entries after the mode is set. ACLCK_BAD_ARGUMENT where `mode` is above 0777. */
ACLCK_CALL ACLCK_WRITES(4) ACLCK_WRITES(5)
enum aclck_status aclck_entries_chmod(aclck_entries entries, uint32_t mode, aclck_entry_buffer out, size_t *needed,
                                      aclck_fault *fault);

/* The entries after the mask is calculated. */
ACLCK_CALL ACLCK_WRITES(3) ACLCK_WRITES(4)
enum aclck_status aclck_entries_calc_mask(aclck_entries entries, aclck_entry_buffer out, size_t *needed,
                                          aclck_fault *fault);

/* The access ACL of a new object in a directory with this default ACL. A new directory also gets the default ACL
   itself. ACLCK_BAD_ARGUMENT where the mode or the umask is above 0777, or the options of `creation` are not ACLCK_FILE
   or ACLCK_DIRECTORY. */
ACLCK_CALL ACLCK_READS(2) ACLCK_WRITES(4) ACLCK_WRITES(5)
enum aclck_status aclck_entries_create(aclck_entries dflt, const aclck_creation *creation, aclck_entry_buffer out,
                                       size_t *needed, aclck_fault *fault);

/* The bytes of the NFSv4 list that grants the same single permissions as the entries. ACLCK_REFUSED also with
   ACLCK_LIMITS. */
ACLCK_CALL ACLCK_WRITES(3) ACLCK_WRITES(4)
enum aclck_status aclck_entries_bridge(aclck_entries entries, aclck_buffer out, size_t *needed, aclck_fault *fault);

/* The entries of the POSIX ACL of an NFSv4 list, and what is lost with it. Whoever owns the object, the ACL never
   grants more than the list: read only where the list grants READ_DATA, write only where it grants WRITE_DATA and
   APPEND_DATA, execute only where it grants EXECUTE. By POSIX, write on a directory is also the right to remove what is
   in it: DELETE_CHILD is not asked for. ACEs with INHERIT_ONLY do not count. The ids of names are as for
   aclck_prepare_ids(), and so is ACLCK_UNKNOWN_NAME. ACLCK_REFUSED also where the bytes are no list, and with
   ACLCK_LIMITS where the list names more than `most` users and groups in ACEs that count and have a right that becomes
   read, write or execute: the time grows with the cube of their number. ACLCK_BAD_ARGUMENT where `most` is above 65535,
   or the names make no table. *loss is also written at ACLCK_SHORT; if the call fails otherwise, all of it is 0. */
ACLCK_CALL ACLCK_READS(2) ACLCK_WRITES(5) ACLCK_WRITES(6) ACLCK_WRITES(7)
enum aclck_status aclck_to_posix(aclck_bytes acl, const aclck_names *names, uint32_t most, aclck_entry_buffer out,
                                 size_t *needed, aclck_posix_loss *loss, aclck_fault *fault);

/* The entries of the extended attribute system.posix_acl_access or system.posix_acl_default, in version 2. No entries
   (*needed is 0) mean that the file has no such ACL. ACLCK_REFUSED also with ACLCK_SIZE or ACLCK_VERSION_2, and with
   ACLCK_ORDER where the tags are not in canonical order, as the kernel requires. */
ACLCK_CALL ACLCK_WRITES(3) ACLCK_WRITES(4)
enum aclck_status aclck_entries_from_attribute(aclck_bytes attribute, aclck_entry_buffer out, size_t *needed,
                                               aclck_fault *fault);

/* The entries of the ACL that value->text spells in the form. No entries (*needed is 0) mean that the text has no
   default ACL. In a text, a user or group is an id, a name with an id at the end of its entry, or one of value->names.
   ACLCK_POSIX_GNU_STYLE has no effect. An attribute may have the ids of users and of groups in any order, but no id
   where none belongs, and it has entries. ACLCK_REFUSED with the reasons of aclck_read_form(), and fault->offset is the
   place of a byte. ACLCK_BAD_ARGUMENT also where the names make no table. */
ACLCK_CALL ACLCK_READS(1) ACLCK_WRITES(4) ACLCK_WRITES(5)
enum aclck_status aclck_entries_from_form(const aclck_posix_text *value, enum aclck_posix_form form,
                                          aclck_entry_buffer out, size_t *needed, aclck_fault *fault);

/* The value of the entries in the form. In a text, the first row of `names` with an id has the name that is written,
   and an id without a row is written as a number. The texts of both ACLs are written alike: for star and bsdtar with
   commas, the three base entries first, and the id after the permissions where a name is written; with
   ACLCK_POSIX_GNU_STYLE with a line for each entry, in canonical order, and names without ids. GNU tar reads two
   backslashes in a name as one, and a backslash with three octal digits as another byte, so give it names that are
   spelled in this way. aclck_entries_from_form() reads the value as the same entries, for GNU tar with the same names.
   ACLCK_REFUSED also where a text cannot hold an entry: ACLCK_SEPARATOR and ACLCK_TOO_LONG for its name, and for star
   ACLCK_ID where libarchive does not keep its id. ACLCK_BAD_ARGUMENT also for ACLCK_POSIX_DEFAULT_OF_TEXT, and where
   the names make no table. */
ACLCK_CALL ACLCK_READS(2) ACLCK_WRITES(5) ACLCK_WRITES(6)
enum aclck_status aclck_entries_to_form(aclck_entries entries, const aclck_names *names, enum aclck_posix_form form,
                                        aclck_buffer out, size_t *needed, aclck_fault *fault);

/* The bytes of the extended attribute with these entries. */
ACLCK_CALL ACLCK_WRITES(3) ACLCK_WRITES(4)
enum aclck_status aclck_entries_to_attribute(aclck_entries entries, aclck_buffer out, size_t *needed,
                                             aclck_fault *fault);

/* ---- The library */

/* Returns the version of the library: major * 65536 + minor * 256 + patch. No memory. */
uint32_t aclck_version(void);

/* ---- Values */

/* Returns these bytes. `at` may be NULL if `len` is 0. */
static inline aclck_bytes aclck_bytes_of(const void *at, size_t len) {
    aclck_bytes bytes;
    bytes.at = at ? at : "";
    bytes.len = len;
    return bytes;
}

/* Returns the bytes of a string, without the zero byte at its end. */
static inline aclck_bytes aclck_string(const char *string) {
    aclck_bytes bytes;
    bytes.at = string;
    bytes.len = 0;
    while (string[bytes.len])
        bytes.len++;
    return bytes;
}

/* Returns this buffer. `at` may be NULL if `cap` is 0. */
static inline aclck_buffer aclck_buffer_of(void *at, size_t cap) {
    static char none;
    aclck_buffer buffer;
    buffer.at = at ? at : &none;
    buffer.cap = cap;
    return buffer;
}

/* Returns this user, who is in these groups. `groups` may be NULL if `ngroups` is 0. */
static inline aclck_requester aclck_requester_of(aclck_bytes user, const aclck_bytes *groups, size_t ngroups) {
    static const aclck_bytes none = {"", 0};
    aclck_requester requester;
    requester.user = user;
    requester.groups = groups ? groups : &none;
    requester.ngroups = ngroups;
    return requester;
}

#ifdef __cplusplus
}

/* Sums of rights, of flags, of permissions and of options. */
static inline enum aclck_right operator|(enum aclck_right a, enum aclck_right b) {
    return (enum aclck_right)((uint32_t)a | (uint32_t)b);
}
static inline enum aclck_flag operator|(enum aclck_flag a, enum aclck_flag b) {
    return (enum aclck_flag)((uint32_t)a | (uint32_t)b);
}
static inline enum aclck_permission operator|(enum aclck_permission a, enum aclck_permission b) {
    return (enum aclck_permission)((uint32_t)a | (uint32_t)b);
}
static inline enum aclck_option operator|(enum aclck_option a, enum aclck_option b) {
    return (enum aclck_option)((uint32_t)a | (uint32_t)b);
}
#endif

#endif
