/* An NFSv4 list as Samba's modules have it (nfs4_acls.h: SMB4ACL_T), for libaclck. The struct has the fields of Samba's
 * SMB_ACE4PROP_T, with the same numbers. A module copies what smb_get_ace4() returns, or casts the pointer.
 *
 * A list is written to bytes once, for example when it is read from the file system, and asked many times. Ids are
 * names of decimal digits for the library.
 */
#ifndef SMB4ACL_H
#define SMB4ACL_H

#include <aclck.h>
#include <sys/types.h>

/* In `flags`: the who is a special identifier. */
#define SMB4_SPECIAL 0x1u
/* In `who.special_id`. Samba has more special identifiers. It ignores their ACEs, and so does this file. */
enum { SMB4_OWNER = 1, SMB4_GROUP = 2, SMB4_EVERYONE = 3 };

typedef struct smb4_ace {
    uint32_t flags;
    union {
        uid_t uid;
        gid_t gid;
        uint32_t special_id;
    } who;
    uint32_t type;      /* 0 ALLOW, 1 DENY, 2 AUDIT, 3 ALARM */
    uint32_t ace_flags; /* enum aclck_flag */
    uint32_t mask;      /* enum aclck_right */
} smb4_ace;

/* A user with the user's groups, as a security token has them. */
typedef struct smb4_token {
    uid_t uid;
    const gid_t *groups;
    uint32_t ngroups;
} smb4_token;

/* Bytes that a list needs at most. */
#define SMB4_LIST_ROOM(naces) (4 + 28 * (size_t)(naces))

/* Writes the bytes of a list to `out`, which has SMB4_LIST_ROOM(naces) bytes, and returns them. ACEs that have no part
 * in access checks are left out: AUDIT, ALARM, and those of other special identifiers. */
aclck_bytes smb4_list(const smb4_ace *aces, size_t naces, unsigned char *out);

/* Writes to *granted the rights of `mask` that the list grants the user on an object with this owner and this group.
 * What a server adds, such as the rights of an owner or of a privilege, is not in it. If the call fails, no right is
 * granted. ACLCK_DONE, ACLCK_REFUSED, ACLCK_BAD_ARGUMENT, ACLCK_MEMORY. */
ACLCK_MUST_USE enum aclck_status smb4_granted(aclck_bytes list, uid_t owner, gid_t group, const smb4_token *token,
                                              enum aclck_right mask, uint32_t *granted);

#endif
