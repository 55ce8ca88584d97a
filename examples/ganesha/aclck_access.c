/* The access check of nfs-ganesha 4.3 with libaclck, in place of its own walk over the ACEs of a list.
 *
 * The script `apply` puts this file into the sources of the server, and lets FSAL/access_check.c call it. libaclck
 * answers what a list says. This file has what the server adds to that, as docs/reference/others.md describes it: what
 * a superuser and the owner may do whatever the list says, and which error a refused request gets.
 *
 * Ids are names of decimal digits for the library. Each call makes the bytes of the list again. A server can also keep
 * them: they depend on the ACEs and on whether the object is a directory.
 */
#include "config.h"

#include "fsal.h"
#include <aclck.h>
#include <string.h>

enum {
    OWNER_RIGHTS = FSAL_ACE_PERM_READ_ACL | FSAL_ACE_PERM_WRITE_ACL | FSAL_ACE_PERM_READ_ATTR |
                   FSAL_ACE_PERM_WRITE_ATTR,
    /* If one of these is refused, the error is ERR_FSAL_PERM, unless the server is built with ENABLE_RFC_ACL. */
    PERM_RIGHTS = FSAL_ACE_PERM_WRITE_ATTR | FSAL_ACE_PERM_WRITE_ACL | FSAL_ACE_PERM_WRITE_OWNER,
    DIGITS = 10,  /* of an id of 32 bits */
    ACE = 16 + 12 /* bytes: four words, and a who of at most 12 bytes */
};

/* A list, the object that has it, and who asks. */
struct access {
    aclck_bytes list;
    aclck_object object;
    aclck_requester requester;
};

/* Writes an id to `room`, which has DIGITS bytes, and returns the name. */
static aclck_bytes name_of(char *room, uint32_t id)
{
    size_t at = DIGITS;
    do {
        room[--at] = '0' + id % 10;
        id /= 10;
    } while (id);
    return aclck_bytes_of(room + at, DIGITS - at);
}

/* Returns the who of an ACE. It is empty for any other special identifier: that ACE matches nobody. */
static aclck_bytes who_of(char *room, const fsal_ace_t *ace)
{
    if (!IS_FSAL_ACE_SPECIAL_ID(*ace))
        return name_of(room, GET_FSAL_ACE_WHO(*ace));
    if (IS_FSAL_ACE_SPECIAL_OWNER(*ace))
        return aclck_string("OWNER@");
    if (IS_FSAL_ACE_SPECIAL_GROUP(*ace))
        return aclck_string("GROUP@");
    return aclck_string(IS_FSAL_ACE_SPECIAL_EVERYONE(*ace) ? "EVERYONE@" : "");
}

static bool takes_part(const fsal_ace_t *ace, bool is_directory)
{
    return IS_FSAL_ACE_PERM(*ace) && !IS_FSAL_ACE_INHERIT_ONLY(*ace) &&
           (is_directory ? IS_FSAL_DIR_APPLICABLE(*ace) : IS_FSAL_FILE_APPLICABLE(*ace));
}

static unsigned char *put_word(unsigned char *out, uint32_t word)
{
    for (int shift = 24; shift >= 0; shift -= 8)
        *out++ = word >> shift;
    return out;
}

/* Writes the bytes of an ACE (RFC 8881, section 6.2.1; RFC 4506), and returns where they end. Of the flags only the one
   that says that the who is a group counts for access. */
static unsigned char *put_ace(unsigned char *out, const fsal_ace_t *ace)
{
    char room[DIGITS];
    aclck_bytes who = who_of(room, ace);

    if (!who.len)
        return out;
    out = put_word(out, IS_FSAL_ACE_ALLOW(*ace) ? ACLCK_ALLOW : ACLCK_DENY);
    out = put_word(out, IS_FSAL_ACE_GROUP_ID(*ace) ? ACLCK_IDENTIFIER_GROUP : 0);
    out = put_word(out, ace->perm & ACLCK_ALL_RIGHTS);
    out = put_word(out, who.len);
    memset(out, 0, 12);
    memcpy(out, who.at, who.len);
    return out + (who.len + 3) / 4 * 4;
}

/* Writes the list to `room`, which has 4 bytes and ACE more for each ACE. */
static aclck_bytes list_of(unsigned char *room, const fsal_acl_t *acl, bool is_directory)
{
    unsigned char *end = room + 4;
    uint32_t count = 0;

    for (uint32_t i = 0; i < acl->naces; i++) {
        unsigned char *next = takes_part(&acl->aces[i], is_directory) ? put_ace(end, &acl->aces[i]) : end;
        count += next != end;
        end = next;
    }
    put_word(room, count);
    return aclck_bytes_of(room, end - room);
}

/* Of the rights that are denied, those of the first ACE that denies any. Returns 0 if the library fails. */
static uint32_t first_denied(const struct access *access, uint32_t denied)
{
    uint64_t first = UINT64_MAX;
    uint32_t rights = 0;
    for (uint32_t right = 1; right <= denied; right <<= 1) {
        aclck_question question = {right, ACLCK_FULL};
        aclck_decision decision;
        aclck_fault fault;
        if (!(right & denied) ||
            aclck_deciding(access->list, &access->object, &access->requester, &question, &decision, &fault) ||
            decision.place > first)
            continue;
        rights = decision.place < first ? right : rights | right;
        first = decision.place;
    }
    return rights;
}

/* Asks the library about the rights in `wanted`. *first is what the first ACE denies that denies any of them, if that
   can make the error ERR_FSAL_PERM. Returns whether the library answers. */
static bool decide(struct user_cred *creds, struct fsal_attrlist *attrs, uint32_t wanted, aclck_decided *decided,
                   uint32_t *first)
{
    size_t ngroups = creds->caller_glen + 1, naces = attrs->acl->naces;
    aclck_bytes *groups = gsh_malloc(ngroups * (sizeof(*groups) + DIGITS) + 4 + naces * ACE);
    char *digits = (char *)(groups + ngroups), owner[DIGITS], group[DIGITS], user[DIGITS];
    unsigned char *bytes = (unsigned char *)digits + ngroups * DIGITS;
    aclck_question question = {wanted, ACLCK_FULL};
    aclck_fault fault = {0};
    enum aclck_status status;
    struct access access;

    for (size_t i = 0; i < ngroups; i++)
        groups[i] = name_of(digits + i * DIGITS, i ? creds->caller_garray[i - 1] : creds->caller_gid);
    access.list = list_of(bytes, attrs->acl, attrs->type == DIRECTORY);
    access.object.owner = name_of(owner, attrs->owner);
    access.object.group = name_of(group, attrs->group);
    access.requester = aclck_requester_of(name_of(user, creds->caller_uid), groups, ngroups);
    status = aclck_decide(access.list, &access.object, &access.requester, &question, decided, &fault);
    if (status)
        LogCrit(COMPONENT_NFS_V4_ACL, "libaclck: status %d, reason %u at byte %" PRIu64, status, fault.reason,
                fault.offset);
    *first = decided->denied & PERM_RIGHTS ? first_denied(&access, decided->denied) : 0;
    gsh_free(groups);
    return status == ACLCK_DONE;
}

/* A superuser may do everything, but execute a file only if the list allows that to anybody, whoever it is. */
static uint32_t superuser_rights(const struct fsal_attrlist *attrs)
{
    if (attrs->type == DIRECTORY)
        return ACLCK_ALL_RIGHTS;
    for (uint32_t i = 0; i < attrs->acl->naces; i++) {
        const fsal_ace_t *ace = &attrs->acl->aces[i];
        if (takes_part(ace, false) && IS_FSAL_ACE_ALLOW(*ace) && IS_FSAL_ACE_EXECUTE(*ace))
            return ACLCK_ALL_RIGHTS;
    }
    return ACLCK_ALL_RIGHTS & ~FSAL_ACE_PERM_EXECUTE;
}

static fsal_status_t refused(uint32_t rights)
{
#ifndef ENABLE_RFC_ACL
    if (rights & PERM_RIGHTS)
        return fsalstat(ERR_FSAL_PERM, 0);
#endif
    return fsalstat(ERR_FSAL_ACCESS, 0);
}

/* Checks access by the list of an object. *allowed and *denied, if they are given, are the rights of `v4mask` that are
   allowed and denied. With FSAL_ACE4_REQ_FLAG it is another error if no ACE decides a right than if one denies it. */
fsal_status_t aclck_check_access(struct user_cred *creds, fsal_aceperm_t v4mask, fsal_accessflags_t *allowed,
                                 fsal_accessflags_t *denied, struct fsal_attrlist *attrs)
{
    const uint32_t wanted = v4mask & ACLCK_ALL_RIGHTS;
    aclck_decided decided = {0, 0};
    uint32_t owned = 0, first = 0, undecided;
    bool is_answered = true;

    if (attrs->acl && op_ctx->fsal_export->exp_ops.is_superuser(op_ctx->fsal_export, creds)) {
        decided.allowed = wanted & superuser_rights(attrs);
    } else if (attrs->acl) {
        owned = creds->caller_uid == attrs->owner ? wanted & OWNER_RIGHTS : 0;
        is_answered = decide(creds, attrs, wanted & ~owned, &decided, &first);
        decided.allowed |= is_answered ? owned : 0;
    }
    undecided = wanted & ~decided.allowed & ~decided.denied;
    if (allowed)
        *allowed = decided.allowed;
    if (denied)
        *denied = decided.denied;
    if (!is_answered)
        return fsalstat(ERR_FSAL_SERVERFAULT, 0);
    if (decided.denied && !(denied && (v4mask & FSAL_ACE4_PERM_CONTINUE)))
        return refused(first);
    if (!attrs->acl || (undecided && IS_FSAL_ACE4_REQ(v4mask)))
        return fsalstat(ERR_FSAL_NO_ACE, 0);
    return undecided || decided.denied ? refused(undecided) : fsalstat(ERR_FSAL_NO_ERROR, 0);
}
