/* Samba's NFSv4 lists by libaclck: see smb4acl.h. */
#include "smb4acl.h"
#include <stdlib.h>
#include <string.h>

enum { DIGITS = 10 }; /* of an id of 32 bits */

/* Writes an id to `room`, which has DIGITS bytes, and returns the name. */
static aclck_bytes name_of(char *room, uint32_t id)
{
    size_t at = DIGITS;

    do {
        room[--at] = (char)('0' + id % 10);
        id /= 10;
    } while (id);
    return aclck_bytes_of(room + at, DIGITS - at);
}

/* Returns the who of an ACE. It is empty for a special identifier that is left out. */
static aclck_bytes who_of(char *room, const smb4_ace *ace)
{
    static const char *const special[] = {"", "OWNER@", "GROUP@", "EVERYONE@"};

    if (ace->flags & SMB4_SPECIAL)
        return aclck_string(ace->who.special_id <= SMB4_EVERYONE ? special[ace->who.special_id] : "");
    return name_of(room, ace->ace_flags & ACLCK_IDENTIFIER_GROUP ? ace->who.gid : ace->who.uid);
}

static unsigned char *put_word(unsigned char *out, uint32_t word)
{
    for (int shift = 24; shift >= 0; shift -= 8)
        *out++ = (unsigned char)(word >> shift);
    return out;
}

/* Writes the bytes of an ACE (RFC 8881, section 6.2.1; RFC 4506), and returns where they end. */
static unsigned char *put_ace(unsigned char *out, const smb4_ace *ace)
{
    char room[DIGITS];
    aclck_bytes who = who_of(room, ace);

    if (ace->type > ACLCK_DENY || !who.len)
        return out;
    out = put_word(out, ace->type);
    out = put_word(out, ace->ace_flags & 0xff);
    out = put_word(out, ace->mask & ACLCK_ALL_RIGHTS);
    out = put_word(out, (uint32_t)who.len);
    memset(out, 0, 12);
    memcpy(out, who.at, who.len);
    return out + (who.len + 3) / 4 * 4;
}

aclck_bytes smb4_list(const smb4_ace *aces, size_t naces, unsigned char *out)
{
    unsigned char *end = out + 4;
    uint32_t count = 0;

    for (size_t i = 0; i < naces; i++) {
        unsigned char *next = put_ace(end, &aces[i]);

        count += next != end;
        end = next;
    }
    put_word(out, count);
    return aclck_bytes_of(out, (size_t)(end - out));
}

enum aclck_status smb4_granted(aclck_bytes list, uid_t owner, gid_t group, const smb4_token *token,
                               enum aclck_right mask, uint32_t *granted)
{
    char digits[3][DIGITS];
    aclck_object object = {name_of(digits[0], owner), name_of(digits[1], group)};
    aclck_question question = {mask, ACLCK_FULL};
    aclck_bytes *groups = malloc((token->ngroups + (size_t)1) * (sizeof *groups + DIGITS));
    aclck_requester requester;
    aclck_fault fault;
    enum aclck_status status;

    *granted = 0;
    if (!groups)
        return ACLCK_MEMORY;
    for (uint32_t i = 0; i < token->ngroups; i++)
        groups[i] = name_of((char *)(groups + token->ngroups) + (size_t)i * DIGITS, token->groups[i]);
    requester = aclck_requester_of(name_of(digits[2], token->uid), groups, token->ngroups);
    status = aclck_granted(list, &object, &requester, &question, granted, &fault);
    free(groups);
    return status;
}
