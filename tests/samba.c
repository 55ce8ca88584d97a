/* Tests examples/samba for tests/peers. In each row the rights are those of the first match (RFC 8881, section 6.2.1). */
#include "smb4acl.h"
#include <stdio.h>

enum { READ = ACLCK_READ_DATA, WRITE = ACLCK_WRITE_DATA, ALLOW = 0, DENY = 1, AUDIT = 2, INTERACTIVE = 4, MOST = 4 };
#define USER(id) 0, {.uid = (id)}
#define SPECIAL(id) SMB4_SPECIAL, {.special_id = (id)}
#define GROUP ACLCK_IDENTIFIER_GROUP

/* The object has the owner 7 and the group 8. The requester is in the groups 8 and 4294967294, or in none. */
static const struct row {
    const char *name;
    smb4_ace aces[MOST];
    uint32_t naces, uid, is_member, granted;
} rows[] = {
    {"no ACE", {{0}}, 0, 7, 1, 0},
    {"everyone", {{SPECIAL(SMB4_EVERYONE), ALLOW, 0, READ | WRITE}}, 1, 5, 0, READ | WRITE},
    {"the first ACE decides",
     {{USER(5), DENY, 0, WRITE}, {SPECIAL(SMB4_EVERYONE), ALLOW, 0, READ | WRITE}}, 2, 5, 0, READ},
    {"the owner", {{SPECIAL(SMB4_OWNER), ALLOW, 0, READ}}, 1, 7, 0, READ},
    {"not the owner", {{SPECIAL(SMB4_OWNER), ALLOW, 0, READ}}, 1, 70, 0, 0},
    {"the owning group", {{SPECIAL(SMB4_GROUP), ALLOW, 0, READ}}, 1, 5, 1, READ},
    {"not in the owning group", {{SPECIAL(SMB4_GROUP), ALLOW, 0, READ}}, 1, 5, 0, 0},
    {"a group", {{USER(4294967294u), ALLOW, GROUP, READ}}, 1, 5, 1, READ},
    {"a group has the id of the user", {{USER(5), ALLOW, GROUP, READ}}, 1, 5, 1, 0},
    {"a user has the id of the group", {{USER(8), ALLOW, 0, READ}}, 1, 5, 1, 0},
    {"for children only", {{USER(5), ALLOW, ACLCK_FILE_INHERIT | ACLCK_INHERIT_ONLY, READ}}, 1, 5, 0, 0},
    {"AUDIT decides nothing", {{USER(5), AUDIT, 0x10, READ}, {USER(5), ALLOW, 0, READ}}, 2, 5, 0, READ},
    {"other special identifiers decide nothing",
     {{SPECIAL(INTERACTIVE), DENY, 0, READ}, {USER(5), ALLOW, 0, READ}, {SPECIAL(0), DENY, 0, READ}}, 3, 5, 0, READ},
    {"bits that are no rights", {{USER(5), ALLOW, 0, 0xffffffff}}, 1, 5, 0, READ | WRITE},
};

int main(void)
{
    static const gid_t groups[] = {8, 4294967294u};
    int wrong = 0;

    for (size_t i = 0; i < sizeof rows / sizeof *rows; i++) {
        const struct row *row = &rows[i];
        unsigned char room[SMB4_LIST_ROOM(MOST)];
        aclck_bytes list = smb4_list(row->aces, row->naces, room);
        smb4_token token = {row->uid, groups, row->is_member ? 2 : 0};
        uint32_t granted = 1;
        enum aclck_status status = smb4_granted(list, 7, 8, &token, (enum aclck_right)(READ | WRITE), &granted);

        if (status || granted != row->granted) {
            printf("%s: status %d, rights %#x\n", row->name, status, granted);
            wrong = 1;
        }
        if (smb4_granted(list, 7, 8, &token, (enum aclck_right)0x800, &granted) != ACLCK_BAD_ARGUMENT || granted) {
            printf("%s: a bit that is no right is asked\n", row->name);
            wrong = 1;
        }
    }
    return wrong;
}
