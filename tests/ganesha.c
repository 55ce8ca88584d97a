/* Answers questions about access with FSAL/access_check.c of nfs-ganesha, for tests/peers. A question is a line of
 * numbers:
 *
 *     TYPE OWNER GROUP  UID GID NGROUPS GROUP..  SUPERUSER  ACCESS PLACES  NACES {TYPE PERM FLAG IFLAG WHO}..
 *
 * TYPE is 1 for a directory. ACCESS is what fsal_test_access() is asked, and PLACES says whether it gets places for
 * what is allowed and denied. The answer is a line: the error, what is allowed, what is denied.
 */
#include "config.h"

#include "fsal.h"
#include "nfs4_acls.h"
#include "os/subr.h"
#include <stdarg.h>
#include <stdio.h>

enum { MOST = 4096 };

static struct fsal_attrlist object;
static bool is_super;

/* What access_check.c needs of the server. */
__thread struct req_op_context *op_ctx;
log_levels_t *component_log_level;

void DisplayLogComponentLevel(log_components_t component, const char *file, int line, const char *function,
                              log_levels_t level, const char *format, ...)
{
    va_list words;

    (void)component, (void)file, (void)line, (void)level;
    va_start(words, format);
    fprintf(stderr, "%s: ", function);
    vfprintf(stderr, format, words);
    fputc('\n', stderr);
    va_end(words);
}
int display_vprintf(struct display_buffer *dspbuf, const char *fmt, va_list args)
{
    return (void)dspbuf, (void)fmt, (void)args, 0;
}
int display_len_cat(struct display_buffer *dspbuf, const char *str, int len)
{
    return (void)dspbuf, (void)str, (void)len, 0;
}
void nfs4_acl_release_entry(fsal_acl_t *acl)
{
    (void)acl;
}
void nfs4_fs_locations_release(fsal_fs_locations_t *locations)
{
    (void)locations;
}
int set_threadgroups(size_t size, const gid_t *list)
{
    return (void)size, (void)list, 0;
}
void setuser(uid_t uid)
{
    (void)uid;
}
void setgroup(gid_t gid)
{
    (void)gid;
}

static fsal_status_t getattrs(struct fsal_obj_handle *handle, struct fsal_attrlist *attrs)
{
    (void)handle;
    *attrs = object;
    return fsalstat(ERR_FSAL_NO_ERROR, 0);
}
static attrmask_t supported(struct fsal_export *export)
{
    return (void)export, ~(attrmask_t)0;
}
static bool superuser(struct fsal_export *export, const struct user_cred *creds)
{
    return (void)export, (void)creds, is_super;
}

static uint32_t number(void)
{
    unsigned long read;

    if (scanf("%lu", &read) != 1)
        exit(ferror(stdin) ? 1 : 0);
    return read;
}

static void read_question(fsal_acl_t *acl, struct user_cred *creds, fsal_accessflags_t *access, bool *has_places)
{
    object.type = number() ? DIRECTORY : REGULAR_FILE;
    object.owner = number();
    object.group = number();
    creds->caller_uid = number();
    creds->caller_gid = number();
    creds->caller_glen = number();
    for (uint32_t i = 0; i < creds->caller_glen && i < MOST; i++)
        creds->caller_garray[i] = number();
    is_super = number();
    *access = number();
    *has_places = number();
    acl->naces = number();
    for (uint32_t i = 0; i < acl->naces && i < MOST; i++) {
        fsal_ace_t *ace = &acl->aces[i];

        ace->type = number();
        ace->perm = number();
        ace->flag = number();
        ace->iflag = number();
        ace->who.uid = number();
    }
}

int main(void)
{
    static fsal_ace_t aces[MOST];
    static gid_t groups[MOST];
    static log_levels_t levels[COMPONENT_COUNT];
    static struct fsal_export export;
    static struct req_op_context context;
    fsal_acl_t acl = {.aces = aces};
    struct fsal_obj_ops operations = {.getattrs = getattrs};
    struct fsal_obj_handle handle = {.obj_ops = &operations};

    component_log_level = levels;
    for (int i = 0; i < COMPONENT_COUNT; i++)
        levels[i] = NIV_CRIT;
    export.exp_ops.fs_supported_attrs = supported;
    export.exp_ops.is_superuser = superuser;
    context.fsal_export = &export;
    context.creds.caller_garray = groups;
    op_ctx = &context;
    object.acl = &acl;
    for (;;) {
        fsal_accessflags_t access, allowed = 0, denied = 0;
        fsal_status_t status;
        bool has_places;

        read_question(&acl, &context.creds, &access, &has_places);
        status = fsal_test_access(&handle, access, has_places ? &allowed : NULL, has_places ? &denied : NULL, false);
        printf("%d %u %u\n", status.major, (unsigned)allowed, (unsigned)denied);
    }
}
