/* A library to preload into nfs4_getfacl, nfs4_setfacl and aclck-tree. They use attributes such as `system.nfs4_acl`,
 * which only an NFSv4 mount has. This library makes them use `user.nfs4_acl` instead, which any file can have, and so
 * on.
 *
 * If the variable ACLCK_VALUE names a file, nfs4_getfacl and nfs4_setfacl use what is in that file: a file system may
 * keep no attribute that is as long as a list.
 */
#define _GNU_SOURCE
#include <dlfcn.h>
#include <fcntl.h>
#include <stdlib.h>
#include <string.h>
#include <sys/stat.h>
#include <sys/types.h>
#include <unistd.h>

static int is_list(const char *name)
{
    return strcmp(name, "system.nfs4_acl") == 0;
}

static const char *local(const char *name)
{
    if (strcmp(name, "system.nfs4_dacl") == 0)
        return "user.nfs4_dacl";
    if (strcmp(name, "system.nfs4_acl_xdr") == 0)
        return "user.nfs4_acl_xdr";
    return is_list(name) ? "user.nfs4_acl" : name;
}

static ssize_t stored(const char *path, void *value, size_t size)
{
    struct stat status;
    int file = open(path, O_RDONLY | O_CLOEXEC);
    ssize_t length;
    if (file < 0 || fstat(file, &status) != 0)
        return -1;
    length = size == 0 ? (ssize_t)status.st_size : read(file, value, size);
    close(file);
    return length;
}

static int store(const char *path, const void *value, size_t size)
{
    int file = open(path, O_WRONLY | O_CREAT | O_TRUNC | O_CLOEXEC, 0600);
    int is_whole = write(file, value, size) == (ssize_t)size;
    return close(file) == 0 && is_whole ? 0 : -1;
}

ssize_t getxattr(const char *path, const char *name, void *value, size_t size)
{
    ssize_t (*next)(const char *, const char *, void *, size_t) = dlsym(RTLD_NEXT, "getxattr");
    const char *file = getenv("ACLCK_VALUE");
    return file != NULL && is_list(name) ? stored(file, value, size) : next(path, local(name), value, size);
}

ssize_t lgetxattr(const char *path, const char *name, void *value, size_t size)
{
    ssize_t (*next)(const char *, const char *, void *, size_t) = dlsym(RTLD_NEXT, "lgetxattr");
    return next(path, local(name), value, size);
}

int setxattr(const char *path, const char *name, const void *value, size_t size, int flags)
{
    int (*next)(const char *, const char *, const void *, size_t, int) = dlsym(RTLD_NEXT, "setxattr");
    const char *file = getenv("ACLCK_VALUE");
    return file != NULL && is_list(name) ? store(file, value, size) : next(path, local(name), value, size, flags);
}
