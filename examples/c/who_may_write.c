/* Prints who may write a file according to its NFSv4 list, and whether one user may.
 *
 *     who_may_write FILE [OWNER GROUP USER [GROUP..]]
 *
 * The list is the attribute system.nfs4_acl of the file, which an NFSv4 mount shows, or standard input for `-`. The
 * program first prints the ACEs that decide about WRITE_DATA, in order: for each person the first line that names the
 * person counts.
 */
#include <aclck.h>
#include <stdio.h>
#include <stdlib.h>
#include <string.h>
#include <sys/xattr.h>

enum { LIST = 65536 };

static unsigned char list[LIST + 1];

static int say_no_memory(void) {
    fprintf(stderr, "no memory is left\n");
    return 4;
}

static int refuse(const aclck_fault *fault) {
    char name[16];
    size_t len = 0;
    if (aclck_reason_text(fault->reason, aclck_buffer_of(name, sizeof name), &len))
        len = 0;
    fprintf(stderr, "the list is refused: %.*s at byte %llu\n", (int)len, name, (unsigned long long)fault->offset);
    return 2;
}

static int print_writers(aclck_bytes acl) {
    aclck_question question = {ACLCK_WRITE_DATA, ACLCK_FULL};
    aclck_fault fault;
    size_t needed = 0;
    char *text = NULL;
    enum aclck_status status = aclck_table(acl, &question, aclck_buffer_of(NULL, 0), &needed, &fault);
    if (status == ACLCK_SHORT && (text = malloc(needed)) != NULL)
        status = aclck_table(acl, &question, aclck_buffer_of(text, needed), &needed, &fault);
    if (text && !status)
        fwrite(text, 1, needed, stdout);
    free(text);
    if (status == ACLCK_REFUSED)
        return refuse(&fault);
    return status ? say_no_memory() : 0;
}

/* Every group counts: a DENY may name the last one. */
static int print_answer(aclck_bytes acl, char **names, size_t ngroups) {
    aclck_object object = {aclck_string(names[0]), aclck_string(names[1])};
    aclck_question question = {ACLCK_WRITE_DATA, ACLCK_FULL};
    aclck_bytes *groups = malloc((ngroups + 1) * sizeof *groups);
    aclck_requester requester = {aclck_string(names[2]), groups, ngroups};
    aclck_fault fault;
    uint32_t granted;
    enum aclck_status status;
    if (!groups)
        return say_no_memory();
    for (size_t i = 0; i < ngroups; i++)
        groups[i] = aclck_string(names[3 + i]);
    status = aclck_check(acl, &object, &requester, &question, &granted, &fault);
    free(groups);
    if (status == ACLCK_REFUSED)
        return refuse(&fault);
    if (status) {
        fprintf(stderr, "a name is empty\n");
        return 3;
    }
    printf("%s %s write\n", names[2], granted ? "may" : "may not");
    return !granted;
}

int main(int argc, char **argv) {
    long len;
    int status;
    if (argc < 2 || (argc > 2 && argc < 5)) {
        fprintf(stderr, "usage: who_may_write FILE [OWNER GROUP USER [GROUP..]]\n");
        return 3;
    }
    len = strcmp(argv[1], "-") ? (long)getxattr(argv[1], "system.nfs4_acl", list, sizeof list)
                               : (long)fread(list, 1, sizeof list, stdin);
    if (len < 0 || ferror(stdin)) {
        perror(argv[1]);
        return 4;
    }
    if (len > LIST) {
        fprintf(stderr, "the list has more than %d bytes\n", LIST);
        return 2;
    }
    status = print_writers(aclck_bytes_of(list, (size_t)len));
    if (status == 0 && argc > 2)
        status = print_answer(aclck_bytes_of(list, (size_t)len), argv + 2, (size_t)argc - 5);
    return fflush(stdout) ? 4 : status;
}
