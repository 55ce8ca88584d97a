/* Runs the pieces of C that docs/reference/c.md shows, with each status that their calls can return. tests/library
   writes each piece into pieces.h, as a function piece_CALL that begins with the declarations of the first piece. A
   call writes its fault at ACLCK_REFUSED alone, so complain() must see zeros at every other status. Under valgrind it
   must not read what nobody wrote. */
#include <stdio.h>
#include <stdlib.h>
#include <string.h>

#include "aclck.h"

/* What the pieces take as given, and what their constants mean, for the status that a run asks for. */
static aclck_bytes list, acl;
static aclck_name rows[2];
static uint32_t groups[] = {20, 30};
static char *out;
static size_t room_for_bytes, cap;
static int options, form, flag, tag, permission;
static int refuses_memory;

/* The statuses that the calls of a run returned, one bit each, and how often a piece complained. */
static unsigned statuses;
static int complaints;

void *__real_malloc(size_t size);
void *__real_realloc(void *old, size_t size);
void *__wrap_malloc(size_t size);
void *__wrap_realloc(void *old, size_t size);

void *__wrap_malloc(size_t size) {
    return refuses_memory ? NULL : __real_malloc(size);
}

void *__wrap_realloc(void *old, size_t size) {
    return refuses_memory ? NULL : __real_realloc(old, size);
}

static enum aclck_status seen(enum aclck_status status) {
    statuses |= 1u << status;
    return status;
}

/* Reads all of the fault. Its reason must be 0 unless a call refused its input. */
static int complain(const aclck_fault *fault) {
    const int is_refused = (statuses >> ACLCK_REFUSED & 1) != 0;
    complaints++;
    if ((fault->reason != 0) != is_refused)
        abort();
    if (!is_refused && (fault->offset || fault->line || fault->column || fault->list || fault->part || fault->tag))
        abort();
    return -1;
}

#define ACLCK_FULL ((enum aclck_option)options)
#define ACLCK_NFS_TOOLS_FILE ((enum aclck_form)form)
#define ACLCK_IDENTIFIER_GROUP ((enum aclck_flag)flag)
#define ACLCK_TAG_USER ((enum aclck_tag)tag)
#define ACLCK_PERM_READ ((enum aclck_permission)permission)
#define aclck_check(...) seen(aclck_check(__VA_ARGS__))
#define aclck_prepare(...) seen(aclck_prepare(__VA_ARGS__))
#define aclck_decide_prepared(...) seen(aclck_decide_prepared(__VA_ARGS__))
#define aclck_prepare_ids(...) seen(aclck_prepare_ids(__VA_ARGS__))
#define aclck_decide_ids(...) seen(aclck_decide_ids(__VA_ARGS__))
#define aclck_next(...) seen(aclck_next(__VA_ARGS__))
#define aclck_build(...) seen(aclck_build(__VA_ARGS__))
#define aclck_read_form(...) seen(aclck_read_form(__VA_ARGS__))
#define aclck_entries_check(...) seen(aclck_entries_check(__VA_ARGS__))
#define aclck_to_posix(...) seen(aclck_to_posix(__VA_ARGS__))
#define aclck_show(...) seen(aclck_show(__VA_ARGS__))
#include "pieces.h"

/* The first call of each piece, the statuses that it can return, and whether the piece complains of a failure. */
static const struct piece {
    int (*run)(void);
    const char *call;
    const char *statuses;
    int complains;
} pieces[] = {
    {piece_check, "check", "023", 1},
    {piece_prepare, "prepare", "02345", 1},
    {piece_prepare_ids, "prepare_ids", "02345", 1},
    {piece_next, "next", "023", 0},
    {piece_build, "build", "02345", 0},
    {piece_read_form, "read_form", "02345", 1},
    {piece_entries_check, "entries_check", "023", 1},
    {piece_to_posix, "to_posix", "02345", 1},
    {piece_show, "show", "02345", 0},
};

/* The list of one ACE that lets alice write, such a list whose mask has a bit that is no right, and one with an ACE for
   each of many users, whose names are ids. */
static const char alice[] = "\0\0\0\1\0\0\0\0\0\0\0\0\0\0\0\2\0\0\0\5alice\0\0";
static const char no_list[] = "\0\0\0\1\0\0\0\0\0\0\0\0\0\0\10\0\0\0\0\5alice\0\0";
enum { USERS = 100, ACE = 20 };
static unsigned char many[4 + USERS * ACE];

static void make_many(void) {
    many[3] = USERS;
    for (int i = 0; i < USERS; i++) {
        char digits[5];
        unsigned char *ace = many + 4 + i * ACE;
        snprintf(digits, sizeof digits, "%d", 2000 + i);
        ace[11] = 1;
        ace[15] = 4;
        memcpy(ace + 16, digits, 4);
    }
}

/* Leaves numbers on the stack where a piece will have its variables. */
static void leave_numbers(void) {
    volatile unsigned char waste[16384];
    for (size_t i = 0; i < sizeof waste; i++)
        waste[i] = 0xa5;
}

/* Runs a piece so that one of its calls must return the status, and returns whether one did. */
static int reaches(const struct piece *piece, enum aclck_status status) {
    static unsigned char copy[sizeof many];
    const int is_refused = status == ACLCK_REFUSED, is_bad = status == ACLCK_BAD_ARGUMENT;
    const void *bytes = status == ACLCK_SHORT ? (const void *)many : is_refused ? no_list : alice;
    list.len = status == ACLCK_SHORT ? sizeof many : sizeof alice;
    list.at = memcpy(copy, bytes, list.len);
    acl = list;
    rows[0] = (aclck_name){aclck_string("alice"), 1001, 0};
    rows[1] = (aclck_name){aclck_string("editors"), 30, is_bad ? 2 : 1};
    room_for_bytes = cap = status == ACLCK_SHORT ? 1 : 512;
    free(out);
    out = __real_malloc(cap);
    options = is_bad ? 0x00400000 : 0;
    form = is_bad ? 99 : is_refused ? 3 : 1;
    flag = is_refused ? 0x100 : 0x40;
    tag = is_refused ? 9 : 2;
    permission = is_bad ? 8 : 4;
    statuses = 0;
    complaints = 0;
    refuses_memory = status == ACLCK_MEMORY;
    leave_numbers();
    piece->run();
    refuses_memory = 0;
    return (statuses >> status & 1) != 0 && (status == ACLCK_DONE ? complaints == 0 : complaints == piece->complains);
}

int main(void) {
    static const enum aclck_status all[] = {ACLCK_DONE, ACLCK_REFUSED, ACLCK_BAD_ARGUMENT, ACLCK_MEMORY, ACLCK_SHORT};
    int failed = 0, count = 0;
    make_many();
    for (size_t i = 0; i < sizeof pieces / sizeof *pieces; i++)
        for (size_t k = 0; k < sizeof all / sizeof *all; k++) {
            const char *digit = strchr(pieces[i].statuses, '0' + (int)all[k]);
            if (!digit)
                continue;
            count++;
            if (!reaches(&pieces[i], all[k])) {
                fprintf(stderr, "docs/reference/c.md: the piece with aclck_%s at status %d\n", pieces[i].call,
                        (int)all[k]);
                failed = 1;
            }
        }
    free(out);
    fprintf(stderr, "library: %d runs of %d pieces of docs/reference/c.md\n", count,
            (int)(sizeof pieces / sizeof *pieces));
    return failed;
}
