/* Times a call of libaclck that reads or writes a list in the form of another system.
 *
 *     forms CALL FORM FILE ROUNDS    prints the status and the reason of the call, how much it wrote, and the least and
 *                                    the median time in microseconds
 *     forms CALL FORM FILE once      makes the call once, in asked(), where a tool counts instructions
 *
 * CALL is `read` (FILE has a value in the form), `write` (FILE has the bytes of a list), `read_attribute` or
 * `write_attribute` (FILE has the attribute of a POSIX ACL) or `read_posix` (FILE has a text of getfacl). FORM is a
 * number of enum aclck_form, and 0 for the last three. Times are those of the thread.
 */
#include "../include/aclck.h"
#include <stdio.h>
#include <stdlib.h>
#include <string.h>
#include <time.h>

enum { MOST_ROUNDS = 1001, MOST = 1 << 26 };

/* What is asked, and room for the answer. */
static struct {
    aclck_bytes value;
    enum aclck_form form;
    aclck_entries entries;
    aclck_buffer out;
    aclck_entry_buffer entries_out;
    size_t needed;
    aclck_fault fault;
} asks;

static enum aclck_status read_value(void)
{
    uint32_t flags;
    return aclck_read_form(asks.value, asks.form, asks.out, &asks.needed, &flags, &asks.fault);
}

static enum aclck_status write_value(void)
{
    return aclck_write_form(asks.value, asks.form, 0, asks.out, &asks.needed, &asks.fault);
}

static enum aclck_status read_attribute(void)
{
    return aclck_entries_from_attribute(asks.value, asks.entries_out, &asks.needed, &asks.fault);
}

static enum aclck_status write_attribute(void)
{
    return aclck_entries_to_attribute(asks.entries, asks.out, &asks.needed, &asks.fault);
}

static enum aclck_status read_posix(void)
{
    static const aclck_name nobody;
    aclck_posix_text text = {asks.value, {&nobody, 0}};
    return aclck_posix_show(&text, ACLCK_CANONICAL, asks.out, &asks.needed, &asks.fault);
}

static const struct {
    const char *name;
    enum aclck_status (*make)(void);
} calls[] = {
    {"read", read_value}, {"write", write_value}, {"read_attribute", read_attribute},
    {"write_attribute", write_attribute}, {"read_posix", read_posix},
};

enum { CALLS = sizeof calls / sizeof *calls };

__attribute__((noinline)) enum aclck_status asked(enum aclck_status (*make)(void))
{
    return make();
}

static void *room(size_t size)
{
    void *made = malloc(size);
    if (!made)
        exit(1);
    return made;
}

static aclck_bytes contents(const char *path)
{
    FILE *file = fopen(path, "rb");
    char *bytes = room(MOST);
    size_t len = file ? fread(bytes, 1, MOST, file) : MOST;
    if (len == MOST) {
        fprintf(stderr, "forms: %s\n", path);
        exit(1);
    }
    fclose(file);
    /* A block of its own length, so that a tool sees a read behind the end. */
    char *kept = room(len + !len);
    memcpy(kept, bytes, len);
    free(bytes);
    return aclck_bytes_of(kept, len);
}

static double now(void)
{
    struct timespec t;
    clock_gettime(CLOCK_THREAD_CPUTIME_ID, &t);
    return (double)t.tv_sec * 1e6 + (double)t.tv_nsec / 1e3;
}

static int by_time(const void *a, const void *b)
{
    return (*(const double *)a > *(const double *)b) - (*(const double *)a < *(const double *)b);
}

static void measure(enum aclck_status (*make)(void), int rounds)
{
    static double took[MOST_ROUNDS];
    enum aclck_status status = ACLCK_DONE;
    char reason[32] = "-";
    size_t length = 0;
    for (int round = 0; round < rounds; round++) {
        double start = now();
        status = asked(make);
        took[round] = now() - start;
    }
    if (status == ACLCK_REFUSED && !aclck_reason_text(asks.fault.reason, (aclck_buffer){reason, 31}, &length))
        reason[length] = 0;
    qsort(took, (size_t)rounds, sizeof *took, by_time);
    printf("%d %s %zu %.1f %.1f\n", (int)status, reason, status ? 0 : asks.needed, took[0], took[rounds / 2]);
}

int main(int argc, char **argv)
{
    int call = 0;
    if (argc < 5)
        return 2;
    while (strcmp(argv[1], calls[call].name))
        if (++call == CALLS)
            return 2;
    asks.form = (enum aclck_form)atoi(argv[2]);
    asks.value = contents(argv[3]);
    asks.out = (aclck_buffer){room(MOST), MOST};
    asks.entries_out = (aclck_entry_buffer){room(MOST), MOST / sizeof(aclck_entry)};
    if (calls[call].make == write_attribute && !read_attribute())
        asks.entries = (aclck_entries){asks.entries_out.at, asks.needed};
    if (!strcmp(argv[4], "once"))
        return asked(calls[call].make) == ACLCK_BAD_ARGUMENT;
    int rounds = atoi(argv[4]);
    measure(calls[call].make, rounds < 1 ? 1 : rounds < MOST_ROUNDS ? rounds : MOST_ROUNDS);
    return 0;
}
