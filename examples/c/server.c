/* The access back end of a file server: eight threads, and a cache of prepared lists.
 *
 *     server SOCKET [u:NAME=ID|g:NAME=ID..]     serves each client of a Unix socket, until standard input ends
 *     server - [u:NAME=ID|g:NAME=ID..]          serves standard input
 *
 * The server knows users and groups by their ids. The words of the command line say which ids the names in the lists
 * have. A name that is a decimal number is that id. A list with any other name is refused.
 *
 * A request is a line, and its reply is a line. OBJECT is a number below 1024. LIST is a file with the bytes of a list.
 * RIGHTS are names of rights with bars between them. Each change of an object gets a number:
 *
 *     make OBJECT file|directory UID GID LIST   change NUMBER
 *     list OBJECT LIST                          change NUMBER
 *     chown OBJECT UID GID                      change NUMBER
 *     access OBJECT UID GID[,GID..] RIGHTS      those of the rights that are granted, and the last change of the object
 *
 * No client can stop the server for others. A thread takes a client that has sent something, answers its whole lines,
 * and waits for nobody: neither for the rest of a line, nor for a client that does not take its replies, which is
 * closed, nor for a list that is no file. A line has a bound, and one that is too long is the last request of a client.
 * The number of clients has a bound too: a new one takes the place of the one that asked nothing for the longest time.
 *
 * The cache is right without any event that removes something, because what it keeps of a list depends on the bytes of
 * the list alone, which are the key. The owner, the owning group, the user and the groups come from the object and from
 * the request, each time.
 */
#include "cache.h"
#include <errno.h>
#include <fcntl.h>
#include <poll.h>
#include <signal.h>
#include <stdio.h>
#include <stdlib.h>
#include <string.h>
#include <sys/epoll.h>
#include <sys/socket.h>
#include <sys/stat.h>
#include <sys/un.h>
#include <time.h>
#include <unistd.h>

#ifndef SILENCE
#define SILENCE 60 /* how many seconds a client may ask nothing */
#endif

enum {
    THREADS = 8,
    CLIENTS = 256,
    OBJECTS = 1024,
    LIST = 65536, /* bytes */
    LINE = 65536, /* bytes */
    OWNER_RIGHTS = ACLCK_READ_ACL | ACLCK_WRITE_ACL | ACLCK_READ_ATTRIBUTES | ACLCK_WRITE_ATTRIBUTES
};

/* ---- Lists and objects */

static aclck_names names;

/* Prepares a list for questions by ids. The bytes rarely need more room than those of the list. */
static enum aclck_status prepare(entry *e, aclck_fault *fault) {
    aclck_bytes list = aclck_bytes_of(e->key, e->len);
    size_t room = e->len + 16;
    enum aclck_status status = ACLCK_SHORT;
    while (status == ACLCK_SHORT) {
        unsigned char *more = realloc(e->made, room);
        if (!more)
            return ACLCK_MEMORY;
        e->made = more;
        status = aclck_prepare_ids(list, &names, ACLCK_FULL, aclck_buffer_of(e->made, room), &e->made_len, fault);
        room = e->made_len;
    }
    return status;
}

/* Reads a list once: prepares it, and looks for an ALLOW of EXECUTE. */
static enum aclck_status read_list(entry *e, aclck_fault *fault) {
    aclck_ace ace = {.kind = ACLCK_DENY};
    size_t offset = 0;
    enum aclck_status status = prepare(e, fault);
    while (status == ACLCK_DONE && ace.kind != ACLCK_UNDECIDED) {
        status = aclck_next(aclck_bytes_of(e->key, e->len), ACLCK_FULL, &offset, &ace, fault);
        if (ace.kind == ACLCK_ALLOW && !(ace.flags & ACLCK_INHERIT_ONLY) && ace.mask & ACLCK_EXECUTE)
            e->executes = 1;
    }
    return status;
}

static cache lists = {.lock = PTHREAD_MUTEX_INITIALIZER, .make = read_list};

/* An object. The lock is held while any of it is read or written, so that all of it belongs together. */
typedef struct {
    entry *list;
    uint32_t owner, group;
    int is_directory;
    uint64_t change;
} object;

static object objects[OBJECTS];
static pthread_mutex_t objects_lock = PTHREAD_MUTEX_INITIALIZER;

/* Returns the object as it is now. Its list stays until let_go() is called for it. */
static object look(size_t number) {
    object seen;
    pthread_mutex_lock(&objects_lock);
    seen = objects[number];
    if (seen.list)
        hold_too(&lists, seen.list);
    pthread_mutex_unlock(&objects_lock);
    return seen;
}

/* ---- The decision */

/* Returns what the server adds to the rights of the list, as nfs-ganesha does (docs/reference/others.md): the owner may
   always read and write the list and the attributes. The superuser may do everything but run a file that nobody may
   run. */
static uint32_t rights_of_the_server(const object *o, uint32_t user) {
    if (user == 0)
        return o->is_directory || o->list->executes ? ACLCK_ALL_RIGHTS : ACLCK_ALL_RIGHTS & ~ACLCK_EXECUTE;
    return user == o->owner ? OWNER_RIGHTS : 0;
}

/* Writes to *granted which of the wanted rights a user has. */
static enum aclck_status decide(const object *o, const aclck_id_requester *who, uint32_t wanted, uint32_t *granted) {
    aclck_bytes prepared = {o->list->made, o->list->made_len};
    aclck_id_object owned = {.owner = o->owner, .group = o->group};
    aclck_question question = {.mask = wanted, .options = ACLCK_FULL};
    aclck_decided decided;
    enum aclck_status status = aclck_decide_ids(prepared, &owned, who, &question, &decided);
    if (status)
        return status;
    *granted = decided.allowed | (wanted & rights_of_the_server(o, who->user));
    return ACLCK_DONE;
}

/* ---- Requests */

/* Reads an id, or the number of an object, which must end at the character `end`. Returns what follows, or NULL. */
static const char *read_number(const char *word, char end, uint32_t *number) {
    uint64_t found = 0;
    const char *at = word;
    for (; *at >= '0' && *at <= '9' && found < UINT32_MAX; at++)
        found = found * 10 + (uint64_t)(*at - '0');
    if (at == word || found >= UINT32_MAX || *at != end)
        return NULL;
    *number = (uint32_t)found;
    return *at ? at + 1 : at;
}

static int compare_ids(const void *a, const void *b) {
    uint32_t one = *(const uint32_t *)a, two = *(const uint32_t *)b;
    return (one > two) - (one < two);
}

/* Reads a word GID[,GID..], in which the order of the ids does not matter. They rise in what it returns, each once, as
   aclck_decide_ids() requires. Returns NULL if the word has no ids. */
static uint32_t *read_groups(const char *word, size_t *ngroups) {
    uint32_t *ids;
    size_t count = 1, kept = 0;
    for (const char *at = word; *at; at++)
        count += *at == ',';
    ids = malloc(count * sizeof *ids);
    for (size_t i = 0; ids && word && i < count; i++)
        word = read_number(word, i + 1 < count ? ',' : '\0', &ids[i]);
    if (!ids || !word) {
        free(ids);
        return NULL;
    }
    qsort(ids, count, sizeof *ids, compare_ids);
    for (size_t i = 0; i < count; i++)
        if (kept == 0 || ids[i] > ids[kept - 1])
            ids[kept++] = ids[i];
    *ngroups = kept;
    return ids;
}

/* Reads a file. Returns how many bytes it has, at most LIST + 1, or -1. A FIFO or a device could make the thread wait
   for ever, so it is not read. */
static ssize_t read_file(const char *name, unsigned char *bytes) {
    struct stat seen;
    size_t len = 0;
    ssize_t more = -1;
    int file = open(name, O_RDONLY | O_NONBLOCK | O_NOCTTY | O_CLOEXEC);
    if (file < 0)
        return -1;
    if (fstat(file, &seen) == 0 && S_ISREG(seen.st_mode))
        while ((more = read(file, bytes + len, LIST + 1 - len)) > 0)
            len += (size_t)more;
    close(file);
    return more < 0 ? -1 : (ssize_t)len;
}

/* Holds the list in a file. Returns NULL, and writes the reply, if there is none. */
static entry *open_list(const char *name, FILE *out) {
    enum aclck_status status = ACLCK_BAD_ARGUMENT;
    aclck_fault fault;
    char reason[16];
    size_t named = 0;
    entry *list = NULL;
    unsigned char *bytes = malloc(LIST + 1);
    ssize_t len = bytes ? read_file(name, bytes) : -1;
    if (len >= 0 && len <= LIST)
        list = hold(&lists, bytes, (size_t)len, &status, &fault);
    if (status == ACLCK_REFUSED &&
        aclck_reason_text(fault.reason, aclck_buffer_of(reason, sizeof reason), &named) == ACLCK_DONE)
        fprintf(out, "refused: %.*s at %s %llu\n", (int)named, reason,
                fault.reason == ACLCK_UNKNOWN_NAME ? "ACE" : "byte", (unsigned long long)fault.offset);
    else if (!list)
        fprintf(out, "no list\n");
    free(bytes);
    return list;
}

/* Changes an object: each part that is given. The reply has the number of the change. */
static void change(size_t number, const object *given, int has_list, int has_owner, FILE *out) {
    entry *old = NULL;
    uint64_t done;
    object *o = &objects[number];
    pthread_mutex_lock(&objects_lock);
    if (has_list) {
        old = o->list;
        o->list = given->list;
    }
    if (has_owner) {
        o->owner = given->owner;
        o->group = given->group;
    }
    if (has_list && has_owner)
        o->is_directory = given->is_directory;
    done = ++o->change;
    pthread_mutex_unlock(&objects_lock);
    if (old)
        let_go(&lists, old);
    fprintf(out, "change %llu\n", (unsigned long long)done);
}

static void answer_access(const object *o, const char *user, const char *groups, const char *rights, FILE *out) {
    uint32_t wanted, granted;
    aclck_id_requester who = {0};
    char text[256];
    size_t len;
    uint32_t *ids = read_groups(groups, &who.ngroups);
    who.groups = ids;
    if (!ids || !read_number(user, '\0', &who.user) || aclck_read_mask(aclck_string(rights), &wanted))
        fprintf(out, "no request\n");
    else if (decide(o, &who, wanted, &granted) ||
             aclck_mask_text(granted, aclck_buffer_of(text, sizeof text), &len))
        fprintf(out, "no answer\n");
    else
        fprintf(out, "%.*s at change %llu\n", (int)len, text, (unsigned long long)o->change);
    free(ids);
}

static int read_kind(const char *word, int *is_directory) {
    *is_directory = strcmp(word, "directory") == 0;
    return *is_directory || strcmp(word, "file") == 0;
}

static void answer(char *line, FILE *out) {
    char *words[6] = {NULL}, *rest, *word = strtok_r(line, " \n", &rest);
    size_t count = 0;
    uint32_t number;
    object o = {0};
    for (; word && count < 6; word = strtok_r(NULL, " \n", &rest))
        words[count++] = word;
    if (word || count < 3 || !read_number(words[1], '\0', &number) || number >= OBJECTS) {
        fprintf(out, "no request\n");
    } else if (count == 6 && strcmp(words[0], "make") == 0 && read_kind(words[2], &o.is_directory) &&
               read_number(words[3], '\0', &o.owner) && read_number(words[4], '\0', &o.group)) {
        if ((o.list = open_list(words[5], out)) != NULL)
            change(number, &o, 1, 1, out);
    } else if (count == 3 && strcmp(words[0], "list") == 0) {
        if ((o.list = open_list(words[2], out)) != NULL)
            change(number, &o, 1, 0, out);
    } else if (count == 4 && strcmp(words[0], "chown") == 0 && read_number(words[2], '\0', &o.owner) &&
               read_number(words[3], '\0', &o.group)) {
        change(number, &o, 0, 1, out);
    } else if (count == 5 && strcmp(words[0], "access") == 0 && (o = look(number)).list) {
        answer_access(&o, words[2], words[3], words[4], out);
        let_go(&lists, o.list);
    } else {
        fprintf(out, "no request\n");
    }
}

/* Answers the lines of a file. One that is too long, and all that follows it, has no answer but the last. */
static void serve(FILE *in, FILE *out) {
    char *line = malloc(LINE);
    while (line && fgets(line, LINE, in)) {
        if (strlen(line) == LINE - 1) {
            fprintf(out, "no request\n");
            break;
        }
        answer(line, out);
        if (fflush(out))
            break;
    }
    free(line);
}

/* ---- Clients */

/* A client. One thread at a time has it, and what is in the line is the beginning of a request. */
typedef struct {
    int handle;
    int is_over; /* whether a line was too long */
    size_t len;
    struct timespec asked; /* when it came, or asked last */
    char line[LINE];
} client;

static client *clients[CLIENTS];
static size_t client_count;
static pthread_mutex_t clients_lock = PTHREAD_MUTEX_INITIALIZER;
static pthread_cond_t client_went = PTHREAD_COND_INITIALIZER;
static int listener, asking; /* the socket, and the epoll instance of the clients */

/* Sends the reply to a request. Returns 0 if the client does not take it. */
static int reply(int handle, char *request) {
    char *text = NULL;
    size_t size = 0;
    int is_sent = 0;
    FILE *out = open_memstream(&text, &size);
    if (out) {
        answer(request, out);
        is_sent = !fclose(out) && send(handle, text, size, MSG_DONTWAIT) == (ssize_t)size;
    }
    free(text);
    return is_sent;
}

/* Sends the last reply, to a line that is too long. What follows the line is read and dropped, because a client whose
   connection is closed while it sends never sees the reply. Returns 0 if the client is to be closed. */
static int refuse_line(client *c) {
    c->is_over = 1;
    c->len = 0;
    c->line[0] = '\0';
    return reply(c->handle, c->line) && !shutdown(c->handle, SHUT_WR);
}

/* Answers what a client has sent, and counts the requests. Returns 0 if the client is to be closed. */
static int serve_client(client *c, size_t *requests) {
    size_t begin = 0, seen = c->len;
    ssize_t got = recv(c->handle, c->line + c->len, LINE - c->len, MSG_DONTWAIT);
    char *end;
    if (got <= 0)
        return got < 0 && (errno == EAGAIN || errno == EINTR);
    if (c->is_over)
        return 1;
    c->len += (size_t)got;
    while ((end = memchr(c->line + seen, '\n', c->len - seen)) != NULL) {
        *end = '\0';
        if (!reply(c->handle, c->line + begin))
            return 0;
        begin = seen = (size_t)(end - c->line) + 1;
        ++*requests;
    }
    c->len -= begin;
    memmove(c->line, c->line + begin, c->len);
    return c->len < LINE || refuse_line(c);
}

/* Lets a thread take a client that sends something. Returns 0 if that fails. */
static int await(client *c, int how) {
    struct epoll_event event = {.events = EPOLLIN | EPOLLONESHOT, .data.ptr = c};
    return epoll_ctl(asking, how, c->handle, &event) == 0;
}

static void close_client(client *c) {
    pthread_mutex_lock(&clients_lock);
    for (size_t i = 0; i < client_count; i++)
        if (clients[i] == c)
            clients[i] = clients[--client_count];
    pthread_cond_signal(&client_went);
    pthread_mutex_unlock(&clients_lock);
    close(c->handle);
    free(c);
}

static void *serve_clients(void *unused) {
    (void)unused;
    for (;;) {
        struct epoll_event event;
        size_t requests = 0;
        client *c;
        int stays;
        if (epoll_wait(asking, &event, 1, -1) != 1)
            continue;
        c = event.data.ptr;
        pthread_mutex_lock(&clients_lock); /* what the thread before wrote is seen */
        pthread_mutex_unlock(&clients_lock);
        stays = serve_client(c, &requests);
        pthread_mutex_lock(&clients_lock);
        if (requests)
            clock_gettime(CLOCK_MONOTONIC, &c->asked);
        stays = stays && await(c, EPOLL_CTL_MOD); /* from here on, another thread may have it */
        pthread_mutex_unlock(&clients_lock);
        if (!stays)
            close_client(c);
    }
    return NULL;
}

/* Ends the connection of each client that asked nothing for SILENCE seconds. A thread then finds that the client has
   gone, and closes it. The lock is held. */
static void end_silent_clients(void) {
    struct timespec now;
    clock_gettime(CLOCK_MONOTONIC, &now);
    for (size_t i = 0; i < client_count; i++)
        if (now.tv_sec - clients[i]->asked.tv_sec > SILENCE)
            shutdown(clients[i]->handle, SHUT_RDWR);
}

/* Ends the connection of the client that asked nothing for the longest time. The lock is held. */
static void end_most_silent_client(void) {
    client *silent = clients[0];
    for (size_t i = 1; i < client_count; i++) {
        const struct timespec *one = &clients[i]->asked, *other = &silent->asked;
        if (one->tv_sec < other->tv_sec || (one->tv_sec == other->tv_sec && one->tv_nsec < other->tv_nsec))
            silent = clients[i];
    }
    shutdown(silent->handle, SHUT_RDWR);
}

/* Takes a client that connects. */
static void accept_client(void) {
    int handle = accept(listener, NULL, NULL);
    client *c = handle < 0 ? NULL : malloc(sizeof *c);
    if (!c) {
        if (handle >= 0)
            close(handle);
        return;
    }
    c->handle = handle;
    c->is_over = 0;
    c->len = 0;
    clock_gettime(CLOCK_MONOTONIC, &c->asked);
    pthread_mutex_lock(&clients_lock);
    while (client_count == CLIENTS) {
        end_most_silent_client();
        pthread_cond_wait(&client_went, &clients_lock);
    }
    clients[client_count++] = c;
    pthread_mutex_unlock(&clients_lock);
    if (!await(c, EPOLL_CTL_ADD))
        close_client(c);
}

static void *accept_clients(void *unused) {
    struct pollfd coming = {.fd = listener, .events = POLLIN};
    (void)unused;
    for (;;) {
        if (poll(&coming, 1, 1000) > 0)
            accept_client();
        pthread_mutex_lock(&clients_lock);
        end_silent_clients();
        pthread_mutex_unlock(&clients_lock);
    }
    return NULL;
}

/* ---- The program */

/* Serves the clients of a socket, until standard input ends. */
static int listen_at(const char *path) {
    struct sockaddr_un address = {.sun_family = AF_UNIX};
    pthread_t thread;
    if (strlen(path) >= sizeof address.sun_path) {
        fprintf(stderr, "%s: the path is too long\n", path);
        return 3;
    }
    strcpy(address.sun_path, path);
    listener = socket(AF_UNIX, SOCK_STREAM, 0);
    asking = epoll_create1(EPOLL_CLOEXEC);
    if (listener < 0 || asking < 0 || bind(listener, (struct sockaddr *)&address, sizeof address) ||
        listen(listener, CLIENTS)) {
        perror(path);
        return 4;
    }
    for (int i = 0; i <= THREADS; i++)
        if (pthread_create(&thread, NULL, i < THREADS ? serve_clients : accept_clients, NULL))
            return 4;
    printf("ready\n");
    fflush(stdout);
    while (getchar() != EOF)
        continue;
    return 0;
}

/* Reads the words u:NAME=ID and g:NAME=ID. No name may be a number or stand twice, so that no name has two ids. */
static int read_names(char **words, size_t count) {
    aclck_name *table = malloc((count + 1) * sizeof *table);
    names.at = table;
    for (; table && names.len < count; names.len++) {
        char *word = words[names.len], *end = strrchr(word, '=');
        aclck_name *name = &table[names.len];
        uint32_t unused;
        if ((word[0] != 'u' && word[0] != 'g') || word[1] != ':' || !end || !read_number(end + 1, '\0', &name->id))
            return 0;
        *end = '\0';
        if (end == word + 2 || read_number(word + 2, '\0', &unused))
            return 0;
        for (size_t i = 0; i < names.len; i++)
            if (strcmp(words[i], word) == 0)
                return 0;
        name->name = aclck_string(word + 2);
        name->is_group = word[0] == 'g';
    }
    return table != NULL;
}

static void print_cache(const char *what, cache *c) {
    pthread_mutex_lock(&c->lock);
    printf("%s: %zu kept, %llu found, %llu made\n", what, c->count, (unsigned long long)c->hits,
           (unsigned long long)c->misses);
    pthread_mutex_unlock(&c->lock);
}

int main(int argc, char **argv) {
    int status = 0;
    signal(SIGPIPE, SIG_IGN); /* a client may close the connection before it reads the reply */
    if (argc < 2 || !read_names(argv + 2, (size_t)argc - 2)) {
        fprintf(stderr, "usage: server SOCKET|- [u:NAME=ID|g:NAME=ID..]\n");
        return 3;
    }
    if (strcmp(argv[1], "-") == 0)
        serve(stdin, stdout);
    else
        status = listen_at(argv[1]);
    if (status)
        return status;
    print_cache("lists", &lists);
    return fflush(stdout) ? 4 : 0;
}
