#define _GNU_SOURCE
#include "reach.h"

#include <ctype.h>
#include <errno.h>
#include <limits.h>
#include <netdb.h>
#include <netinet/in.h>
#include <netinet/tcp.h>
#include <poll.h>
#include <stdio.h>
#include <stdlib.h>
#include <string.h>
#include <sys/socket.h>
#include <sys/un.h>
#include <time.h>
#include <unistd.h>

/* How many milliseconds may pass until it is noticed that a session was closed. */
#define NOTICED 50

#define PIECE 65536

/* ---- waiting */

static int64_t now(void)
{
    struct timespec time;
    clock_gettime(CLOCK_MONOTONIC, &time);
    return (int64_t)time.tv_sec * 1000 + time.tv_nsec / 1000000;
}

struct patience patience_of(int64_t milliseconds, const atomic_bool *is_cut)
{
    return (struct patience){.limit = now() + milliseconds, .is_cut = is_cut};
}

bool is_over(const struct patience *patience)
{
    return now() >= patience->limit || (patience->is_cut && atomic_load(patience->is_cut));
}

/* Waits until a file has something of this kind, or an end. */
static bool has_event(int file, short kind, const struct patience *patience)
{
    struct pollfd asked = {.fd = file, .events = kind};
    while (!is_over(patience)) {
        int64_t left = patience->limit - now();
        int count = poll(&asked, 1, (int)(left < 1 ? 1 : left < NOTICED ? left : NOTICED));
        if (count > 0)
            return true;
        if (count < 0 && errno != EINTR)
            return false;
    }
    errno = ETIMEDOUT;
    return false;
}

void rest(int64_t milliseconds, const struct patience *patience)
{
    struct patience shorter = patience_of(milliseconds, patience->is_cut);
    if (shorter.limit > patience->limit)
        shorter.limit = patience->limit;
    has_event(-1, 0, &shorter);
}

/* ---- connecting */

/* Closes a file, and leaves the reason of what failed before. */
static int left(int file)
{
    int error = errno;
    close(file);
    errno = error;
    return -1;
}

/* Connects a socket that is made for an address: its number, or -1. */
static int connect_to(const struct sockaddr *address, socklen_t length, const struct patience *patience)
{
    int file = beside_streams(socket(address->sa_family, SOCK_STREAM | SOCK_CLOEXEC | SOCK_NONBLOCK, 0)), error = 0;
    socklen_t size = sizeof error;
    if (file < 0)
        return -1;
    if (!connect(file, address, length))
        return file;
    if ((errno != EINPROGRESS && errno != EINTR) || !has_event(file, POLLOUT, patience))
        return left(file);
    if (getsockopt(file, SOL_SOCKET, SO_ERROR, &error, &size) || error) {
        errno = error ? error : errno;
        return left(file);
    }
    return file;
}

static int connect_to_file(const char *path, const struct patience *patience)
{
    struct sockaddr_un address = {.sun_family = AF_UNIX};
    if (strlen(path) >= sizeof address.sun_path) {
        errno = ENAMETOOLONG;
        return -1;
    }
    strcpy(address.sun_path, path);
    return connect_to((const struct sockaddr *)&address, sizeof address, patience);
}

/* What errno says where a host is not found. */
static int error_of(int found)
{
    return found == EAI_SYSTEM ? errno : found == EAI_MEMORY ? ENOMEM : EHOSTUNREACH;
}

static int connect_to_port(const char *host, const char *port, const struct patience *patience)
{
    const int at_once = 1;
    const struct addrinfo wanted = {.ai_family = AF_UNSPEC, .ai_socktype = SOCK_STREAM};
    struct addrinfo *first = NULL;
    int file = -1;
    if (atol(port) > UINT16_MAX) {
        errno = EINVAL;
        return -1;
    }
    int found = getaddrinfo(host, port, &wanted, &first);
    if (found)
        errno = error_of(found);
    for (struct addrinfo *it = first; it && file < 0; it = it->ai_next)
        file = connect_to(it->ai_addr, it->ai_addrlen, patience);
    /* A line is not held back until the one before is known to have come. */
    if (file >= 0)
        setsockopt(file, IPPROTO_TCP, TCP_NODELAY, &at_once, sizeof at_once);
    int error = errno;
    if (first)
        freeaddrinfo(first);
    errno = error;
    return file;
}

/* Where the port of an address HOST:PORT begins, or null: then it is a path. */
static const char *port_of(const char *where)
{
    const char *colon = strrchr(where, ':');
    if (!colon || !colon[1] || strchr(where, '/'))
        return NULL;
    for (const char *at = colon + 1; *at; at++)
        if (!isdigit((unsigned char)*at))
            return NULL;
    return colon + 1;
}

/* Connects to an address HOST:PORT, of which there is a copy to be cut up. */
static int connect_by(char *where, const char *port, const struct patience *patience)
{
    char *end = strrchr(where, ':');
    *end = '\0';
    /* [::1] has its brackets for the colon that follows. */
    if (*where == '[' && end[-1] == ']') {
        where++;
        end[-1] = '\0';
    }
    return connect_to_port(where, port, patience);
}

int reach(const char *where, const struct patience *patience)
{
    const char *port = port_of(where);
    if (!port)
        return connect_to_file(where, patience);
    char *copy = copy_of(where, strlen(where));
    if (!copy) {
        errno = ENOMEM;
        return -1;
    }
    int file = connect_by(copy, port, patience), error = errno;
    free(copy);
    errno = error;
    return file;
}

/* ---- asking */

static bool send_text(int file, const char *text, const struct patience *patience)
{
    size_t left = strlen(text);
    while (left) {
        if (!has_event(file, POLLOUT, patience))
            return false;
        ssize_t sent = send(file, text, left, MSG_DONTWAIT | MSG_NOSIGNAL);
        if (sent < 0 && errno != EAGAIN && errno != EINTR)
            return false;
        if (sent > 0) {
            text += sent;
            left -= (size_t)sent;
        }
    }
    return true;
}

/* Reads some of what comes: how many bytes, 0 at the end, or -1. */
static ssize_t receive_some(int file, char *bytes, size_t room, const struct patience *patience)
{
    while (has_event(file, POLLIN, patience)) {
        ssize_t got = recv(file, bytes, room, MSG_DONTWAIT);
        if (got >= 0 || (errno != EAGAIN && errno != EINTR))
            return got;
    }
    return -1;
}

uint64_t revision_of(const char *reply, size_t length)
{
    static const char name[] = "\"revision\":";
    const char *at = memmem(reply, length, name, sizeof name - 1), *end = reply + length;
    uint64_t revision = 0;
    for (at = at ? at + sizeof name - 1 : end; at < end && isdigit((unsigned char)*at); at++)
        revision = revision * 10 + (uint64_t)(*at - '0');
    return revision;
}

bool is_unavailable(const char *reply, size_t length)
{
    static const char *const begins[] = {"{\"error\":503,\"name\":\"Unavailable\"", "{\"error\":503,\"name\":\"TooManyClients\""};
    for (size_t i = 0; i < 2; i++)
        if (length >= strlen(begins[i]) && !memcmp(reply, begins[i], strlen(begins[i])))
            return true;
    return false;
}

bool ask_revision(int file, const char *line, const struct patience *patience, uint64_t *revision)
{
    char reply[256];
    size_t length = 0;
    /* One that lets its client go at once may have told why. */
    if (!send_text(file, line, patience) && errno != EPIPE)
        return false;
    while (!length || reply[length - 1] != '\n') {
        ssize_t got = receive_some(file, reply + length, sizeof reply - length, patience);
        if (got < 0)
            return false;
        if (!got || *reply != '{' || (length += (size_t)got) == sizeof reply) {
            errno = ECONNRESET;
            return false;
        }
    }
    *revision = revision_of(reply, length);
    errno = is_unavailable(reply, length) ? EAGAIN : ECONNRESET;
    return !is_unavailable(reply, length) && memmem(reply, length, "\"revision\":", 11);
}

bool has_ended(int file, const struct patience *patience)
{
    static const ssize_t end = 0;
    char bytes[4096];
    ssize_t got;
    shutdown(file, SHUT_WR);
    while ((got = receive_some(file, bytes, sizeof bytes, patience)) > end)
        ;
    return got == end || errno != ETIMEDOUT;
}

/* ---- the journal */

/* The end of the line that begins at a place of the text, or null. */
static const char *line_end(const struct journal *it, size_t begin)
{
    return memchr(it->text.at + begin, '\n', it->text.length - begin);
}

/* Finds where the commands stand in an answer over HTTP, which has the file of a journal behind its head. */
static bool find_commands(struct journal *it)
{
    static const char head_end[] = "\r\n\r\n";
    char wanted[32];
    size_t count = 0;
    const char *status = it->text.length ? line_end(it, 0) : NULL;
    const char *text = it->text.length ? memmem(it->text.at, it->text.length, head_end, 4) : NULL;
    if (!status || !text || !memmem(it->text.at, (size_t)(status - it->text.at), " 200 ", 5))
        return false;
    const char *end = line_end(it, (size_t)(text + 4 - it->text.at)), *last = end;
    if (!end)
        return false;
    it->begin = (size_t)(end + 1 - it->text.at);
    /* The last line counts those before it: so it is seen where the answer was cut off. */
    for (size_t at = it->begin; (end = line_end(it, at)); at = (size_t)(end + 1 - it->text.at)) {
        it->end = at;
        last = end;
        count++;
    }
    int length = snprintf(wanted, sizeof wanted, "end %zu\n", count - 1);
    return count && last + 1 == it->text.at + it->text.length && it->text.length - it->end == (size_t)length && !memcmp(it->text.at + it->end, wanted, (size_t)length);
}

bool ask_journal(const char *where, const struct patience *patience, struct journal *journal)
{
    int file = reach(where, patience);
    ssize_t got = -1;
    if (file < 0)
        return false;
    if (send_text(file, "GET /journal HTTP/1.0\r\n\r\n", patience)) {
        do {
            size_t length = journal->text.length;
            if (journal->text.room - length < PIECE && !make_room(&journal->text, length * 2 + PIECE)) {
                errno = ENOMEM;
                got = -1;
                break;
            }
            got = receive_some(file, journal->text.at + length, PIECE, patience);
            journal->text.length += got > 0 ? (size_t)got : 0;
        } while (got > 0);
    }
    left(file);
    if (got < 0)
        return false;
    errno = EAGAIN;
    return find_commands(journal);
}

/* Passes over the next command, and what was learnt before it; false where there is none. */
static bool next_command(struct journal *it, const char **line, size_t *length)
{
    static const char learn[] = "\"op\":\"learn\"}";
    while (it->begin < it->end) {
        const char *at = it->text.at + it->begin, *end = line_end(it, it->begin);
        it->begin = (size_t)(end + 1 - it->text.at);
        *line = at;
        *length = (size_t)(end - at);
        if (*length < sizeof learn - 1 || memcmp(end - (sizeof learn - 1), learn, sizeof learn - 1)) {
            it->revision++;
            return true;
        }
    }
    return false;
}

void skip_commands(struct journal *journal, uint64_t revision)
{
    const char *line;
    size_t length;
    while (journal->revision < revision && next_command(journal, &line, &length))
        ;
}

uint64_t find_command(struct journal *journal, const struct bytes *wanted)
{
    struct journal at = *journal;
    const char *line;
    size_t length;
    while (next_command(&at, &line, &length)) {
        if (length == wanted->length && !memcmp(line, wanted->at, length)) {
            *journal = at;
            return at.revision;
        }
    }
    return 0;
}
