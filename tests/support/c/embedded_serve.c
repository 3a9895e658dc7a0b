/* `registryd serve` over a session in process: takes the program's words, reads lines from standard input, and tells on standard
 * error what is the matter, as the program does. So the program's tests can be run on it. EMBEDDED_PIECE, if given, tells how many
 * bytes are fed at once, at most. Compiled with BY_SEAT it keeps a journal by a seat, and leaves out of the replies where that stood. */
#define _GNU_SOURCE
#include "registryd.h"

#include <stdio.h>
#include <stdlib.h>
#include <string.h>
#include <unistd.h>

#define PIECE 131072
#ifdef BY_SEAT
/* so that no reply is cut */
#define ROOM 16777216
#else
#define ROOM PIECE
#endif

/* A seat's call has another try where there was no memory. */
#define TWICE(call) (answer_twice = (call), answer_twice == REGISTRYD_MEMORY ? (call) : answer_twice)

static int answer_twice;
static char words[8192];

static int tell(const char *what)
{
    fprintf(stderr, "registryd: %s\n", what);
    return 1;
}

static int open_journal(const char *journal, registryd_session *session)
{
#ifdef BY_SEAT
    return registryd_open_seats_journal(journal, REGISTRYD_ENTRIES, session, 1, words, sizeof words);
#else
    return registryd_open_embedded_journal(journal, session, words, sizeof words);
#endif
}

/* Opens a session by the words of the command line; answers what the matter is, or null. */
static const char *open_by(char **given, registryd_session *session)
{
    const char *journal = NULL, *load = NULL, *save = NULL;
    for (; given[0] && given[1]; given += 2) {
        if (!strcmp(given[0], "--journal"))
            journal = given[1];
        else if (!strcmp(given[0], "--load"))
            load = given[1];
        else if (!strcmp(given[0], "--save"))
            save = given[1];
    }
    int answer = journal ? open_journal(journal, session) : registryd_open_embedded(load, save, session, words, sizeof words);
    return answer ? words : NULL;
}

#ifdef BY_SEAT
/* Passes over a member of a reply: what stands behind its number and `more`; else `at`. */
static const char *behind(const char *at, const char *member, size_t more)
{
    if (strncmp(at, member, strlen(member)))
        return at;
    at += strlen(member);
    return at + strspn(at, "0123456789") + more;
}

/* Leaves out what a session's replies do not have. No text in them has these words, since its quotes have a backslash before them. */
static size_t as_of_a_session(char *replies, size_t length)
{
    char *to = replies;
    replies[length] = '\0';
    for (const char *at = replies; at < replies + length; *to++ = *at++)
        at = behind(behind(at, "\"place\":", 1), ",\"seat\":", 0);
    return (size_t)(to - replies);
}
#else
static size_t as_of_a_session(const char *replies, size_t length)
{
    (void)replies;
    return length;
}
#endif

/* Writes the replies that may be taken; answers whether that is done. */
static int write_replies(registryd_session session)
{
    static char replies[ROOM + 1];
    size_t length, left;
    do {
        if (TWICE(registryd_take(session, replies, ROOM, &length, &left)))
            return 0;
        length = as_of_a_session(replies, length);
        for (size_t at = 0; at < length;) {
            ssize_t written = write(STDOUT_FILENO, replies + at, length - at);
            if (written <= 0)
                exit(tell("output failed"));
            at += (size_t)written;
        }
    } while (left);
    return 1;
}

/* Feeds what was read, some bytes at a time. */
static int feed(registryd_session session, const char *bytes, size_t length)
{
    const char *given = getenv("EMBEDDED_PIECE");
    size_t piece = given ? strtoul(given, NULL, 10) : PIECE;
    for (size_t at = 0; at < length; at += piece) {
        size_t some = length - at < piece ? length - at : piece;
        if (TWICE(registryd_feed(session, bytes + at, some)) || !write_replies(session))
            return 0;
    }
    return 1;
}

static int serve(registryd_session session)
{
    static char bytes[PIECE];
    for (;;) {
        ssize_t got = read(STDIN_FILENO, bytes, sizeof bytes);
        if (got < 0)
            return tell("input failed");
        int goes_on = got ? feed(session, bytes, (size_t)got) : !TWICE(registryd_save(session)) && write_replies(session);
        if (!goes_on) {
            registryd_error(session, words, sizeof words);
            return tell(words);
        }
        if (!got)
            return 0;
    }
}

int main(int count, char **given)
{
    registryd_session session;
    if (count < 2 || strcmp(given[1], "serve"))
        return 2;
    const char *why = open_by(given + 2, &session);
    if (why)
        return tell(why);
    int status = serve(session);
    registryd_close(session);
    return status;
}
