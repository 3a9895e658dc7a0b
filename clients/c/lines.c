#include "registryd.h"
#include "text.h"

#include <string.h>

const char *registryd_version(void)
{
    return REGISTRYD_VERSION;
}

const char *registryd_strerror(int answer)
{
    switch (answer) {
    case REGISTRYD_OK: return "all is well";
    case REGISTRYD_MISUSE: return "an argument is none that the call takes, or it comes at a time when it can't be done";
    case REGISTRYD_MEMORY: return "there is no memory or no room, or too many sessions are open";
    case REGISTRYD_START: return "the program can't be started, or the service can't be reached";
    case REGISTRYD_ENDED: return "the session has ended";
    case REGISTRYD_JOURNAL: return "something is the matter with a journal's file";
    default: return "no answer of this library";
    }
}

static void put_quoted(struct written *to, unsigned char byte)
{
    static const char digits[] = "0123456789abcdef";
    if (byte == '"' || byte == '\\') {
        put(to, '\\');
        put(to, (char)byte);
    } else if (byte < 32) {
        put_words(to, "\\u00");
        put(to, digits[byte >> 4]);
        put(to, digits[byte & 15]);
    } else {
        put(to, (char)byte);
    }
}

int registryd_quote(const char *text, char *room, size_t size, size_t *length)
{
    struct written to = {.room = room, .size = size};
    if (!text || !length || (!room && size))
        return REGISTRYD_MISUSE;
    put(&to, '"');
    for (const char *at = text; *at; at++)
        put_quoted(&to, (unsigned char)*at);
    put(&to, '"');
    return end_written(&to, length);
}

/* A name or a version in quotes, in which nothing is escaped. It is copied with a 0 behind it. */
static int has_text(struct rest *rest, char *room, size_t size)
{
    size_t length = 0;
    if (!has(rest, "\""))
        return 0;
    while (rest->at < rest->end && *rest->at != '"' && *rest->at != '\\' && length + 1 < size)
        room[length++] = *rest->at++;
    room[length] = '\0';
    return has(rest, "\"");
}

/* The revision, and behind it the seat, where one answered. */
static int has_revision(struct rest *rest, uint32_t *revision)
{
    uint32_t seat;
    return has_number(rest, revision) && (!has(rest, ",\"seat\":") || has_number(rest, &seat));
}

/* Whether a line ends with a word, the revision and a brace. */
static int ends_with(struct rest rest, const char *word, uint32_t *revision)
{
    for (const char *at = rest.end; at > rest.at; at--) {
        struct rest tail = {at - 1, rest.end};
        if (has(&tail, word))
            return has_revision(&tail, revision) && has(&tail, "}") && tail.at == tail.end;
    }
    return 0;
}

static int has_selected(struct rest *rest, uint32_t *revision)
{
    uint32_t place;
    return has(rest, "{") && (!has(rest, "\"place\":") || (has_number(rest, &place) && has(rest, ","))) && has(rest, "\"revision\":") &&
           has_revision(rest, revision) && has(rest, ",\"selected\":[");
}

static int has_error(struct rest *rest, struct registryd_reply *reply)
{
    return has(rest, "{\"error\":") && has_number(rest, &reply->error) && has(rest, ",\"name\":") && has_text(rest, reply->name, sizeof reply->name);
}

int registryd_read(const char *line, size_t length, struct registryd_reply *reply)
{
    struct registryd_reply read = {.kind = REGISTRYD_OTHER};
    if (!line || !reply)
        return REGISTRYD_MISUSE;
    struct rest rest = rest_of(line, length), selected = rest, error = rest, accepted = rest;
    if (has_selected(&selected, &read.revision))
        read.kind = REGISTRYD_SELECTED;
    else if (!ends_with(rest, "\"revision\":", &read.revision))
        return REGISTRYD_MISUSE;
    else if (has(&accepted, "{\"ok\":true,"))
        read.kind = REGISTRYD_ACCEPTED;
    else if (has_error(&error, &read))
        read.kind = REGISTRYD_ERROR;
    else if (ends_with(rest, "\"refused\":true,\"revision\":", &read.revision))
        read.kind = REGISTRYD_NOTHING;
    *reply = read;
    return REGISTRYD_OK;
}

/* What stands behind the first of these words, of which none is within a text: there its quotes would have a backslash before them. */
static int has_member(struct rest rest, const char *word, uint32_t *number)
{
    for (; rest.at < rest.end; rest.at++)
        if (has(&rest, word))
            return has_number(&rest, number);
    return 0;
}

int registryd_stamp(const char *line, size_t length, struct registryd_stamp *stamp)
{
    struct registryd_stamp read;
    if (!line || !stamp)
        return REGISTRYD_MISUSE;
    struct rest rest = rest_of(line, length);
    if (!has_member(rest, "\"place\":", &read.place) || !has_member(rest, "\"seat\":", &read.seat))
        return REGISTRYD_MISUSE;
    *stamp = read;
    return REGISTRYD_OK;
}

static int has_pair(struct rest *rest, struct registryd_pair *pair)
{
    return has_text(rest, pair->name, sizeof pair->name) && has(rest, ",") && has_text(rest, pair->version, sizeof pair->version) && has(rest, "]");
}

int registryd_selected(const char *line, size_t length, size_t place, struct registryd_pair *pair)
{
    struct registryd_pair read;
    uint32_t revision;
    if (!line || !pair)
        return REGISTRYD_MISUSE;
    struct rest rest = rest_of(line, length);
    if (!has_selected(&rest, &revision))
        return REGISTRYD_MISUSE;
    for (size_t at = 0; has(&rest, "["); at++) {
        if (!has_pair(&rest, &read))
            return REGISTRYD_MISUSE;
        if (at == place) {
            *pair = read;
            return REGISTRYD_OK;
        }
        has(&rest, ",");
    }
    return REGISTRYD_ENDED;
}
