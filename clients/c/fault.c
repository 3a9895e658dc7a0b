#define _GNU_SOURCE
#include "fault.h"

#include <errno.h>
#include <stdarg.h>
#include <stdio.h>
#include <string.h>

/* A line that is being told: what goes beyond the room is left out, and a 0 stands behind the rest. */
struct line {
    struct telling to;
    size_t length;
};

static void put(struct line *line, const char *form, ...)
{
    char text[256];
    va_list given;
    va_start(given, form);
    int length = vsnprintf(text, sizeof text, form, given);
    va_end(given);
    for (int i = 0; i < length && text[i]; i++)
        if (line->length + 1 < line->to.room)
            line->to.words[line->length++] = text[i];
    if (line->to.room)
        line->to.words[line->length] = '\0';
}

/* A name as it is shown within a line: each control character of ASCII is told by its number. */
static void put_name(struct line *line, const char *name)
{
    for (const char *at = name; *at; at++) {
        unsigned char byte = (unsigned char)*at;
        put(line, byte < 32 || byte == 127 ? "\\x%02x" : "%c", byte);
    }
}

/* What the system answered, a number of errno.h, where it did. */
static void put_reason(struct line *line, int error)
{
    const char *reason = error ? strerrordesc_np(error) : NULL;
    if (reason)
        put(line, ": %s (os error %d)", reason, error);
}

struct fault refused(enum what what)
{
    return (struct fault){.what = errno == ENOMEM ? NO_MEMORY : what, .error = errno};
}

void tell_words(struct telling telling, const char *text)
{
    struct line line = {.to = telling};
    put(&line, "%s", text);
}

/* What is told of a file, but for a wrong line. */
static const char *said(enum what what)
{
    switch (what) {
    case IN_USE: return "in use by another session";
    case NOT_PLAIN: return "not a plain file";
    case TOO_LONG: return "has more entries than there is room for";
    case STRAY: return "has an entry that no seat made";
    case CHANGED: return "changed by another program, and not gone on with";
    case NOT_OPENED: return "can't be opened";
    case NOT_CREATED: return "can't be created";
    case NOT_LOCKED: return "can't be locked";
    case NOT_READ: return "can't be read";
    case NOT_CUT: return "can't be cut";
    case NOT_WRITTEN: return "can't be written";
    case NOT_SYNCED: return "can't be synced";
    default: return "";
    }
}

void tell_fault(struct telling telling, struct fault fault, const char *name)
{
    struct line line = {.to = telling};
    if (fault.what == NOTHING || fault.what == NO_MEMORY) {
        tell_words(telling, fault.what == NOTHING ? "" : "no memory");
        return;
    }
    put(&line, "journal ");
    put_name(&line, name);
    if (fault.what == WRONG_LINE)
        put(&line, ": line %zu is not a journal's, and nothing was changed", fault.line);
    else
        put(&line, ": %s", said(fault.what));
    put_reason(&line, fault.error);
}

void tell_broken(struct telling telling, const char *where, int error)
{
    struct line line = {.to = telling};
    put(&line, "the connection to the service at ");
    put_name(&line, where);
    put(&line, " has ended");
    put_reason(&line, error);
}
