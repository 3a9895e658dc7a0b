/* How a service is reached, and asked what it takes to go on with a session. Nothing here waits longer than its caller says. */
#ifndef REGISTRYD_REACH_H
#define REGISTRYD_REACH_H

#include "files.h"

#include <stdatomic.h>
#include <stdbool.h>
#include <stdint.h>

/* How long to wait: up to a moment of the system's steady clock, in milliseconds, and no longer than until the session is closed. */
struct patience {
    int64_t limit;
    const atomic_bool *is_cut;
};

struct patience patience_of(int64_t milliseconds, const atomic_bool *is_cut);
bool is_over(const struct patience *patience);
/* Waits so long, or until that is over. */
void rest(int64_t milliseconds, const struct patience *patience);

/* Each of these tells by errno why it could not. */

/* Connects to an address, the path of a socket or HOST:PORT: the number of a file beside the standard streams, or -1. */
int reach(const char *where, const struct patience *patience);

/* Sends a line, and reads the revision of its reply, which has to come next. EAGAIN says that the service can't be asked now, ECONNRESET
 * that it has ended, or is none. */
bool ask_revision(int file, const char *line, const struct patience *patience, uint64_t *revision);

/* Waits until the service has ended a connection to which nothing more is sent. */
bool has_ended(int file, const struct patience *patience);

/* The commands in a journal, which a service tells over HTTP: what is not read of it, and the revision before that. */
struct journal {
    struct bytes text;
    size_t begin, end;
    uint64_t revision;
};

bool ask_journal(const char *where, const struct patience *patience, struct journal *journal);

/* Passes over commands up to a revision. */
void skip_commands(struct journal *journal, uint64_t revision);

/* Finds the next command that is this one, and passes over it: its revision, or 0, and then nothing is passed over. */
uint64_t find_command(struct journal *journal, const struct bytes *line);

/* The revision that a reply tells, or 0. */
uint64_t revision_of(const char *reply, size_t length);

/* Whether a reply is one of the service's own: it could not ask a program, or has as many clients as may be. */
bool is_unavailable(const char *reply, size_t length);

#endif
