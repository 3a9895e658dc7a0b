/* The ways in which a session is answered. What each does stands in child.c, in embedded.c, in seat.c and in service.c; registryd.c calls them,
 * one call at a time for a session, with arguments that are none of a careless caller. */
#ifndef REGISTRYD_WAYS_H
#define REGISTRYD_WAYS_H

#include "channel.h"
#include "files.h"
#include "journal_file.h"
#include "reach.h"
#include "registryd.h"
#include "saved_file.h"

#include <stdatomic.h>
#include <stdbool.h>
#include <sys/types.h>

/* So much of a line is kept: one that is longer is refused whatever it says. */
#define MOST_LINE (1048576 + 1)

/* A program that this process has started. */
struct child {
    pid_t process;
    /* its standard input and output */
    struct channel channel;
    /* while this is open the program may live */
    int lifeline;
    bool was_reaped, was_saved;
};

/* Lines that were fed and have no reply so far. */
struct asked {
    /* from `begin` on `count` whole lines, up to `whole`, and then what is begun of one more */
    struct bytes text;
    size_t begin, whole, count;
    /* what the connection has not taken so far: from `sent` on */
    struct bytes unsent;
    size_t sent;
    /* for each whole line, from the one with this number on: the revision by which it is known to have been carried out, or 0 */
    struct bytes known;
    size_t first;
};

/* A service that this process is connected to. */
struct service {
    struct channel channel;
    /* its address, as it was given */
    char *where;
    struct asked asked;
    /* replies that are not taken: from `taken` on */
    struct bytes told;
    size_t taken;
    /* the revision that was told last */
    uint64_t revision;
    /* whether a line was answered since it was connected again, and how long to try that */
    bool is_answered;
    struct patience patience;
    /* whether the caller has ended the lines, and whether the session has ended before; then why, a number of errno.h, or 0 */
    bool is_ended, is_lost;
    int error;
    /* whether the session is being closed, which another thread may say */
    atomic_bool is_cut;
};

/* What the archive `embedded` keeps of a session in its caller's memory: zero at first, never copied or touched. */
struct slot {
    struct { void *at; } held;
    bool is_open;
};

/* A session in this process. */
struct embedded {
    struct slot slot;
    bool is_ended;
    /* whether a line is begun that has not ended */
    bool is_begun;
    /* where the journal goes: to a file as the session goes, or at its end, or nowhere */
    bool is_kept, is_saved;
    struct journal_file kept;
    struct saved_file saved;
    /* what ended the session before its time, if something did */
    struct fault fault;
    /* room for lines on their way to a file */
    struct bytes bytes;
};

/* What the archive keeps of a seat in its caller's memory: zero at first, never touched, and moved as a whole or not at all. */
struct seat_slot {
    struct { void *at; } held;
    bool is_open;
};

/* The file that the seats of one journal keep it in. */
struct seats_file;

/* A seat of a journal that several share in this process. */
struct seat {
    struct seat_slot slot;
    /* null where the journal is kept in none */
    struct seats_file *file;
    /* lines without an answer: whole ones up to `whole`, and then what is begun of one more */
    struct bytes lines;
    size_t whole;
    /* the replies: those from `taken` on are not taken, and may be as far as they are `safe`. The last one may be owed, where there was no
     * room for it. */
    struct bytes told;
    size_t taken, safe;
    /* whether the caller has ended the lines, and whether the file is told so */
    bool owes, is_ended, enters_no_more;
};

struct session {
    const struct way *way;
    union {
        struct child child;
        struct embedded embedded;
        struct seat seat;
        struct service service;
    };
};

/* What the calls do in one way. */
struct way {
    int (*feed)(struct session *it, const char *bytes, size_t length);
    int (*take)(struct session *it, char *bytes, size_t room, size_t *length, size_t *left);
    int (*save)(struct session *it);
    /* Copies the journal that a seat has seen; null where there are no seats. */
    int (*journal)(struct session *it, char *room, size_t size, size_t *length);
    void (*tell)(const struct session *it, struct telling telling);
    void (*close)(struct session *it);
    /* Breaks off what another call for the session may be waiting for meanwhile, where that can be done. */
    void (*cut)(struct session *it);
    /* In a process that was forked: closes its copies of what is open, and leaves all else as it is. */
    void (*forsake)(struct session *it);
};

/* Which files a session begins with and leaves; each may be null. A child process and its threads, or a session in process. Of a
 * service its address alone. */
struct wanted {
    const char *program;
    unsigned workers;
    bool has_budget;
    uint32_t budget;
    const char *journal, *load, *save;
    const char *where;
};

/* Each opens a session in a place that is all zero. Where it answers something else than REGISTRYD_OK it leaves nothing open. */
int open_child(struct session *it, const struct wanted *wanted, struct telling telling);
int open_embedded(struct session *it, const struct wanted *wanted, struct telling telling);
int open_service(struct session *it, const struct wanted *wanted, struct telling telling);

/* Opens the seats of a journal with room for so many entries, which begins with that of a file, or goes on with it, or begins with none. */
int open_seats(struct seat_slot *seats, size_t count, size_t entries, const struct wanted *wanted, struct seats_file **file,
               struct telling telling);
/* Has a session be one of these seats, in a place that is all zero. */
void take_seat(struct session *it, const struct seat_slot *slot, struct seats_file *file);

#endif
