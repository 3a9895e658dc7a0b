/* What can be the matter with the file of a journal, told in the words of the program, or with the connection to a service. */
#ifndef REGISTRYD_FAULT_H
#define REGISTRYD_FAULT_H

#include <stddef.h>

enum what {
    NOTHING,
    /* There is no memory. */
    NO_MEMORY,
    /* Another session has it. */
    IN_USE,
    /* It is a folder, a device or the like. */
    NOT_PLAIN,
    /* A line is not a journal's. */
    WRONG_LINE,
    /* It has more entries than there is room for. */
    TOO_LONG,
    /* An entry stands there that no seat made. */
    STRAY,
    /* Its name leads to no file or to another one, or it is not as long as the session left it. */
    CHANGED,
    /* The system refused something. */
    NOT_OPENED,
    NOT_CREATED,
    NOT_LOCKED,
    NOT_READ,
    NOT_CUT,
    NOT_WRITTEN,
    NOT_SYNCED
};

struct fault {
    enum what what;
    /* what the system answered, a number of errno.h, or 0 where it was not asked */
    int error;
    /* the number of a wrong line, from 1 */
    size_t line;
};

/* Where words go that tell what is the matter. */
struct telling {
    char *words;
    size_t room;
};

/* A fault that the system's last refusal is the reason for. */
struct fault refused(enum what what);

/* Tells a text, ended by a 0, as far as there is room. */
void tell_words(struct telling telling, const char *text);

/* Tells of a fault of the file of this name, in one line without its end. */
void tell_fault(struct telling telling, struct fault fault, const char *name);

/* Tells that the connection to a service has ended: its address, and what the system answered, or 0. */
void tell_broken(struct telling telling, const char *where, int error);

#endif
