/* The file of a journal that is kept as a session goes: opened, locked, brought to its last whole line, and written at its end. */
#ifndef REGISTRYD_JOURNAL_FILE_H
#define REGISTRYD_JOURNAL_FILE_H

#include "fault.h"
#include "files.h"

struct journal_file {
    /* as the caller named it, and as that means the same wherever the process goes */
    char *name, *path;
    int file;
    /* what was found of it, which tells it from other files */
    struct stat held;
    /* how long it is where nobody else writes to it */
    off_t length;
};

/* Begins with what stands in a file, and tells how many of its bytes stay. */
typedef struct fault recovering(void *whom, const struct bytes *text, size_t *kept);

/* Opens a plain file that no other session has, and makes it where it is not there. Has `whom` begin with what stands in it; then has it
 * end behind the bytes that stay, and have its first line in the second format, and has all of that outlast a crash. Where something is
 * the matter the file is closed. */
struct fault begin_journal(struct journal_file *it, const char *name, recovering *recover, void *whom);

/* Puts bytes behind the end, where the name still leads to the file and that has the length that the session left it with, and has them
 * outlast a crash. */
struct fault append_to_journal(struct journal_file *it, const struct bytes *bytes);

/* Closes the file, which frees the lock. */
void close_journal(struct journal_file *it);

#endif
