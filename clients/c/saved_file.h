/* The file that a session leaves: looked for and held before the first line, and written at the end. What is written takes the
 * place of what stands there in one step. */
#ifndef REGISTRYD_SAVED_FILE_H
#define REGISTRYD_SAVED_FILE_H

#include "fault.h"
#include "files.h"

struct saved_file {
    /* as the caller named it, and, of a file that is to be replaced, where links lead from there */
    char *name, *path;
    /* the file that stands there, which no other session has, or -1; or what is no plain file, or is where
     * a standard stream goes, and is written itself */
    int file;
    bool is_other;
};

/* Reads the file of a whole journal. */
struct fault read_journal(const char *name, struct bytes *text);

/* Sees to it that a journal can be written to a file, as far as that can be known. Where something is the matter nothing is held. */
struct fault hold_saved(struct saved_file *it, const char *name);

/* Writes a journal there, and has it outlast a crash. Where that fails the file is as it was. */
struct fault write_saved(struct saved_file *it, const struct bytes *text);

/* Lets go of the file. */
void close_saved(struct saved_file *it);

#endif
