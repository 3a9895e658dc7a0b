#define _GNU_SOURCE
#include "saved_file.h"

#include "links.h"

#include <errno.h>
#include <fcntl.h>
#include <stdio.h>
#include <stdlib.h>
#include <string.h>
#include <unistd.h>

/* How many names for a new file are tried. */
#define MOST_NAMES 1000

static const struct fault fine = {.what = NOTHING};

static struct fault of(enum what what)
{
    return (struct fault){.what = what};
}

struct fault read_journal(const char *name, struct bytes *text)
{
    int file = open_file(name, O_RDONLY);
    if (file < 0)
        return refused(NOT_OPENED);
    int is_read = read_whole(file, text);
    struct fault fault = is_read > 0 ? fine : is_read < 0 ? refused(NOT_READ) : of(NO_MEMORY);
    close(file);
    return fault;
}

/* ---- a new file beside the old one */

/* The name of this number beside the file's, in memory of its own, or null. */
static char *name_beside(const struct saved_file *it, int number)
{
    size_t room = strlen(it->path) + sizeof ".new" + 10;
    char *name = malloc(room);
    if (name)
        snprintf(name, room, number ? "%s.new%d" : "%s.new", it->path, number);
    return name;
}

/* Makes a file with a name that no other has: an open file, or -1. */
static int make_beside(const struct saved_file *it, char **name)
{
    for (int number = 0; number < MOST_NAMES; number++) {
        *name = name_beside(it, number);
        if (!*name) {
            errno = ENOMEM;
            return -1;
        }
        int file = open_file(*name, O_WRONLY | O_CREAT | O_EXCL);
        int error = errno;
        if (file >= 0)
            return file;
        free(*name);
        errno = error;
        if (error != EEXIST)
            return -1;
    }
    return -1;
}

/* ---- before the first line */

/* Opens the file that stands there, if one does: an open file, -1, or -2 where none stands there. */
static int open_held(const struct saved_file *it)
{
    int file = open_file(it->path, O_RDONLY);
    /* A lock asks for an open file, and not for one that can be read. */
    if (file < 0 && errno == EACCES)
        file = open_file(it->path, O_WRONLY);
    return file < 0 && errno == ENOENT ? -2 : file;
}

/* Has the file that stands there, if one does, for this session alone. */
static struct fault hold_alone(struct saved_file *it)
{
    it->file = open_held(it);
    if (it->file == -1)
        return refused(NOT_OPENED);
    if (it->file == -2) {
        it->file = -1;
        return fine;
    }
    int is_locked = lock_file(it->file);
    if (is_locked < 0)
        return refused(NOT_LOCKED);
    int is_still_named = is_locked ? is_named(it->path, it->file) : 0;
    if (is_still_named < 0)
        return refused(NOT_OPENED);
    return is_still_named ? fine : of(IN_USE);
}

static struct fault try_beside(const struct saved_file *it)
{
    char *name;
    int file = make_beside(it, &name);
    if (file < 0)
        return refused(NOT_CREATED);
    close(file);
    struct fault fault = unlink(name) ? refused(NOT_CREATED) : fine;
    free(name);
    return fault;
}

/* Whether it is the file to which a standard stream goes. */
static bool is_stream(const struct stat *found)
{
    struct stat stream;
    for (int file = STDOUT_FILENO; file <= STDERR_FILENO; file++)
        if (fstat(file, &stream) == 0 && is_same_file(&stream, found))
            return true;
    return false;
}

/* Opens what is written itself: behind what a stream has written there. */
static struct fault hold_other(struct saved_file *it, bool is_plain)
{
    it->is_other = true;
    it->file = open_file(it->name, is_plain ? O_WRONLY | O_APPEND : O_WRONLY);
    return it->file < 0 ? refused(NOT_OPENED) : fine;
}

static struct fault hold_place(struct saved_file *it)
{
    it->path = without_links(it->name);
    if (!it->path)
        return refused(NOT_OPENED);
    struct fault fault = hold_alone(it);
    return fault.what == NOTHING ? try_beside(it) : fault;
}

struct fault hold_saved(struct saved_file *it, const char *name)
{
    struct stat found;
    struct fault fault = of(NO_MEMORY);
    *it = (struct saved_file){.name = copy_of(name, strlen(name)), .file = -1};
    if (it->name) {
        bool is_there = stat(name, &found) == 0, is_plain = is_there && S_ISREG(found.st_mode);
        fault = is_there && (!is_plain || is_stream(&found)) ? hold_other(it, is_plain) : hold_place(it);
    }
    if (fault.what != NOTHING)
        close_saved(it);
    return fault;
}

/* ---- at the end */

/* Gives a new file the owner, group and mode of the old one, where the process may do so; nobody may read more of it before. */
static bool liken(int file, int old)
{
    struct stat found;
    if (fstat(old, &found))
        return false;
    if (fchown(file, found.st_uid, found.st_gid) && fchown(file, (uid_t)-1, found.st_gid))
        errno = 0; /* it stays the caller's */
    return fchmod(file, found.st_mode & 07777) == 0;
}

/* Puts a new file in the place of the old one. Where none stood there when the session began, and one does now, that one stays. */
static bool take_place(const struct saved_file *it, const char *name)
{
    if (it->file >= 0)
        return rename(name, it->path) == 0;
    if (link(name, it->path) == 0) {
        unlink(name);
        return true;
    }
    /* a file system without links */
    return errno != EEXIST && rename(name, it->path) == 0;
}

static bool replace(const struct saved_file *it, const struct bytes *text)
{
    char *name;
    int file = make_beside(it, &name);
    if (file < 0)
        return false;
    bool is_done = (it->file < 0 || liken(file, it->file)) && write_all(file, text->at, text->length) && sync_file(file)
        && take_place(it, name);
    int error = errno;
    if (!is_done)
        unlink(name);
    close(file);
    free(name);
    errno = error;
    return is_done;
}

struct fault write_saved(struct saved_file *it, const struct bytes *text)
{
    if (it->is_other)
        return write_all(it->file, text->at, text->length) ? fine : refused(NOT_WRITTEN);
    if (!replace(it, text))
        return refused(NOT_WRITTEN);
    return sync_folder(it->path) ? fine : refused(NOT_SYNCED);
}

void close_saved(struct saved_file *it)
{
    if (it->file >= 0)
        close_locked(it->file);
    it->file = -1;
    free(it->name);
    free(it->path);
    it->name = it->path = NULL;
}
