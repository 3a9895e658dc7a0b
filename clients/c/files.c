#define _GNU_SOURCE
#include "files.h"

#include <errno.h>
#include <fcntl.h>
#include <limits.h>
#include <stdint.h>
#include <stdlib.h>
#include <string.h>
#include <sys/file.h>
#include <unistd.h>

/* The mode of a new file, less what the process masks. */
#define NEW_MODE 0666

/* How much room is made for what is read before it is known how much that is. */
#define PIECE 65536

static bool was_broken_off(long answer)
{
    return answer < 0 && errno == EINTR;
}

bool make_room(struct bytes *bytes, size_t room)
{
    if (room <= bytes->room)
        return true;
    char *grown = room <= PTRDIFF_MAX ? realloc(bytes->at, room) : NULL;
    if (!grown)
        return false;
    bytes->at = grown;
    bytes->room = room;
    return true;
}

bool make_more(struct bytes *bytes, size_t more)
{
    size_t wanted = bytes->length + more;
    return wanted <= bytes->room || (wanted >= more && make_room(bytes, wanted < bytes->room * 2 ? bytes->room * 2 : wanted));
}

void append(struct bytes *bytes, const void *more, size_t length)
{
    if (length)
        memcpy(bytes->at + bytes->length, more, length);
    bytes->length += length;
}

void drop_first(struct bytes *bytes, size_t length)
{
    bytes->length -= length;
    if (length && bytes->length)
        memmove(bytes->at, bytes->at + length, bytes->length);
}

void copy_out(const struct bytes *bytes, size_t *taken, char *to, size_t room, size_t *length, size_t *left)
{
    *left = bytes->length - *taken;
    *length = room < *left ? room : *left;
    *left -= *length;
    if (*length)
        memcpy(to, bytes->at + *taken, *length);
    *taken += *length;
}

void free_bytes(struct bytes *bytes)
{
    free(bytes->at);
    *bytes = (struct bytes){.at = NULL};
}

uint8_t *bytes_at(const void *bytes)
{
    static uint8_t none;
    return bytes ? (uint8_t *)bytes : &none;
}

char *copy_of(const char *text, size_t length)
{
    char *copy = malloc(length + 1);
    if (copy) {
        memcpy(copy, text, length);
        copy[length] = '\0';
    }
    return copy;
}

int beside_streams(int file)
{
    if (file < 0 || file > STDERR_FILENO)
        return file;
    int other = fcntl(file, F_DUPFD_CLOEXEC, STDERR_FILENO + 1), error = errno;
    close(file);
    errno = error;
    return other;
}

int open_file(const char *name, int how)
{
    int file;
    do
        file = open(name, how | O_CLOEXEC, NEW_MODE);
    while (was_broken_off(file));
    return beside_streams(file);
}

int lock_file(int file)
{
    int answer;
    do
        answer = flock(file, LOCK_EX | LOCK_NB);
    while (was_broken_off(answer));
    if (answer == 0)
        return 1;
    return errno == EWOULDBLOCK ? 0 : -1;
}

void close_locked(int file)
{
    flock(file, LOCK_UN);
    close(file);
}

bool is_same_file(const struct stat *one, const struct stat *other)
{
    return one->st_ino == other->st_ino && one->st_dev == other->st_dev;
}

int is_named(const char *name, int file)
{
    struct stat held, named;
    if (fstat(file, &held) || stat(name, &named))
        return -1;
    return S_ISREG(held.st_mode) && is_same_file(&held, &named);
}

/* How many bytes are left of a plain file, as far as that is known. */
static size_t left_of(int file)
{
    struct stat found;
    if (fstat(file, &found) || !S_ISREG(found.st_mode) || found.st_size < 0 || found.st_size > PTRDIFF_MAX - PIECE)
        return 0;
    return (size_t)found.st_size;
}

int read_whole(int file, struct bytes *bytes)
{
    /* a byte more, so that the end is found without more room */
    if (!make_room(bytes, bytes->length + left_of(file) + 1))
        return 0;
    for (;;) {
        if (bytes->length == bytes->room && !make_room(bytes, bytes->room < PIECE ? PIECE : bytes->room * 2))
            return 0;
        ssize_t got = read(file, bytes->at + bytes->length, bytes->room - bytes->length);
        if (got == 0)
            return 1;
        if (got > 0)
            bytes->length += (size_t)got;
        else if (!was_broken_off(got))
            return -1;
    }
}

bool write_all(int file, const char *bytes, size_t length)
{
    while (length) {
        ssize_t written = write(file, bytes, length);
        if (written > 0) {
            bytes += written;
            length -= (size_t)written;
        } else if (!was_broken_off(written)) {
            if (written == 0)
                errno = EIO;
            return false;
        }
    }
    return true;
}

bool cut_file(int file, off_t length)
{
    int answer;
    do
        answer = ftruncate(file, length);
    while (was_broken_off(answer));
    return answer == 0;
}

bool sync_file(int file)
{
    int answer;
    do
        answer = fsync(file);
    while (was_broken_off(answer));
    return answer == 0;
}

bool sync_data(int file)
{
    int answer;
    do
        answer = fdatasync(file);
    while (was_broken_off(answer));
    return answer == 0;
}

/* Opens the folder of a file, as a name can tell it. */
static int open_folder(const char *name)
{
    const char *slash = strrchr(name, '/');
    if (!slash)
        return open_file(".", O_RDONLY);
    if (slash == name)
        return open_file("/", O_RDONLY);
    /* No memory is asked for: a file that is in its place already is synced, whatever is left. */
    char folder[PATH_MAX];
    size_t length = (size_t)(slash - name);
    if (length >= sizeof folder) {
        errno = ENAMETOOLONG;
        return -1;
    }
    memcpy(folder, name, length);
    folder[length] = '\0';
    return open_file(folder, O_RDONLY);
}

bool sync_folder(const char *name)
{
    int folder = open_folder(name);
    if (folder < 0)
        return false;
    bool is_synced = sync_file(folder) || errno == EINVAL || errno == EOPNOTSUPP;
    int error = errno;
    close(folder);
    errno = error;
    return is_synced;
}
