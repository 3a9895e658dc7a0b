/* Loaded before the C library: notes what a program does at files, in order, and kills it at one of these calls. On
   descriptor WATCH_TO, a file that is appended to, each call has a line once it is done: its name, what it answered, and
   what it was given, numbers in decimal and bytes in hexadecimal. WATCH_KILL, if given, tells which call kills the
   program, counted from 1, and WATCH_SIDE on which side of it: `before`, `behind`, or, of a write, `amid`, when half of
   its bytes are written. It is killed by the signal of number WATCH_SIGNAL, if that is given: by SIGSTOP it is stopped. */
#define _GNU_SOURCE
#include <dlfcn.h>
#include <errno.h>
#include <fcntl.h>
#include <pthread.h>
#include <signal.h>
#include <stdarg.h>
#include <stdatomic.h>
#include <stdio.h>
#include <stdlib.h>
#include <string.h>
#include <sys/stat.h>
#include <sys/syscall.h>
#include <unistd.h>

#define PIECE 4096

static atomic_long count;
static pthread_mutex_t lock = PTHREAD_MUTEX_INITIALIZER;

static void put(const char *bytes, size_t size) {
    const char *to = getenv("WATCH_TO");
    if (to && syscall(SYS_write, atoi(to), bytes, size) != (long)size)
        syscall(SYS_exit_group, 99);
}

static void put_hexadecimal(const unsigned char *bytes, size_t size) {
    char piece[2 * PIECE + 1];
    while (size) {
        size_t few = size < PIECE ? size : PIECE;
        for (size_t i = 0; i < few; i++)
            snprintf(piece + 2 * i, 3, "%02x", bytes[i]);
        put(piece, 2 * few);
        bytes += few;
        size -= few;
    }
}

static void note(const char *name, long answer, long number, const void *bytes, size_t size, const char *other) {
    char head[100];
    pthread_mutex_lock(&lock);
    put(head, (size_t)snprintf(head, sizeof head, "%s %ld %ld ", name, answer, number));
    put_hexadecimal(bytes, size);
    put(" ", 1);
    put_hexadecimal((const unsigned char *)other, strlen(other));
    put("\n", 1);
    pthread_mutex_unlock(&lock);
}

static int is_killed(long at, const char *side) {
    const char *wanted = getenv("WATCH_KILL"), *where = getenv("WATCH_SIDE");
    return wanted && where && atol(wanted) == at && !strcmp(side, where);
}

static void die(void) {
    const char *given = getenv("WATCH_SIGNAL");
    syscall(SYS_kill, syscall(SYS_getpid), given ? atoi(given) : SIGKILL);
}

/* The number of a call that is about to be made. */
static long begun(void) {
    long at = atomic_fetch_add(&count, 1) + 1;
    if (is_killed(at, "before"))
        die();
    return at;
}

static void done(long at) {
    if (is_killed(at, "behind"))
        die();
}

#define REAL(name) (__typeof__(&name)) dlsym(RTLD_NEXT, #name)
#define WATCH(name, number, bytes, size, other, ...)                       \
    long at = begun();                                                     \
    long answer = (REAL(name))(__VA_ARGS__);                               \
    int error = errno;                                                     \
    note(#name, answer, number, bytes, size, other);                       \
    done(at);                                                              \
    errno = error;                                                         \
    return answer;

ssize_t write(int file, const void *bytes, size_t size) {
    long at = begun();
    int is_torn = is_killed(at, "amid");
    ssize_t answer = (REAL(write))(file, bytes, is_torn ? size / 2 : size);
    int error = errno;
    note("write", answer, file, bytes, answer < 0 ? 0 : (size_t)answer, "");
    if (is_torn)
        die();
    done(at);
    errno = error;
    return answer;
}

int open(const char *path, int how, ...) {
    va_list more;
    va_start(more, how);
    mode_t mode = how & O_CREAT ? va_arg(more, mode_t) : 0;
    va_end(more);
    WATCH(open, how, path, strlen(path), "", path, how, mode)
}

ssize_t read(int file, void *bytes, size_t size) { WATCH(read, file, "", 0, "", file, bytes, size) }
int close(int file) { WATCH(close, file, "", 0, "", file) }
int fsync(int file) { WATCH(fsync, file, "", 0, "", file) }
int fdatasync(int file) { WATCH(fdatasync, file, "", 0, "", file) }
int flock(int file, int how) { WATCH(flock, file, "", 0, "", file, how) }
int fchmod(int file, mode_t mode) { WATCH(fchmod, file, "", 0, "", file, mode) }
int fchown(int file, uid_t owner, gid_t group) { WATCH(fchown, file, "", 0, "", file, owner, group) }
int rename(const char *from, const char *to) { WATCH(rename, 0, from, strlen(from), to, from, to) }
int link(const char *from, const char *to) { WATCH(link, 0, from, strlen(from), to, from, to) }
int unlink(const char *path) { WATCH(unlink, 0, path, strlen(path), "", path) }

ssize_t readlink(const char *restrict path, char *restrict bytes, size_t size) {
    WATCH(readlink, 0, path, strlen(path), "", path, bytes, size)
}

int ftruncate(int file, off_t size) {
    char told[30];
    WATCH(ftruncate, file, told, (size_t)snprintf(told, sizeof told, "%lld", (long long)size), "", file, size)
}

off_t lseek(int file, off_t from, int how) { WATCH(lseek, file, "", 0, "", file, from, how) }

int statx(int folder, const char *restrict path, int flags, unsigned wanted, struct statx *restrict found) {
    WATCH(statx, folder, path, strlen(path), "", folder, path, flags, wanted, found)
}
