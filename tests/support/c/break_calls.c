/* Loaded before the C library: breaks calls of one function. BREAK_CALL names the
   function, and BREAK_NUMBER tells which of its calls, counted from 1: this one
   alone or, if BREAK_EVERY is given, also each that comes so many later. A broken
   call fails with the number BREAK_ERROR of errno.h; without one, a read or a write
   is short: it is of one byte. On descriptor BREAK_TELL, if given, a byte is written
   for the first call that is broken. */
#define _GNU_SOURCE
#include <dlfcn.h>
#include <errno.h>
#include <fcntl.h>
#include <pthread.h>
#include <stdarg.h>
#include <stdatomic.h>
#include <stdio.h>
#include <stdlib.h>
#include <string.h>
#include <sys/file.h>
#include <sys/stat.h>
#include <sys/syscall.h>
#include <unistd.h>

static atomic_long count;
static atomic_flag is_told = ATOMIC_FLAG_INIT;

static long number_of(const char *name) {
    const char *text = getenv(name);
    return text ? atol(text) : 0;
}

static void tell(void) {
    const char *to = getenv("BREAK_TELL");
    if (to && !atomic_flag_test_and_set(&is_told) && syscall(SYS_write, atoi(to), "x", 1) < 0)
        syscall(SYS_exit_group, 99);
}

static int is_broken(const char *name) {
    const char *wanted = getenv("BREAK_CALL");
    if (!wanted || strcmp(name, wanted))
        return 0;
    long at = atomic_fetch_add(&count, 1) + 1, first = number_of("BREAK_NUMBER"), every = number_of("BREAK_EVERY");
    if (at != first && !(every && at > first && (at - first) % every == 0))
        return 0;
    tell();
    return 1;
}

#define FAIL_OR_GO_ON(name, failed)       \
    if (is_broken(name)) {                \
        errno = number_of("BREAK_ERROR"); \
        return failed;                    \
    }
#define REAL(name) (__typeof__(&name)) dlsym(RTLD_NEXT, #name)

/* How many bytes of a read or a write are left to it, or none where it fails. */
static size_t left(const char *name, size_t size) {
    if (!is_broken(name))
        return size;
    errno = number_of("BREAK_ERROR");
    return errno ? 0 : size < 1 ? size : 1;
}

ssize_t read(int file, void *bytes, size_t size) {
    size_t most = left("read", size);
    return most || !size ? (REAL(read))(file, bytes, most) : -1;
}

ssize_t write(int file, const void *bytes, size_t size) {
    size_t most = left("write", size);
    return most || !size ? (REAL(write))(file, bytes, most) : -1;
}

int open(const char *path, int how, ...) {
    va_list more;
    va_start(more, how);
    mode_t mode = how & O_CREAT ? va_arg(more, mode_t) : 0;
    va_end(more);
    FAIL_OR_GO_ON("open", -1)
    return (REAL(open))(path, how, mode);
}

int close(int file) {
    /* the descriptor is closed all the same, as Linux does it */
    int done = (REAL(close))(file);
    FAIL_OR_GO_ON("close", -1)
    return done;
}

int fsync(int file) {
    FAIL_OR_GO_ON("fsync", -1)
    return (REAL(fsync))(file);
}

int fdatasync(int file) {
    FAIL_OR_GO_ON("fdatasync", -1)
    return (REAL(fdatasync))(file);
}

int ftruncate(int file, off_t size) {
    FAIL_OR_GO_ON("ftruncate", -1)
    return (REAL(ftruncate))(file, size);
}

off_t lseek(int file, off_t from, int how) {
    FAIL_OR_GO_ON("lseek", -1)
    return (REAL(lseek))(file, from, how);
}

int flock(int file, int how) {
    FAIL_OR_GO_ON("flock", -1)
    return (REAL(flock))(file, how);
}

int fchmod(int file, mode_t mode) {
    FAIL_OR_GO_ON("fchmod", -1)
    return (REAL(fchmod))(file, mode);
}

int fchown(int file, uid_t owner, gid_t group) {
    FAIL_OR_GO_ON("fchown", -1)
    return (REAL(fchown))(file, owner, group);
}

int link(const char *from, const char *to) {
    FAIL_OR_GO_ON("link", -1)
    return (REAL(link))(from, to);
}

ssize_t readlink(const char *restrict path, char *restrict bytes, size_t size) {
    FAIL_OR_GO_ON("readlink", -1)
    return (REAL(readlink))(path, bytes, size);
}

int rename(const char *from, const char *to) {
    FAIL_OR_GO_ON("rename", -1)
    return (REAL(rename))(from, to);
}

int unlink(const char *path) {
    FAIL_OR_GO_ON("unlink", -1)
    return (REAL(unlink))(path);
}

int stat(const char *restrict path, struct stat *restrict found) {
    FAIL_OR_GO_ON("stat", -1)
    return (REAL(stat))(path, found);
}

int fstat(int file, struct stat *found) {
    FAIL_OR_GO_ON("fstat", -1)
    return (REAL(fstat))(file, found);
}

int statx(int folder, const char *restrict path, int flags, unsigned wanted, struct statx *restrict found) {
    FAIL_OR_GO_ON("statx", -1)
    return (REAL(statx))(folder, path, flags, wanted, found);
}

int pthread_create(pthread_t *restrict thread, const pthread_attr_t *restrict how, void *(*begin)(void *), void *restrict given) {
    if (is_broken("pthread_create"))
        return number_of("BREAK_ERROR");
    return (REAL(pthread_create))(thread, how, begin, given);
}
