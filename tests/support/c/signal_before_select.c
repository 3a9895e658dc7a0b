/* Loaded before the C library: SIGTERM comes just before the first wait for a key, as it may by chance. */
#define _GNU_SOURCE
#include <dlfcn.h>
#include <signal.h>
#include <sys/select.h>

int select(int files, fd_set *reading, fd_set *writing, fd_set *failing, struct timeval *limit) {
    static int has_come;
    int (*waits)(int, fd_set *, fd_set *, fd_set *, struct timeval *) = dlsym(RTLD_NEXT, "select");
    if (files == 1 && !limit && !has_come++)
        raise(SIGTERM);
    return waits(files, reading, writing, failing, limit);
}
