/* Loaded before the C library: runs a program many times, and refuses each run one request for memory, the one that has the run's
   number. The program is begun once: before its `main`, it is copied for each run, and what was begun itself only waits for the
   copies, one after another.

   The environment says which numbers: from REFUSE_FIRST to REFUSE_LAST, each REFUSE_STEP numbers on; a run with the number 0 is
   refused nothing. With REFUSE_BEHIND they end where so many runs in a row did not come to their request. Each run stands in a
   folder of its own, which is made where the program was begun, and is named by its number. It reads what the file REFUSE_GIVEN
   has, and leaves what it writes in the files `output` and `errors`. On standard output a line tells of each run how it ended (its
   status, or a signal's number below zero), how many requests there were, and whether it came to the one that is refused. */
#define _GNU_SOURCE
#include <dlfcn.h>
#include <errno.h>
#include <fcntl.h>
#include <stdatomic.h>
#include <stdio.h>
#include <stdlib.h>
#include <sys/mman.h>
#include <sys/stat.h>
#include <sys/wait.h>
#include <unistd.h>

enum { SECONDS = 60 }; /* that a run may take */

/* What a run and the process that waits for it share. Threads count together, so that one request alone has the number. */
struct run {
    long refused;
    atomic_long count;
    atomic_int came;
};
static struct run *run; /* none in the process that waits */

static int is_refused(void) {
    if (!run || atomic_fetch_add(&run->count, 1) + 1 != run->refused)
        return 0;
    atomic_store(&run->came, 1);
    errno = ENOMEM;
    return 1;
}

void *malloc(size_t size) {
    static void *(*real)(size_t);
    if (!real)
        real = (void *(*)(size_t))dlsym(RTLD_NEXT, "malloc");
    return is_refused() ? NULL : real(size);
}

void *realloc(void *old, size_t size) {
    static void *(*real)(void *, size_t);
    if (!real)
        real = (void *(*)(void *, size_t))dlsym(RTLD_NEXT, "realloc");
    return is_refused() ? NULL : real(old, size);
}

static void demand(int holds, const char *what) {
    if (holds)
        return;
    perror(what);
    _exit(99);
}

static long number_of(const char *name) {
    const char *text = getenv(name);
    return text ? atol(text) : 0;
}

static void open_as(int wanted, const char *path, int how) {
    int file = open(path, how, 0600);
    demand(file >= 0 && dup2(file, wanted) == wanted && close(file) == 0, path);
}

/* What a copy does before its `main`. */
static void begin(long number, const char *given) {
    char folder[32];
    snprintf(folder, sizeof folder, "%ld", number);
    demand(mkdir(folder, 0700) == 0 && chdir(folder) == 0, folder);
    open_as(STDIN_FILENO, given, O_RDONLY);
    open_as(STDOUT_FILENO, "output", O_WRONLY | O_CREAT);
    open_as(STDERR_FILENO, "errors", O_WRONLY | O_CREAT);
    alarm(SECONDS);
}

static void tell(pid_t copy, struct run *ran) {
    int status;
    demand(copy > 0 && waitpid(copy, &status, 0) == copy, "a run");
    int ended = WIFEXITED(status) ? WEXITSTATUS(status) : -WTERMSIG(status);
    demand(dprintf(STDOUT_FILENO, "%d %ld %d\n", ended, atomic_load(&ran->count), atomic_load(&ran->came)) > 0, "a line");
}

__attribute__((constructor)) static void run_each(void) {
    long last = number_of("REFUSE_LAST"), step = number_of("REFUSE_STEP"), most = number_of("REFUSE_BEHIND"), behind = 0;
    const char *given = getenv("REFUSE_GIVEN");
    struct run *shared = mmap(NULL, sizeof *shared, PROT_READ | PROT_WRITE, MAP_SHARED | MAP_ANONYMOUS, -1, 0);
    demand(given && shared != MAP_FAILED, "REFUSE_GIVEN");
    for (long number = number_of("REFUSE_FIRST"); number <= last && (!most || behind < most); number += step ? step : 1) {
        *shared = (struct run){.refused = number};
        pid_t copy = fork();
        if (!copy) {
            begin(number, given);
            run = shared;
            return;
        }
        tell(copy, shared);
        behind = atomic_load(&shared->came) ? 0 : behind + 1;
    }
    _exit(0);
}
