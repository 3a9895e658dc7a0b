/* Calls of sessions in process that a careless caller makes. It prints the first line that failed. The word is what is tried:
 * `calls`, `forks`, `forks beside a thread` or `threads`. */
#define _GNU_SOURCE
#include "c_calls.h"

#include <errno.h>
#include <fcntl.h>
#include <signal.h>
#include <sys/stat.h>
#include <sys/syscall.h>
#include <sys/wait.h>
#include <unistd.h>

static char words[REGISTRYD_WORDS];

static registryd_session opened(const char *load, const char *save)
{
    registryd_session session = 0;
    WANT(registryd_open_embedded(load, save, &session, words, sizeof words) == REGISTRYD_OK);
    WANT(session != 0 && words[0] == '\0');
    return session;
}

static registryd_session opened_journal(const char *journal)
{
    registryd_session session = 0;
    WANT(registryd_open_embedded_journal(journal, &session, words, sizeof words) == REGISTRYD_OK);
    WANT(session != 0 && words[0] == '\0');
    return session;
}

static void closed(registryd_session session)
{
    WANT(registryd_close(session) == REGISTRYD_OK);
}

static void wrong_arguments(void)
{
    registryd_session session = opened(NULL, NULL), none = 5;
    char text[8];
    size_t length = 3, left = 3;
    WANT(registryd_open_embedded(NULL, NULL, NULL, words, sizeof words) == REGISTRYD_MISUSE && words[0]);
    WANT(registryd_open_embedded(NULL, NULL, &none, NULL, 1) == REGISTRYD_MISUSE);
    WANT(registryd_open_embedded(NULL, NULL, &none, words, SIZE_MAX) == REGISTRYD_MISUSE);
    WANT(registryd_open_embedded_journal(NULL, &none, words, sizeof words) == REGISTRYD_MISUSE);
    WANT(registryd_open_embedded_journal("w.journal", NULL, words, sizeof words) == REGISTRYD_MISUSE);
    WANT(none == 5 && access("w.journal", F_OK) != 0);
    WANT(registryd_feed(session, NULL, 1) == REGISTRYD_MISUSE);
    WANT(registryd_feed(session, list, SIZE_MAX) == REGISTRYD_MISUSE);
    WANT(registryd_feed(session, list, (size_t)PTRDIFF_MAX + 1) == REGISTRYD_MISUSE);
    WANT(registryd_feed(session, NULL, 0) == REGISTRYD_OK);
    WANT(registryd_take(session, NULL, 1, &length, &left) == REGISTRYD_MISUSE);
    WANT(registryd_take(session, text, SIZE_MAX, &length, &left) == REGISTRYD_MISUSE);
    WANT(registryd_take(session, text, 1, NULL, &left) == REGISTRYD_MISUSE);
    WANT(registryd_take(session, text, 1, &length, NULL) == REGISTRYD_MISUSE);
    WANT(registryd_ask(session, NULL, 1, text, 1, &length, &left) == REGISTRYD_MISUSE);
    WANT(registryd_ask(session, list, SIZE_MAX, text, 1, &length, &left) == REGISTRYD_MISUSE);
    WANT(registryd_ask(session, list, 1, NULL, 1, &length, &left) == REGISTRYD_MISUSE);
    WANT(registryd_ask(session, list, 1, text, 1, NULL, &left) == REGISTRYD_MISUSE);
    WANT(registryd_ask(session, list, 1, text, 1, &length, NULL) == REGISTRYD_MISUSE);
    WANT(registryd_error(session, NULL, 1) == REGISTRYD_MISUSE);
    WANT(registryd_error(session, words, SIZE_MAX) == REGISTRYD_MISUSE);
    WANT(length == 3 && left == 3);
    /* All that was refused has done nothing. */
    fed(session, list);
    WANT(registryd_take(session, NULL, 0, &length, &left) == REGISTRYD_OK && length == 0 && left == strlen(listed));
    WANT(registryd_take(session, text, 1, &length, &left) == REGISTRYD_OK && length == 1 && text[0] == '{');
    told(session, listed + 1);
    told(session, "");
    WANT(registryd_error(session, NULL, 0) == REGISTRYD_OK);
    WANT(registryd_error(session, words, sizeof words) == REGISTRYD_OK && words[0] == '\0');
    closed(session);
}

static void wrong_sessions(void)
{
    registryd_session first = opened(NULL, NULL);
    size_t length, left;
    char text[8];
    closed(first);
    WANT(registryd_close(first) == REGISTRYD_MISUSE);
    /* A number is not given twice, so an old one doesn't reach a new session. */
    registryd_session second = opened(NULL, NULL);
    WANT(first != second);
    const registryd_session wrong[] = {0, 1, first, second + 1, second + REGISTRYD_SESSIONS, UINT64_MAX};
    for (size_t i = 0; i < sizeof wrong / sizeof *wrong; i++) {
        WANT(registryd_feed(wrong[i], list, 1) == REGISTRYD_MISUSE);
        WANT(registryd_take(wrong[i], text, 1, &length, &left) == REGISTRYD_MISUSE);
        WANT(registryd_ask(wrong[i], list, 1, text, 1, &length, &left) == REGISTRYD_MISUSE);
        WANT(registryd_save(wrong[i]) == REGISTRYD_MISUSE);
        WANT(registryd_error(wrong[i], words, sizeof words) == REGISTRYD_MISUSE);
        WANT(registryd_close(wrong[i]) == REGISTRYD_MISUSE);
    }
    fed(second, list);
    told(second, listed);
    closed(second);
}

static void many_sessions(void)
{
    registryd_session all[REGISTRYD_SESSIONS], more = 5;
    for (int i = 0; i < REGISTRYD_SESSIONS; i++) {
        all[i] = opened(NULL, NULL);
        if (i % 2)
            fed(all[i], publish);
    }
    WANT(registryd_open_embedded(NULL, NULL, &more, words, sizeof words) == REGISTRYD_MEMORY && more == 5 && words[0]);
    for (int i = 0; i < REGISTRYD_SESSIONS; i++) {
        told(all[i], i % 2 ? published : "");
        fed(all[i], list);
        told(all[i], i % 2 ? listed_a : listed);
        closed(all[i]);
    }
    closed(opened(NULL, NULL));
}

/* Lines that come byte by byte, and a last one without its line feed, which is answered at the end. */
static void pieces(void)
{
    registryd_session session = opened(NULL, NULL);
    char text[64];
    size_t length, left;
    for (const char *at = list; *at; at++)
        WANT(registryd_feed(session, at, 1) == REGISTRYD_OK);
    told(session, listed);
    WANT(registryd_ask(session, list, strlen(list), text, 5, &length, &left) == REGISTRYD_OK);
    WANT(length == 5 && left == strlen(listed) - 5 && !memcmp(text, listed, 5));
    told(session, listed + 5);
    WANT(registryd_feed(session, list, strlen(list) - 1) == REGISTRYD_OK);
    told(session, "");
    WANT(registryd_save(session) == REGISTRYD_OK);
    told(session, listed);
    WANT(registryd_feed(session, list, strlen(list)) == REGISTRYD_MISUSE);
    WANT(registryd_ask(session, list, strlen(list), text, 5, &length, &left) == REGISTRYD_MISUSE && length == 0 && left == 0);
    WANT(registryd_save(session) == REGISTRYD_OK);
    closed(session);
}

/* Many replies that nobody takes. */
static void much(void)
{
    registryd_session session = opened(NULL, NULL);
    const size_t count = 40000, each = strlen(listed);
    char *text = malloc(count * each + 1);
    size_t length, left;
    WANT(text);
    for (size_t i = 0; i < count; i++)
        fed(session, list);
    WANT(registryd_take(session, text, count * each + 1, &length, &left) == REGISTRYD_OK);
    WANT(length == count * each && left == 0);
    for (size_t i = 0; i < count; i++)
        WANT(!memcmp(text + i * each, listed, each));
    free(text);
    closed(session);
}

static void is_told(const char *wanted)
{
    if (strcmp(words, wanted))
        printf("it is told: %s\n", words);
    WANT(!strcmp(words, wanted));
}

static void saved_journals(void)
{
    registryd_session none = 5, session = opened(NULL, "a.journal");
    /* One that is closed unsaved writes nothing. */
    fed(session, publish);
    told(session, published);
    closed(session);
    WANT(access("a.journal", F_OK) != 0);
    session = opened(NULL, "a.journal");
    fed(session, publish);
    WANT(registryd_save(session) == REGISTRYD_OK);
    told(session, published);
    closed(session);
    session = opened("a.journal", NULL);
    fed(session, list);
    told(session, listed_a);
    WANT(registryd_save(session) == REGISTRYD_OK);
    closed(session);
    WANT(registryd_open_embedded("no/such.journal", "b.journal", &none, words, sizeof words) == REGISTRYD_JOURNAL);
    is_told("journal no/such.journal: can't be opened: No such file or directory (os error 2)");
    WANT(registryd_open_embedded("a.journal", "no/such.journal", &none, words, sizeof words) == REGISTRYD_JOURNAL);
    is_told("journal no/such.journal: can't be created: No such file or directory (os error 2)");
    WANT(registryd_open_embedded("/dev/null", NULL, &none, words, sizeof words) == REGISTRYD_JOURNAL);
    is_told("journal /dev/null: line 1 is not a journal's, and nothing was changed");
    /* Words that find no room are cut off. */
    WANT(registryd_open_embedded("/dev/null", NULL, &none, words, 13) == REGISTRYD_JOURNAL);
    is_told("journal /dev");
    WANT(registryd_open_embedded("/dev/null", NULL, &none, NULL, 0) == REGISTRYD_JOURNAL);
    WANT(none == 5 && access("b.journal", F_OK) != 0);
}

/* The file is the one that was named, wherever the process has gone since. */
static void moved_process(void)
{
    registryd_session session = opened(NULL, "m.journal"), kept = opened_journal("n.journal");
    fed(session, publish);
    fed(kept, publish);
    WANT(mkdir("folder", 0700) == 0 && chdir("folder") == 0);
    WANT(registryd_save(session) == REGISTRYD_OK && registryd_save(kept) == REGISTRYD_OK);
    closed(session);
    closed(kept);
    WANT(access("m.journal", F_OK) != 0 && access("n.journal", F_OK) != 0);
    WANT(chdir("..") == 0);
    closed(opened("m.journal", NULL));
    closed(opened("n.journal", NULL));
}

/* What is opened gets no number of a standard stream, also where one is closed. */
static void closed_streams(const char *program)
{
    registryd_session session, by_child;
    int input = dup(STDIN_FILENO), output = dup(STDOUT_FILENO);
    close(STDIN_FILENO);
    close(STDOUT_FILENO);
    session = opened_journal("o.journal");
    WANT(registryd_open(program, 1, NULL, NULL, &by_child) == REGISTRYD_OK);
    WANT(fcntl(STDIN_FILENO, F_GETFD) < 0 && fcntl(STDOUT_FILENO, F_GETFD) < 0);
    fed(by_child, list);
    told(by_child, listed);
    closed(by_child);
    closed(session);
    WANT(dup2(input, STDIN_FILENO) == STDIN_FILENO && dup2(output, STDOUT_FILENO) == STDOUT_FILENO);
    close(input);
    close(output);
}

/* A journal that is gone on with has what was told as accepted, though the session is not saved; one session has it at a time. */
static void kept_journals(void)
{
    registryd_session none = 5, session = opened_journal("k.journal");
    fed(session, publish);
    told(session, published);
    WANT(registryd_open_embedded_journal("k.journal", &none, words, sizeof words) == REGISTRYD_JOURNAL && none == 5);
    is_told("journal k.journal: in use by another session");
    WANT(registryd_open_embedded(NULL, "k.journal", &none, words, sizeof words) == REGISTRYD_JOURNAL && none == 5);
    is_told("journal k.journal: in use by another session");
    closed(session);
    session = opened("k.journal", NULL);
    closed(session);
    session = opened_journal("k.journal");
    fed(session, list);
    told(session, listed_a);
    WANT(registryd_save(session) == REGISTRYD_OK);
    closed(session);
}

/* A file that someone else has changed is not gone on with, and no reply that rests on it is given. */
static void changed_journals(void)
{
    registryd_session session = opened_journal("c.journal");
    char text[8];
    size_t length, left;
    WANT(truncate("c.journal", 4) == 0);
    WANT(registryd_feed(session, publish, strlen(publish)) == REGISTRYD_JOURNAL);
    for (int i = 0; i < 2; i++) {
        WANT(registryd_take(session, text, sizeof text, &length, &left) == REGISTRYD_JOURNAL && length == 0 && left == 0);
        WANT(registryd_feed(session, list, strlen(list)) == REGISTRYD_JOURNAL);
        WANT(registryd_save(session) == REGISTRYD_JOURNAL);
        WANT(registryd_error(session, words, sizeof words) == REGISTRYD_OK);
        is_told("journal c.journal: changed by another program, and not gone on with");
    }
    closed(session);
}

/* ---- a process that was forked */

static void *opens_and_closes(void *nothing)
{
    for (int i = 0; i < 200; i++)
        closed(opened(NULL, NULL));
    return nothing;
}

/* What a forked process may do with what its parent has open: nothing; it may open sessions of its own. It tells that it has tried, and
 * lives on until it may end. */
static void in_fork(registryd_session session, registryd_session by_child, int tells, int ends)
{
    char text[8];
    size_t length, left;
    const registryd_session both[] = {session, by_child};
    for (int i = 0; i < 2; i++) {
        WANT(registryd_feed(both[i], publish, strlen(publish)) == REGISTRYD_MISUSE);
        WANT(registryd_take(both[i], text, sizeof text, &length, &left) == REGISTRYD_MISUSE);
        WANT(registryd_save(both[i]) == REGISTRYD_MISUSE);
        WANT(registryd_error(both[i], words, sizeof words) == REGISTRYD_MISUSE);
        WANT(registryd_close(both[i]) == REGISTRYD_MISUSE);
    }
    registryd_session own = 0;
    WANT(registryd_open_embedded_journal("f.journal", &own, words, sizeof words) == REGISTRYD_JOURNAL);
    is_told("journal f.journal: in use by another session");
    own = opened(NULL, NULL);
    WANT(own != session && own != by_child);
    fed(own, list);
    told(own, listed);
    closed(own);
    WANT(write(tells, "x", 1) == 1 && read(ends, text, 1) == 0);
    _exit(0);
}

#define FORKS 20

static void forks(const char *program, int is_threaded)
{
    registryd_session session = opened_journal("f.journal"), by_child = 0;
    pthread_t thread;
    char text[1];
    int tried[2], ends[2], status;
    WANT(registryd_open(program, 1, NULL, NULL, &by_child) == REGISTRYD_OK);
    fed(session, publish);
    WANT(pipe(tried) == 0 && pipe(ends) == 0);
    /* A lock may be held by a thread that the forked process hasn't. */
    WANT(!is_threaded || !pthread_create(&thread, NULL, opens_and_closes, NULL));
    for (int i = 0; i < FORKS; i++) {
        pid_t child = fork();
        WANT(child >= 0);
        if (!child) {
            close(ends[1]);
            in_fork(session, by_child, tried[1], ends[0]);
        }
    }
    close(tried[1]);
    for (int i = 0; i < FORKS; i++)
        WANT(read(tried[0], text, 1) == 1);
    WANT(!is_threaded || !pthread_join(thread, NULL));
    /* The parent's session goes on, and its end frees the lock though forked processes live. */
    told(session, published);
    fed(session, list);
    told(session, listed_a);
    fed(by_child, list);
    told(by_child, listed);
    closed(by_child);
    WANT(registryd_save(session) == REGISTRYD_OK);
    closed(session);
    session = opened_journal("f.journal");
    fed(session, list);
    told(session, listed_a);
    closed(session);
    close(ends[1]);
    while (wait(&status) > 0)
        WANT(status == 0);
    WANT(errno == ECHILD);
}

/* A process that shares all open files, as a forked one does before the library, or a program of its own, has closed them there. It lives
 * until `ends` is closed. */
static long sharing(const int *ends)
{
    char text[1];
    long child = syscall(SYS_clone, (long)SIGCHLD, 0L, 0L, 0L, 0L);
    WANT(child >= 0);
    if (!child) {
        close(ends[1]);
        _exit(read(ends[0], text, 1) != 0);
    }
    return child;
}

/* The end of a session frees its file, though another process still shares it. */
static void shared_files(void)
{
    registryd_session kept = opened_journal("f.journal"), saved = opened(NULL, "w.journal");
    int ends[2], status;
    /* one that stands there is held */
    WANT(registryd_save(saved) == REGISTRYD_OK);
    closed(saved);
    saved = opened(NULL, "w.journal");
    WANT(pipe(ends) == 0);
    long child = sharing(ends);
    closed(kept);
    closed(saved);
    closed(opened_journal("f.journal"));
    closed(opened(NULL, "w.journal"));
    close(ends[0]);
    close(ends[1]);
    WANT(waitpid((pid_t)child, &status, 0) == child && status == 0);
}

/* ---- threads */

static registryd_session shared;
#define THREADS 4
#define ROUNDS 300

/* Asks for one reply a round; what is taken may be of another thread, but for registryd_ask. */
static void *asks(void *nothing)
{
    char text[512];
    size_t length, left;
    for (int i = 0; i < ROUNDS; i++) {
        WANT(registryd_ask(shared, list, strlen(list), text, sizeof text, &length, &left) == REGISTRYD_OK);
        WANT(left == 0 && length == strlen(listed_a) && !memcmp(text, listed_a, length));
        WANT(registryd_error(shared, text, sizeof text) == REGISTRYD_OK && !*text);
    }
    return nothing;
}

static void *session_of_its_own(void *nothing)
{
    for (int i = 0; i < ROUNDS / 20; i++) {
        registryd_session session = 0;
        WANT(registryd_open_embedded(NULL, NULL, &session, NULL, 0) == REGISTRYD_OK);
        fed(session, publish);
        told(session, published);
        closed(session);
        /* Its number may be asked for by anyone. */
        WANT(registryd_feed(session, list, strlen(list)) == REGISTRYD_MISUSE);
    }
    return nothing;
}

/* A session is closed while others ask: each gets its reply, or is told that there is none. */
static void *asks_to_the_end(void *nothing)
{
    char text[512];
    size_t length, left;
    int answer;
    while ((answer = registryd_ask(shared, list, strlen(list), text, sizeof text, &length, &left)) == REGISTRYD_OK)
        WANT(length == strlen(listed_a));
    WANT(answer == REGISTRYD_MISUSE);
    return nothing;
}

static void run(void *(*what)(void *), void *(*other)(void *), void (*meanwhile)(void))
{
    pthread_t all[2 * THREADS];
    for (int i = 0; i < 2 * THREADS; i++)
        WANT(!pthread_create(&all[i], NULL, i % 2 ? what : other, NULL));
    if (meanwhile)
        meanwhile();
    for (int i = 0; i < 2 * THREADS; i++)
        WANT(!pthread_join(all[i], NULL));
}

static void close_shared(void)
{
    usleep(20000);
    closed(shared);
}

static void threads(void)
{
    shared = opened_journal("t.journal");
    fed(shared, publish);
    told(shared, published);
    run(asks, session_of_its_own, NULL);
    run(asks_to_the_end, asks_to_the_end, close_shared);
}

int main(int count, char **given)
{
    WANT(count == 3);
    if (!strcmp(given[1], "calls")) {
        wrong_arguments();
        wrong_sessions();
        many_sessions();
        pieces();
        much();
        saved_journals();
        moved_process();
        closed_streams(given[2]);
        kept_journals();
        changed_journals();
    } else if (!strcmp(given[1], "forks") || !strcmp(given[1], "forks beside a thread")) {
        forks(given[2], strlen(given[1]) > strlen("forks"));
        shared_files();
    } else {
        threads();
    }
    return 0;
}
