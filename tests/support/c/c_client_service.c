/* Calls of sessions with a service. It prints the first line that failed. Words: what is tried, one of those at the end, the address, and
 * how many milliseconds a session waits for a service that is gone. */
#define _GNU_SOURCE
#include "c_calls.h"

#include <errno.h>
#include <sys/wait.h>
#include <unistd.h>

static const char refused[] = "{\"error\":7,\"name\":\"AlreadyPublished\",\"revision\":1}\n";
static char replies[1 << 16], words[REGISTRYD_WORDS];

/* Milliseconds for a service to be there again, and once a caller is connected: at first as long as a begin takes on a busy machine. */
int waited = 60000;
static int later;

static registryd_session connected(const char *where)
{
    registryd_session session = 0;
    WANT(registryd_connect(where, &session) == REGISTRYD_OK && session != 0);
    waited = later;
    return session;
}

static void closed(registryd_session session)
{
    WANT(registryd_close(session) == REGISTRYD_OK);
    WANT(registryd_feed(session, list, 1) == REGISTRYD_MISUSE);
}

/* Two sessions at once, with a service that is new. */
static void calls(const char *where)
{
    registryd_session none = 5;
    size_t length, left;
    WANT(registryd_connect(NULL, &none) == REGISTRYD_MISUSE && none == 5);
    WANT(registryd_connect(where, NULL) == REGISTRYD_MISUSE);
    registryd_session one = connected(where), other = connected(where);
    fed(one, publish);
    told(one, published);
    /* What one was told, the other sees. */
    fed(other, publish);
    told(other, refused);
    WANT(registryd_ask(other, list, strlen(list), replies, sizeof replies, &length, &left) == REGISTRYD_OK);
    WANT(left == 0 && length == strlen(listed_a) && !memcmp(replies, listed_a, length));
    for (const char *at = list; *at; at++)
        WANT(registryd_feed(one, at, 1) == REGISTRYD_OK);
    WANT(registryd_take(one, replies, 1, &length, &left) == REGISTRYD_OK && length == 1 && left == strlen(listed_a) - 1);
    told(one, listed_a + 1);
    WANT(registryd_error(one, words, sizeof words) == REGISTRYD_OK && words[0] == '\0');
    /* A last line without its line feed is answered at the end. */
    WANT(registryd_feed(one, list, strlen(list) - 1) == REGISTRYD_OK);
    told(one, "");
    for (int i = 0; i < 2; i++)
        WANT(registryd_save(one) == REGISTRYD_OK);
    WANT(registryd_error(one, words, sizeof words) == REGISTRYD_OK && words[0] == '\0');
    told(one, listed_a);
    WANT(registryd_feed(one, list, strlen(list)) == REGISTRYD_MISUSE);
    closed(one);
    /* It ended its session alone, and a forked process ends none. */
    int status = 1;
    pid_t forked = fork();
    if (!forked)
        _exit(registryd_feed(other, list, 1) != REGISTRYD_MISUSE);
    WANT(waitpid(forked, &status, 0) == forked && status == 0);
    fed(other, list);
    told(other, listed_a);
    closed(other);
}

/* Prints what is answered to what it reads, which it feeds in pieces of so many bytes, and what the matter is where something is. */
static void feed_in(const char *where, size_t most)
{
    static char bytes[1 << 16];
    registryd_session session = connected(where);
    size_t got, length = 0, left = 0;
    int answer = REGISTRYD_OK;
    while (!answer && (got = fread(bytes, 1, most, stdin)) > 0)
        answer = registryd_feed(session, bytes, got);
    do {
        int taken = registryd_take(session, replies, sizeof replies, &length, &left);
        answer = taken ? taken : answer;
        fwrite(replies, 1, length, stdout);
    } while (left);
    WANT(registryd_error(session, words, sizeof words) == REGISTRYD_OK);
    if (answer || words[0])
        printf("%d: %s\n", answer, words);
    closed(session);
}

static void lines(const char *where)
{
    feed_in(where, 1 << 16);
}

static void bytes(const char *where)
{
    feed_in(where, 1);
}

/* Publishes twenty versions more each time that it reads a line, and at its end, each by a call of its own; then prints all replies. */
static void steps(const char *where)
{
    registryd_session session = connected(where);
    size_t length, left, held = 0;
    for (int step = 0, number = 0; step < 3; step++) {
        char wanted[16];
        WANT(step == 2 || fgets(wanted, sizeof wanted, stdin));
        for (int end = number + 20; number < end; number++) {
            char line[128];
            snprintf(line, sizeof line, "{\"op\":\"publish\",\"name\":\"a\",\"version\":\"%d.0.0\",\"needs\":[]}\n", number);
            WANT(registryd_ask(session, line, strlen(line), replies + held, sizeof replies - held, &length, &left) == REGISTRYD_OK && !left);
            held += length;
            usleep(10000);
        }
    }
    fwrite(replies, 1, held, stdout);
    closed(session);
}

/* A session whose service ends while nothing waits for it. It reads a line once that is so. */
static void gone(const char *where)
{
    registryd_session session = connected(where);
    size_t length = 7, left = 7;
    fed(session, publish);
    told(session, published);
    WANT(puts("asked") >= 0 && !fflush(stdout) && getchar() == '\n');
    /* Over a port the first bytes may still be sent. */
    WANT(registryd_ask(session, list, strlen(list), replies, sizeof replies, &length, &left) == REGISTRYD_ENDED);
    for (int i = 0; i < 2; i++) {
        WANT(registryd_feed(session, list, strlen(list)) == REGISTRYD_ENDED);
        WANT(registryd_take(session, replies, sizeof replies, &length, &left) == REGISTRYD_ENDED && length == 0 && left == 0);
    }
    WANT(registryd_error(session, words, sizeof words) == REGISTRYD_OK);
    puts(words);
    for (int i = 0; i < 2; i++)
        WANT(registryd_save(session) == REGISTRYD_ENDED);
    WANT(registryd_feed(session, list, strlen(list)) == REGISTRYD_ENDED);
    closed(session);
}

static registryd_session waited_for;

static void *takes(void *answer)
{
    size_t length, left;
    do
        *(int *)answer = registryd_take(waited_for, replies, sizeof replies, &length, &left);
    while (*(int *)answer == REGISTRYD_OK);
    return NULL;
}

/* Feeds what it reads, and closes the session after so many microseconds, while a thread waits for replies; prints what that was
 * answered. */
static void close_after(const char *where, useconds_t time)
{
    static char bytes[1 << 16];
    pthread_t thread;
    int answer = 0;
    size_t got;
    waited_for = connected(where);
    WANT(puts("connected") >= 0 && !fflush(stdout));
    while ((got = fread(bytes, 1, sizeof bytes, stdin)) > 0)
        WANT(registryd_feed(waited_for, bytes, got) == REGISTRYD_OK);
    WANT(!pthread_create(&thread, NULL, takes, &answer));
    usleep(time);
    WANT(registryd_close(waited_for) == REGISTRYD_OK);
    WANT(!pthread_join(thread, NULL));
    WANT(registryd_close(waited_for) == REGISTRYD_MISUSE);
    printf("%d\n", answer);
}

static void closes(const char *where)
{
    close_after(where, 300000);
}

static void closes_late(const char *where)
{
    close_after(where, 3000000);
}

static void nowhere(const char *where)
{
    registryd_session none = 5;
    int answer = registryd_connect(where, &none);
    printf("%d: %s\n", answer, strerror(errno));
    WANT(none == 5);
}

int main(int count, char **given)
{
    const struct { const char *name; void (*tried)(const char *where); } all[] =
        {{"calls", calls}, {"lines", lines}, {"bytes", bytes}, {"steps", steps}, {"gone", gone}, {"closed", closes}, {"closed late", closes_late}, {"nowhere", nowhere}};
    WANT(count == 4);
    later = atoi(given[3]);
    for (size_t i = 0; i < sizeof all / sizeof *all; i++)
        if (!strcmp(given[1], all[i].name))
            all[i].tried(given[2]);
    return 0;
}
