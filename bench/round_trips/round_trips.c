/* Times round trips from C. Words: the way (embedded, child or socket), the program or the socket's path, a file of request lines, how many
 * round trips, and the lines that are asked, each as often. Prints the reply to each, and behind it the nanoseconds of each trip. */
#define _GNU_SOURCE
#include "registryd.h"

#include <fcntl.h>
#include <stdio.h>
#include <stdlib.h>
#include <string.h>
#include <sys/socket.h>
#include <sys/un.h>
#include <time.h>
#include <unistd.h>

#define ROOM 1048576

static registryd_session session;
static int channel = -1;
static char reply[ROOM];

static void end(const char *what)
{
    fprintf(stderr, "round_trips: %s\n", what);
    exit(1);
}

static void begin(const char *way, const char *target)
{
    if (!strcmp(way, "socket")) {
        struct sockaddr_un to = {.sun_family = AF_UNIX};
        strncpy(to.sun_path, target, sizeof to.sun_path - 1);
        channel = socket(AF_UNIX, SOCK_STREAM, 0);
        if (channel < 0 || connect(channel, (struct sockaddr *)&to, sizeof to))
            end("no connection");
    } else if (strcmp(way, "child") ? registryd_open_embedded(NULL, NULL, &session, NULL, 0)
                                    : registryd_open(target, 1, NULL, NULL, &session)) {
        end("no session");
    }
}

/* Has so many lines answered by the library; answers how long the replies are. */
static size_t ask_session(const char *lines, size_t length)
{
    size_t taken, left;
    if (registryd_ask(session, lines, length, reply, ROOM, &taken, &left) || left)
        end("no reply");
    return taken;
}

/* The same by the socket. */
static size_t ask_socket(const char *lines, size_t length, int count)
{
    size_t got = 0;
    if (send(channel, lines, length, 0) != (ssize_t)length)
        end("not sent");
    while (count) {
        ssize_t piece = recv(channel, reply + got, ROOM - got, 0);
        if (piece <= 0)
            end("no reply");
        for (ssize_t at = 0; at < piece; at++)
            count -= reply[got + at] == '\n';
        got += (size_t)piece;
    }
    return got;
}

static size_t ask(const char *lines, size_t length, int count)
{
    return channel < 0 ? ask_session(lines, length) : ask_socket(lines, length, count);
}

static void publish_all(const char *file)
{
    static char lines[ROOM];
    int count = 0, from = open(file, O_RDONLY);
    ssize_t length = from < 0 ? -1 : read(from, lines, ROOM);
    if (length <= 0)
        end("no lines");
    for (ssize_t at = 0; at < length; at++)
        count += lines[at] == '\n';
    ask(lines, (size_t)length, count);
}

static long long now(void)
{
    struct timespec time;
    clock_gettime(CLOCK_MONOTONIC, &time);
    return time.tv_sec * 1000000000LL + time.tv_nsec;
}

static void measure(const char *line, int trips)
{
    char text[4096];
    int length = snprintf(text, sizeof text, "%s\n", line);
    printf("%.*s", (int)ask(text, (size_t)length, 1), reply);
    for (int trip = 0; trip < trips; trip++) {
        long long begun = now();
        ask(text, (size_t)length, 1);
        printf("%lld\n", now() - begun);
    }
}

int main(int count, char **words)
{
    if (count < 6)
        end("bad words");
    begin(words[1], words[2]);
    publish_all(words[3]);
    for (int at = 5; at < count; at++)
        measure(words[at], atoi(words[4]));
    if (channel < 0)
        registryd_close(session);
    return 0;
}
