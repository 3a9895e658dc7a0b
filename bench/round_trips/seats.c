/* seats WAY THREADS SECONDS PUBLISH RESOLVE: publishes the lines of one file and then resolves those of another for so many seconds, by
 * seats of one journal, one a thread, or by a session behind a lock, which all threads share. Prints the nanoseconds until all is
 * published, by each publication, where all threads publish their share at once; then those of a resolve as a thread sees it, how many
 * were made in all, how many bytes a seat or the session takes once it has seen all, and the reply to the first request. */
#define _GNU_SOURCE
#include "registryd.h"

#include <malloc.h>
#include <pthread.h>
#include <stdatomic.h>
#include <stdio.h>
#include <stdlib.h>
#include <string.h>
#include <time.h>

struct line {
    char *at;
    size_t length;
};

struct lines {
    struct line *at;
    size_t count;
};

static struct lines published, asked;
static registryd_session sessions[REGISTRYD_SEATS];
static size_t threads;
static int is_shared;
static double until;
static pthread_mutex_t lock = PTHREAD_MUTEX_INITIALIZER;
static pthread_barrier_t gate;
static atomic_ulong resolved;

#define ROOM (1 << 16)

static void must(int holds, const char *what)
{
    if (!holds) {
        fprintf(stderr, "seats: %s\n", what);
        exit(1);
    }
}

static double now(void)
{
    struct timespec time;
    clock_gettime(CLOCK_MONOTONIC, &time);
    return (double)time.tv_sec + (double)time.tv_nsec / 1e9;
}

static double used(void)
{
    struct mallinfo2 all = mallinfo2();
    return (double)(all.uordblks + all.hblkhd);
}

static struct lines lines_of(const char *name)
{
    struct lines lines = {NULL, 0};
    char *line = NULL;
    size_t room = 0;
    FILE *file = fopen(name, "r");
    must(file != NULL, "a file can't be opened");
    for (ssize_t length; (length = getline(&line, &room, file)) > 0; lines.count++) {
        lines.at = realloc(lines.at, (lines.count + 1) * sizeof *lines.at);
        must(lines.at != NULL, "no memory");
        lines.at[lines.count] = (struct line){strndup(line, (size_t)length), (size_t)length};
    }
    free(line);
    fclose(file);
    return lines;
}

static size_t ask(size_t thread, const struct line *line, char *reply)
{
    size_t taken, left;
    if (is_shared)
        pthread_mutex_lock(&lock);
    int answer = registryd_ask(sessions[is_shared ? 0 : thread], line->at, line->length, reply, ROOM, &taken, &left);
    if (is_shared)
        pthread_mutex_unlock(&lock);
    must(answer == REGISTRYD_OK && left == 0, registryd_strerror(answer));
    return taken;
}

static void *publish(void *given)
{
    size_t thread = (size_t)given;
    char *reply = malloc(ROOM);
    must(reply != NULL, "no memory");
    pthread_barrier_wait(&gate);
    for (size_t at = thread; at < published.count; at += threads) {
        size_t length = ask(thread, &published.at[at], reply);
        must(memmem(reply, length, "\"ok\":true", 9) != NULL, reply);
    }
    free(reply);
    return NULL;
}

static void *resolve(void *given)
{
    size_t thread = (size_t)given, count = 0;
    char *reply = malloc(ROOM);
    must(reply != NULL, "no memory");
    pthread_barrier_wait(&gate);
    do
        ask(thread, &asked.at[(thread + count++) % asked.count], reply);
    while (now() < until);
    atomic_fetch_add(&resolved, count);
    free(reply);
    return NULL;
}

static double run(void *(*work)(void *))
{
    pthread_t running[REGISTRYD_SEATS];
    double start = now();
    for (size_t thread = 0; thread < threads; thread++)
        must(pthread_create(&running[thread], NULL, work, (void *)thread) == 0, "no thread");
    for (size_t thread = 0; thread < threads; thread++)
        pthread_join(running[thread], NULL);
    return now() - start;
}

int main(int count, char **words)
{
    must(count == 6, "seats WAY THREADS SECONDS PUBLISH RESOLVE");
    char why[512], *reply = malloc(ROOM);
    is_shared = strcmp(words[1], "session") == 0;
    threads = strtoul(words[2], NULL, 10);
    must(reply && threads > 0 && threads <= REGISTRYD_SEATS, "1 to 64 threads");
    published = lines_of(words[4]);
    asked = lines_of(words[5]);
    pthread_barrier_init(&gate, NULL, (unsigned)threads);
    double before = used();
    int answer = is_shared ? registryd_open_embedded(NULL, NULL, sessions, why, sizeof why)
                           : registryd_open_seats(NULL, REGISTRYD_ENTRIES, sessions, threads, why, sizeof why);
    must(answer == REGISTRYD_OK, why);
    double publishing = run(publish) / (double)published.count;
    for (size_t thread = 0; thread < threads; thread++)
        ask(thread, &asked.at[0], reply);
    double memory = (used() - before) / (is_shared ? 1 : (double)threads);
    double seconds = strtod(words[3], NULL);
    until = now() + seconds;
    run(resolve);
    size_t length = ask(0, &asked.at[0], reply);
    printf("%.0f %.0f %lu %.0f\n%.*s", publishing * 1e9, seconds * 1e9 * (double)threads / (double)resolved, resolved, memory,
           (int)length, reply);
    return 0;
}
