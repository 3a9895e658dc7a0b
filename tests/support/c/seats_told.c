/* Seats that keep their journal in a file, a thread for each, which write each reply as soon as they have it: so it is known what was told
 * where they are killed. The words are the journal's file, and for each seat a file of lines. What is the matter with the journal is told
 * on standard error by each seat that finds it. */
#define _GNU_SOURCE
#include "registryd.h"

#include <pthread.h>
#include <stdio.h>
#include <stdlib.h>
#include <string.h>
#include <unistd.h>

#define ROOM 4194304

static registryd_session seats[REGISTRYD_SEATS];
static pthread_mutex_t lock = PTHREAD_MUTEX_INITIALIZER;
static pthread_barrier_t gate;

static int tell(const char *what)
{
    fprintf(stderr, "registryd: %s\n", what);
    return 1;
}

static void must(int holds, const char *what)
{
    if (!holds)
        exit(tell(what));
}

/* Writes a reply in one piece, with no other thread's between. */
static void write_reply(const char *reply, size_t length)
{
    pthread_mutex_lock(&lock);
    for (size_t at = 0; at < length;) {
        ssize_t written = write(STDOUT_FILENO, reply + at, length - at);
        must(written > 0, "output failed");
        at += (size_t)written;
    }
    pthread_mutex_unlock(&lock);
}

/* Whether a call was well; a fault of the journal is told. */
static int is_well(registryd_session seat, int answer)
{
    char words[REGISTRYD_WORDS];
    if (answer) {
        must(answer == REGISTRYD_JOURNAL && !registryd_error(seat, words, sizeof words) && words[0], registryd_strerror(answer));
        tell(words);
    }
    return !answer;
}

struct work {
    pthread_t thread;
    size_t number;
    FILE *lines;
};

static void *answers(void *given)
{
    struct work *it = given;
    char *line = NULL, *reply = malloc(ROOM);
    size_t room = 0, size, left;
    ssize_t length;
    int goes_on = 1;
    must(reply != NULL, "no memory");
    pthread_barrier_wait(&gate);
    while (goes_on && (length = getline(&line, &room, it->lines)) > 0) {
        goes_on = is_well(seats[it->number], registryd_ask(seats[it->number], line, (size_t)length, reply, ROOM, &size, &left));
        must(!goes_on || !left, "a reply is too long");
        write_reply(reply, size);
    }
    if (goes_on)
        is_well(seats[it->number], registryd_save(seats[it->number]));
    must(!registryd_close(seats[it->number]), "a seat can't be closed");
    free(reply);
    free(line);
    return NULL;
}

int main(int words, char **given)
{
    static char why[8192];
    static struct work all[REGISTRYD_SEATS];
    size_t count = (size_t)words - 2;
    must(words > 2 && count <= REGISTRYD_SEATS, "seats_told JOURNAL FILE..");
    if (registryd_open_seats_journal(given[1], REGISTRYD_ENTRIES, seats, count, why, sizeof why))
        return tell(why);
    pthread_barrier_init(&gate, NULL, (unsigned)count);
    for (size_t i = 0; i < count; i++) {
        all[i] = (struct work){.number = i, .lines = fopen(given[i + 2], "rb")};
        must(all[i].lines && !pthread_create(&all[i].thread, NULL, answers, &all[i]), "a thread can't begin");
    }
    for (size_t i = 0; i < count; i++) {
        pthread_join(all[i].thread, NULL);
        fclose(all[i].lines);
    }
    return 0;
}
