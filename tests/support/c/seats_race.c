/* `registryd race` over seats in process: each file's lines are answered by a seat in a thread of its own, and then the replies are
 * written, seat by seat, and the journal. So the program's tests can be run on it. SEATS_PIECE, if given, tells how many bytes are fed at
 * once, SEATS_ROOM how many are taken, SEATS_ENTRIES how many entries there may be, and SEATS_LOAD with which journal they begin. */
#define _GNU_SOURCE
#include "registryd.h"

#include <pthread.h>
#include <stdio.h>
#include <stdlib.h>
#include <string.h>

struct text {
    char *at;
    size_t length, room;
};

static registryd_session seats[REGISTRYD_SEATS];
static struct text files[REGISTRYD_SEATS], replies[REGISTRYD_SEATS];
static size_t count, piece, room;
static pthread_barrier_t gate;

static void must(int holds, const char *what)
{
    if (!holds) {
        fprintf(stderr, "registryd: %s\n", what);
        exit(1);
    }
}

static size_t number_of(const char *name, size_t usual)
{
    const char *given = getenv(name);
    return given ? strtoul(given, NULL, 10) : usual;
}

static char *grown(struct text *text, size_t more)
{
    if (text->room - text->length < more) {
        text->room = (text->length + more) * 2;
        text->at = realloc(text->at, text->room);
        must(text->at != NULL, "no memory");
    }
    return text->at + text->length;
}

static void read_file(const char *name, struct text *text)
{
    size_t got;
    FILE *file = fopen(name, "rb");
    must(file != NULL, "a file can't be opened");
    do {
        char *to = grown(text, 65536);
        text->length += got = fread(to, 1, 65536, file);
    } while (got);
    fclose(file);
}

static void take_replies(registryd_session seat, struct text *told)
{
    size_t length, left;
    do {
        char *to = grown(told, room);
        must(!registryd_take(seat, to, room, &length, &left), "nothing can be taken");
        told->length += length;
    } while (left);
}

static void *answers(void *given)
{
    size_t number = (size_t)((struct text *)given - files);
    pthread_barrier_wait(&gate);
    for (size_t at = 0; at < files[number].length; at += piece) {
        size_t rest = files[number].length - at;
        must(!registryd_feed(seats[number], files[number].at + at, rest < piece ? rest : piece), "nothing can be fed");
        take_replies(seats[number], &replies[number]);
    }
    must(!registryd_save(seats[number]), "the lines can't be ended");
    take_replies(seats[number], &replies[number]);
    return NULL;
}

/* What a seat has seen, once all others have ended. */
static void write_journal(registryd_session seat)
{
    struct text text = {.at = NULL};
    size_t size = 0;
    int answer = registryd_journal(seat, NULL, 0, &size);
    must(answer == REGISTRYD_MEMORY && size > 0, "the journal has no length");
    answer = registryd_journal(seat, grown(&text, size), size, &text.length);
    must(answer == REGISTRYD_OK && text.length == size, "there is no journal");
    must(fwrite(text.at, 1, size, stdout) == size && !fflush(stdout), "output failed");
    free(text.at);
}

int main(int words, char **given)
{
    static char why[8192];
    pthread_t threads[REGISTRYD_SEATS];
    must(words > 2 && words - 2 <= REGISTRYD_SEATS && !strcmp(given[1], "race"), "seats_race race FILE..");
    count = (size_t)words - 2;
    piece = number_of("SEATS_PIECE", 4096);
    room = number_of("SEATS_ROOM", 4096);
    must(!registryd_open_seats(getenv("SEATS_LOAD"), number_of("SEATS_ENTRIES", REGISTRYD_ENTRIES), seats, count, why, sizeof why), why);
    pthread_barrier_init(&gate, NULL, (unsigned)count);
    for (size_t i = 0; i < count; i++) {
        read_file(given[i + 2], &files[i]);
        must(!pthread_create(&threads[i], NULL, answers, &files[i]), "no thread");
    }
    for (size_t i = 0; i < count; i++)
        pthread_join(threads[i], NULL);
    for (size_t i = 0; i < count; i++) {
        must(fwrite(replies[i].at, 1, replies[i].length, stdout) == replies[i].length, "output failed");
        free(replies[i].at);
        free(files[i].at);
    }
    write_journal(seats[count - 1]);
    for (size_t i = 0; i < count; i++)
        must(!registryd_close(seats[i]), "a seat can't be closed");
    return 0;
}
