/* A build cache that threads share: each publishes what it has built, withdraws what was wrong, and asks which builds fit together, all at
 * once. The word, if there is one, is the file in which the cache's journal is kept: what was told is there, whatever becomes of the
 * process. */
#include <registryd.h>

#include <pthread.h>
#include <stdio.h>
#include <stdlib.h>
#include <string.h>

enum { THREADS = 4, BUILDS = 25, ENTRIES = 4096 };

struct builder {
    pthread_t thread;
    registryd_session seat;
    int number, accepted, selected;
};

/* Asks for one line, and counts what its reply tells. */
static void ask(struct builder *it, const char *line)
{
    char reply[4096];
    size_t length, left;
    struct registryd_reply told;
    int answer = registryd_ask(it->seat, line, strlen(line), reply, sizeof reply, &length, &left);
    if (answer || left || registryd_read(reply, length, &told)) {
        fprintf(stderr, "builder %d: %s\n", it->number, registryd_strerror(answer));
        exit(1);
    }
    it->accepted += told.kind == REGISTRYD_ACCEPTED;
    it->selected += told.kind == REGISTRYD_SELECTED;
}

/* Builds its own package and a tool that all build: of those that build the same tool at once, one is told that it is the first. */
static void *build(void *given)
{
    struct builder *it = given;
    char line[256];
    for (int build = 0; build < BUILDS; build++) {
        snprintf(line, sizeof line, "{\"op\":\"publish\",\"name\":\"tool\",\"version\":\"1.%d.0\",\"needs\":[]}\n", build);
        ask(it, line);
        snprintf(line, sizeof line, "{\"op\":\"publish\",\"name\":\"part-%d\",\"version\":\"1.%d.0\",\"needs\":[[\"tool\",\"^1.%d\"]]}\n",
                 it->number, build, build);
        ask(it, line);
        if (build % 5 == 4) {
            snprintf(line, sizeof line, "{\"op\":\"yank\",\"name\":\"part-%d\",\"version\":\"1.%d.0\"}\n", it->number, build);
            ask(it, line);
        }
        snprintf(line, sizeof line, "{\"op\":\"resolve\",\"needs\":[[\"part-%d\",\"^1\"]]}\n", it->number);
        ask(it, line);
    }
    return NULL;
}

int main(int count, char **words)
{
    struct builder all[THREADS];
    registryd_session seats[THREADS];
    char why[REGISTRYD_WORDS];
    int accepted = 0, selected = 0;
    if (count > 2)
        return 2;
    if (count == 2 ? registryd_open_seats_journal(words[1], ENTRIES, seats, THREADS, why, sizeof why)
                   : registryd_open_seats(NULL, ENTRIES, seats, THREADS, why, sizeof why)) {
        fprintf(stderr, "%s\n", why);
        return 1;
    }
    for (int i = 0; i < THREADS; i++) {
        all[i] = (struct builder){.seat = seats[i], .number = i + 1};
        if (pthread_create(&all[i].thread, NULL, build, &all[i]))
            return 1;
    }
    for (int i = 0; i < THREADS; i++) {
        pthread_join(all[i].thread, NULL);
        accepted += all[i].accepted;
        selected += all[i].selected;
    }
    printf("%d commands are accepted, %d requests have a selection\n", accepted, selected);
    int answer = REGISTRYD_OK;
    for (int i = 0; i < THREADS; i++) {
        answer = answer ? answer : registryd_save(seats[i]);
        registryd_close(seats[i]);
    }
    return answer;
}
