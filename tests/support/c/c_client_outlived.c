/* Starts a session of the program, which is the word, in a thread that ends at once; tells the program's process, feeds what it reads,
 * says that it is fed, and waits to be killed. */
#define _GNU_SOURCE
#include "c_calls.h"

#include <unistd.h>

static registryd_session session;

static void *opens(void *program)
{
    WANT(registryd_open(program, 1, NULL, NULL, &session) == REGISTRYD_OK);
    return NULL;
}

/* The one process that this one has started, by what the system tells. */
static long child(void)
{
    char path[64];
    long process = 0;
    snprintf(path, sizeof path, "/proc/self/task/%ld/children", (long)getpid());
    FILE *file = fopen(path, "r");
    WANT(file && fscanf(file, "%ld", &process) == 1);
    fclose(file);
    return process;
}

int main(int count, char **words)
{
    static char bytes[65536];
    pthread_t thread;
    size_t got;
    WANT(count == 2);
    WANT(!pthread_create(&thread, NULL, opens, words[1]) && !pthread_join(thread, NULL));
    printf("%ld\n", child());
    fflush(stdout);
    while ((got = fread(bytes, 1, sizeof bytes, stdin)) > 0)
        WANT(registryd_feed(session, bytes, got) == REGISTRYD_OK);
    printf("fed\n");
    fflush(stdout);
    for (;;)
        pause();
}
