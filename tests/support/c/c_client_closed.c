/* Feeds what it reads to a session of the program, which is the word, and closes it while a thread waits for the replies. Prints
 * what that thread was answered, once it has been. */
#define _GNU_SOURCE
#include "c_calls.h"

#include <unistd.h>

static registryd_session session;

static void *takes(void *answer)
{
    static char replies[1 << 20];
    size_t length, left;
    do
        *(int *)answer = registryd_take(session, replies, sizeof replies, &length, &left);
    while (*(int *)answer == REGISTRYD_OK);
    return NULL;
}

int main(int count, char **words)
{
    static char bytes[65536];
    pthread_t thread;
    int answer = 0;
    size_t got;
    WANT(count == 2);
    WANT(registryd_open(words[1], 1, NULL, NULL, &session) == REGISTRYD_OK);
    while ((got = fread(bytes, 1, sizeof bytes, stdin)) > 0)
        WANT(registryd_feed(session, bytes, got) == REGISTRYD_OK);
    WANT(!pthread_create(&thread, NULL, takes, &answer));
    usleep(300000);
    WANT(registryd_close(session) == REGISTRYD_OK);
    WANT(!pthread_join(thread, NULL));
    WANT(registryd_close(session) == REGISTRYD_MISUSE);
    printf("%d\n", answer);
    return 0;
}
