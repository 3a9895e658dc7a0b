/* A caller whose session by a child gets no memory for what is answered. The word is the program. It is linked with --wrap=realloc. */
#include "c_calls.h"

#include <stdbool.h>

#define MANY 40000 /* lines that no channel holds, nor the room that the first reply has taken */
#define SOME 6000  /* lines that a channel holds; their replies, over one package, go beyond that room however they come */

static bool is_refused;

void *__real_realloc(void *at, size_t size);
void *__wrap_realloc(void *at, size_t size);

void *__wrap_realloc(void *at, size_t size)
{
    return is_refused ? NULL : __real_realloc(at, size);
}

static registryd_session opened(const char *program)
{
    registryd_session session = 0;
    WANT(registryd_open(program, 1, NULL, NULL, &session) == REGISTRYD_OK);
    fed(session, list);
    told(session, listed);
    return session;
}

/* So many list lines. */
static char *lists(size_t count)
{
    const size_t each = strlen(list);
    char *text = malloc(count * each);
    WANT(text);
    for (size_t i = 0; i < count; i++)
        memcpy(text + i * each, list, each);
    return text;
}

/* Replies to list lines, and no others. */
static size_t listed_many(const char *text, size_t length, const char *reply)
{
    const size_t each = strlen(reply);
    for (size_t i = 0; i + each <= length; i += each)
        WANT(!memcmp(text + i, reply, each));
    return length / each;
}

/* Where a part of what is fed was sent, nothing can go on behind it. */
static void amid_a_feed(const char *program)
{
    registryd_session session = opened(program);
    char *text = lists(MANY), *replies = malloc(MANY * strlen(listed));
    size_t length, left;
    WANT(replies);
    is_refused = true;
    WANT(registryd_ask(session, text, MANY * strlen(list), replies, MANY * strlen(listed), &length, &left) == REGISTRYD_ENDED);
    WANT(length == 0 && left == 0);
    is_refused = false;
    WANT(registryd_ask(session, publish, strlen(publish), replies, MANY * strlen(listed), &length, &left) == REGISTRYD_ENDED);
    WANT(length == 0 && left == 0);
    WANT(registryd_take(session, replies, MANY * strlen(listed), &length, &left) == REGISTRYD_ENDED);
    WANT(left == 0 && listed_many(replies, length, listed) < MANY);
    WANT(registryd_save(session) == REGISTRYD_ENDED);
    WANT(registryd_close(session) == REGISTRYD_OK);
    free(text);
    free(replies);
}

/* Where all was fed, its replies are left to take. */
static void behind_a_feed(const char *program)
{
    registryd_session session = opened(program);
    char *text = lists(SOME), *replies = malloc(SOME * strlen(listed_a));
    size_t length, left;
    WANT(replies);
    fed(session, publish);
    told(session, published);
    is_refused = true;
    WANT(registryd_ask(session, text, SOME * strlen(list), replies, SOME * strlen(listed_a), &length, &left) == REGISTRYD_MEMORY);
    WANT(length == 0 && left > 0);
    is_refused = false;
    WANT(registryd_take(session, replies, SOME * strlen(listed_a), &length, &left) == REGISTRYD_OK);
    WANT(left == 0 && listed_many(replies, length, listed_a) == SOME);
    fed(session, list);
    told(session, listed_a);
    WANT(registryd_save(session) == REGISTRYD_OK);
    WANT(registryd_close(session) == REGISTRYD_OK);
    free(text);
    free(replies);
}

int main(int count, char **words)
{
    WANT(count == 2);
    amid_a_feed(words[1]);
    behind_a_feed(words[1]);
    return 0;
}
