/* Calls of clients/c that a careless caller makes. The word is the program. It prints the first line that failed. */
#include "c_calls.h"

#include <unistd.h>

static const char *program;

static registryd_session opened(const char *load, const char *save)
{
    registryd_session session = 0;
    WANT(registryd_open(program, 1, load, save, &session) == REGISTRYD_OK);
    WANT(session != 0);
    return session;
}

static void wrong_arguments(void)
{
    registryd_session session = opened(NULL, NULL), none = 5;
    char text[8];
    size_t length, left;
    WANT(registryd_open(NULL, 1, NULL, NULL, &none) == REGISTRYD_MISUSE);
    WANT(registryd_open(program, 0, NULL, NULL, &none) == REGISTRYD_MISUSE);
    WANT(registryd_open(program, 65, NULL, NULL, &none) == REGISTRYD_MISUSE);
    WANT(registryd_open(program, 1, NULL, NULL, NULL) == REGISTRYD_MISUSE);
    WANT(registryd_open("no/such/program", 1, NULL, NULL, &none) == REGISTRYD_START);
    WANT(none == 5);
    WANT(registryd_feed(session, NULL, 1) == REGISTRYD_MISUSE);
    WANT(registryd_feed(session, list, SIZE_MAX) == REGISTRYD_MISUSE);
    WANT(registryd_feed(session, NULL, 0) == REGISTRYD_OK);
    WANT(registryd_take(session, NULL, 1, &length, &left) == REGISTRYD_MISUSE);
    WANT(registryd_take(session, text, SIZE_MAX, &length, &left) == REGISTRYD_MISUSE);
    WANT(registryd_take(session, text, 1, NULL, &left) == REGISTRYD_MISUSE);
    WANT(registryd_take(session, text, 1, &length, NULL) == REGISTRYD_MISUSE);
    /* All that was refused has done nothing. */
    fed(session, list);
    WANT(registryd_take(session, NULL, 0, &length, &left) == REGISTRYD_OK && length == 0 && left == strlen(listed));
    WANT(registryd_take(session, text, 1, &length, &left) == REGISTRYD_OK && length == 1 && text[0] == '{');
    told(session, listed + 1);
    told(session, "");
    WANT(registryd_close(session) == REGISTRYD_OK);
}

static void wrong_sessions(void)
{
    registryd_session first = opened(NULL, NULL);
    size_t length, left;
    char text[8];
    WANT(registryd_close(first) == REGISTRYD_OK);
    WANT(registryd_close(first) == REGISTRYD_MISUSE);
    /* A number is not given twice, so an old one doesn't reach a new session. */
    registryd_session second = opened(NULL, NULL);
    WANT(first != second);
    const registryd_session wrong[] = {0, 1, first, second + 1, second + 64, UINT64_MAX};
    for (size_t i = 0; i < sizeof wrong / sizeof *wrong; i++) {
        WANT(registryd_feed(wrong[i], list, 1) == REGISTRYD_MISUSE);
        WANT(registryd_take(wrong[i], text, 1, &length, &left) == REGISTRYD_MISUSE);
        WANT(registryd_save(wrong[i]) == REGISTRYD_MISUSE);
        WANT(registryd_close(wrong[i]) == REGISTRYD_MISUSE);
    }
    WANT(registryd_close(second) == REGISTRYD_OK);
}

static void too_many_sessions(void)
{
    registryd_session all[REGISTRYD_SESSIONS], more = 5;
    for (int i = 0; i < REGISTRYD_SESSIONS; i++)
        all[i] = opened(NULL, NULL);
    WANT(registryd_open(program, 1, NULL, NULL, &more) == REGISTRYD_MEMORY && more == 5);
    for (int i = 0; i < REGISTRYD_SESSIONS; i++)
        WANT(registryd_close(all[i]) == REGISTRYD_OK);
}

/* Lines that come byte by byte, and a last one without its line feed, which is answered at the end. */
static void pieces(void)
{
    registryd_session session = opened(NULL, NULL);
    for (const char *at = list; *at; at++)
        WANT(registryd_feed(session, at, 1) == REGISTRYD_OK);
    told(session, listed);
    WANT(registryd_feed(session, list, strlen(list) - 1) == REGISTRYD_OK);
    told(session, "");
    WANT(registryd_save(session) == REGISTRYD_OK);
    told(session, listed);
    WANT(registryd_feed(session, list, strlen(list)) == REGISTRYD_MISUSE);
    WANT(registryd_save(session) == REGISTRYD_OK);
    WANT(registryd_close(session) == REGISTRYD_OK);
}

/* More than any channel holds, in both directions, before anything is taken. */
static void much(void)
{
    registryd_session session = opened(NULL, NULL);
    const size_t count = 40000, each = strlen(listed);
    char *text = malloc(count * each + 1);
    size_t length, left;
    WANT(text);
    for (size_t i = 0; i < count; i++)
        fed(session, list);
    WANT(registryd_take(session, text, count * each + 1, &length, &left) == REGISTRYD_OK);
    WANT(length == count * each && left == 0);
    for (size_t i = 0; i < count; i++)
        WANT(!memcmp(text + i * each, listed, each));
    free(text);
    WANT(registryd_close(session) == REGISTRYD_OK);
}

static void journals(void)
{
    size_t length, left;
    char text[8];
    /* One that is closed unsaved writes nothing. */
    registryd_session session = opened(NULL, "a.journal");
    fed(session, publish);
    told(session, published);
    WANT(registryd_close(session) == REGISTRYD_OK);
    WANT(access("a.journal", F_OK) != 0);
    session = opened(NULL, "a.journal");
    fed(session, publish);
    WANT(registryd_save(session) == REGISTRYD_OK);
    told(session, published);
    WANT(registryd_close(session) == REGISTRYD_OK);
    session = opened("a.journal", NULL);
    fed(session, list);
    told(session, listed_a);
    WANT(registryd_save(session) == REGISTRYD_OK);
    WANT(registryd_close(session) == REGISTRYD_OK);
    /* A journal that can't be had: the session ends at once, and is not saved. */
    session = opened("no/such.journal", "b.journal");
    WANT(registryd_save(session) == REGISTRYD_ENDED);
    WANT(registryd_take(session, text, sizeof text, &length, &left) == REGISTRYD_OK && length == 0);
    WANT(registryd_close(session) == REGISTRYD_OK);
    WANT(access("b.journal", F_OK) != 0);
    session = opened("no/such.journal", NULL);
    int answer = REGISTRYD_OK;
    while (answer == REGISTRYD_OK)
        answer = registryd_feed(session, list, strlen(list));
    WANT(answer == REGISTRYD_ENDED);
    WANT(registryd_close(session) == REGISTRYD_OK);
}

/* A journal that is gone on with has what was told as accepted, though the session is not saved; one session has it at a time. */
static void kept_journals(void)
{
    registryd_session none = 5, session = 0, second = 0;
    WANT(registryd_open_journal(NULL, 1, "k.journal", &none) == REGISTRYD_MISUSE);
    WANT(registryd_open_journal(program, 0, "k.journal", &none) == REGISTRYD_MISUSE);
    WANT(registryd_open_journal(program, 1, NULL, &none) == REGISTRYD_MISUSE);
    WANT(registryd_open_journal(program, 1, "k.journal", NULL) == REGISTRYD_MISUSE);
    WANT(registryd_open_journal("no/such/program", 1, "k.journal", &none) == REGISTRYD_START);
    WANT(none == 5 && access("k.journal", F_OK) != 0);
    WANT(registryd_open_journal(program, 1, "k.journal", &session) == REGISTRYD_OK);
    fed(session, publish);
    told(session, published);
    WANT(registryd_open_journal(program, 4, "k.journal", &second) == REGISTRYD_OK);
    WANT(registryd_save(second) == REGISTRYD_ENDED);
    WANT(registryd_close(second) == REGISTRYD_OK);
    WANT(registryd_close(session) == REGISTRYD_OK);
    WANT(registryd_open_journal(program, 4, "k.journal", &session) == REGISTRYD_OK);
    fed(session, list);
    told(session, listed_a);
    WANT(registryd_save(session) == REGISTRYD_OK);
    WANT(registryd_close(session) == REGISTRYD_OK);
    session = opened("k.journal", NULL);
    fed(session, publish);
    told(session, "{\"error\":7,\"name\":\"AlreadyPublished\",\"revision\":1}\n");
    WANT(registryd_close(session) == REGISTRYD_OK);
}

/* A budget of requests that name none: docs/FORMATS.md has the replies. */
static void budgets(void)
{
    static const char needs[] = "{\"op\":\"resolve\",\"needs\":[[\"zed\",\"*\"]]}\n";
    static const char spent[] = "{\"error\":22,\"name\":\"BudgetSpent\",\"revision\":0}\n", refused[] = "{\"refused\":true,\"revision\":0}\n";
    registryd_session none = 5, session = 0;
    WANT(registryd_open_budget(NULL, 1, 0, NULL, NULL, NULL, &none) == REGISTRYD_MISUSE);
    WANT(registryd_open_budget(program, 65, 0, NULL, NULL, NULL, &none) == REGISTRYD_MISUSE);
    WANT(registryd_open_budget(program, 1, 0, "g.journal", "k.journal", NULL, &none) == REGISTRYD_MISUSE);
    WANT(registryd_open_budget(program, 1, 0, "g.journal", NULL, "k.journal", &none) == REGISTRYD_MISUSE);
    WANT(registryd_open_budget(program, 1, 0, NULL, NULL, NULL, NULL) == REGISTRYD_MISUSE && none == 5);
    for (uint64_t budget = 0; budget <= UINT32_MAX; budget += UINT32_MAX) {
        WANT(registryd_open_budget(program, 64, (uint32_t)budget, NULL, NULL, NULL, &session) == REGISTRYD_OK);
        fed(session, needs);
        told(session, budget ? refused : spent);
        /* One that names its own has that. */
        fed(session, "{\"op\":\"resolve\",\"needs\":[[\"zed\",\"*\"]],\"budget\":1}\n");
        told(session, refused);
        WANT(registryd_save(session) == REGISTRYD_OK && registryd_close(session) == REGISTRYD_OK);
    }
    WANT(registryd_open_budget(program, 1, 0, "g.journal", NULL, NULL, &session) == REGISTRYD_OK);
    fed(session, publish);
    told(session, published);
    WANT(registryd_close(session) == REGISTRYD_OK && access("g.journal", F_OK) == 0);
    WANT(registryd_open_budget(program, 1, 0, NULL, "k.journal", "s.journal", &session) == REGISTRYD_OK);
    fed(session, list);
    told(session, listed_a);
    WANT(registryd_save(session) == REGISTRYD_OK && registryd_close(session) == REGISTRYD_OK && access("s.journal", F_OK) == 0);
}

/* Where a 3.0.0 needs an old b: the newest selection of any a and any b decides a first. */
static const char two[] =
    "{\"op\":\"publish\",\"name\":\"a\",\"version\":\"1.0.0\",\"needs\":[]}\n"
    "{\"op\":\"publish\",\"name\":\"a\",\"version\":\"2.0.0\",\"needs\":[]}\n"
    "{\"op\":\"publish\",\"name\":\"a\",\"version\":\"3.0.0\",\"needs\":[[\"b\",\"=1.0.0\"]]}\n"
    "{\"op\":\"publish\",\"name\":\"b\",\"version\":\"1.0.0\",\"needs\":[]}\n"
    "{\"op\":\"publish\",\"name\":\"b\",\"version\":\"2.0.0\",\"needs\":[]}\n",
    either[] = "{\"op\":\"resolve\",\"needs\":[[\"a\",\"*\"],[\"b\",\"*\"]]}\n",
    accepted[] = "{\"ok\":true,\"revision\":1}\n{\"ok\":true,\"revision\":2}\n{\"ok\":true,\"revision\":3}\n"
                 "{\"ok\":true,\"revision\":4}\n{\"ok\":true,\"revision\":5}\n",
    newest[] = "{\"revision\":5,\"selected\":[[\"a\",\"3.0.0\"],[\"b\",\"1.0.0\"]]}\n";

/* Has either asked of a session that is open, and ends it. */
static void selects_newest(registryd_session session)
{
    fed(session, either);
    told(session, newest);
    WANT(registryd_save(session) == REGISTRYD_OK && registryd_close(session) == REGISTRYD_OK);
}

static void selections(void)
{
    registryd_session session = 0;
    WANT(registryd_open_journal(program, 1, "two.journal", &session) == REGISTRYD_OK);
    fed(session, two);
    told(session, accepted);
    selects_newest(session);
    WANT(registryd_open_journal(program, 64, "two.journal", &session) == REGISTRYD_OK);
    selects_newest(session);
    WANT(registryd_open(program, 1, "two.journal", "saved.journal", &session) == REGISTRYD_OK);
    selects_newest(session);
    WANT(access("saved.journal", F_OK) == 0);
}

static void *session_of_its_own(void *nothing)
{
    for (int i = 0; i < 4; i++) {
        registryd_session session = opened(NULL, NULL);
        fed(session, list);
        told(session, listed);
        WANT(registryd_close(session) == REGISTRYD_OK);
    }
    return nothing;
}

static void threads(void)
{
    pthread_t all[8];
    for (int i = 0; i < 8; i++)
        WANT(!pthread_create(&all[i], NULL, session_of_its_own, NULL));
    for (int i = 0; i < 8; i++)
        WANT(!pthread_join(all[i], NULL));
}

int main(int count, char **words)
{
    WANT(count == 2);
    program = words[1];
    wrong_arguments();
    wrong_sessions();
    too_many_sessions();
    pieces();
    much();
    journals();
    kept_journals();
    budgets();
    selections();
    threads();
    return 0;
}
