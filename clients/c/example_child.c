/* Publishes two packages and resolves, by a child process. Words: the program, and the journal's file, which has what was accepted
 * before that is printed. */
#include "registryd.h"

#include <stdio.h>
#include <string.h>

static const char lines[] =
    "{\"op\":\"publish\",\"name\":\"log\",\"version\":\"1.3.0\",\"needs\":[]}\n"
    "{\"op\":\"publish\",\"name\":\"app\",\"version\":\"1.0.0\",\"needs\":[[\"log\",\"^1.2\"]]}\n"
    "{\"op\":\"resolve\",\"needs\":[[\"app\",\"^1\"]]}\n";

/* Prints all replies to what was fed. */
static int print_replies(registryd_session session)
{
    char piece[4096];
    size_t length, left;
    do {
        int answer = registryd_take(session, piece, sizeof piece, &length, &left);
        if (answer)
            return answer;
        fwrite(piece, 1, length, stdout);
    } while (left);
    return REGISTRYD_OK;
}

int main(int count, char **words)
{
    registryd_session session;
    if (count != 3)
        return 2;
    int answer = registryd_open_journal(words[1], 1, words[2], &session);
    if (answer)
        return answer;
    answer = registryd_feed(session, lines, strlen(lines));
    if (!answer)
        answer = print_replies(session);
    if (!answer)
        answer = registryd_save(session);
    registryd_close(session);
    return answer;
}
