/* Publishes two packages and resolves, in process. The word is the journal's file, which has what was accepted before that is printed. */
#include <registryd.h>

#include <stdio.h>
#include <string.h>

static const char lines[] =
    "{\"op\":\"publish\",\"name\":\"log\",\"version\":\"1.3.0\",\"needs\":[]}\n"
    "{\"op\":\"publish\",\"name\":\"app\",\"version\":\"1.0.0\",\"needs\":[[\"log\",\"^1.2\"]]}\n"
    "{\"op\":\"resolve\",\"needs\":[[\"app\",\"^1\"]]}\n";

int main(int count, char **words)
{
    registryd_session session;
    char why[REGISTRYD_WORDS], replies[4096];
    size_t length, left;
    if (count != 2)
        return 2;
    if (registryd_open_embedded_journal(words[1], &session, why, sizeof why)) {
        fprintf(stderr, "%s\n", why);
        return 1;
    }
    int answer = registryd_ask(session, lines, strlen(lines), replies, sizeof replies, &length, &left);
    fwrite(replies, 1, length, stdout);
    if (!answer)
        answer = registryd_save(session);
    if (answer && !registryd_error(session, why, sizeof why))
        fprintf(stderr, "%s\n", why);
    registryd_close(session);
    return answer != 0;
}
