/* Asks the request lines of standard input by a child, and prints of each the error, which text that is for, the package, the text and
 * what was meant. The word is the program. */
#include <registryd.h>

#include <stdio.h>
#include <string.h>

static void print_culprit(registryd_session session, const char *line, size_t length, uint32_t error)
{
    struct registryd_culprit culprit;
    int answer = registryd_culprit(session, line, length, error, &culprit);
    if (answer)
        printf("%d\n", answer);
    else
        printf("%s\t%.*s\t%.*s\t%s\n", culprit.place, (int)culprit.package.length, line + culprit.package.at, (int)culprit.text.length, line + culprit.text.at,
               culprit.meant);
}

int main(int count, char **words)
{
    registryd_session session;
    struct registryd_reply reply;
    char line[8192], told[4096];
    size_t length, left;
    if (count != 2 || registryd_open(words[1], 1, NULL, NULL, &session))
        return 1;
    while (fgets(line, sizeof line, stdin)) {
        if (registryd_ask(session, line, strlen(line), told, sizeof told, &length, &left) || left || registryd_read(told, length, &reply))
            return 1;
        printf("%s\t", reply.name);
        print_culprit(session, line, strlen(line), reply.error);
    }
    return registryd_save(session) || registryd_close(session);
}
