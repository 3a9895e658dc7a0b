/* Tells why no selection meets a request, and which text of another one is refused, in process. Nothing is kept. */
#include <registryd.h>

#include <stdio.h>
#include <string.h>

static const char publish[] = "{\"op\":\"publish\",\"name\":\"app\",\"version\":\"1.0.0\",\"needs\":[[\"log\",\"^2\"]]}\n";
static const char unmet[] = "{\"op\":\"resolve\",\"needs\":[[\"app\",\"^1\"]],\"explain\":true}\n";
static const char bad[] = "{\"op\":\"resolve\",\"needs\":[[\"app\",\"^1\"],[\"log\",\"==1\"]]}\n";

static void print_sentences(const char *line, size_t length)
{
    struct registryd_step steps[64];
    char sentence[1024];
    size_t count, written;
    if (registryd_steps(line, length, steps, 64, &count))
        return;
    for (size_t place = 0; place < count; place++)
        if (!registryd_sentence(line, length, steps, count, place, sentence, sizeof sentence, &written))
            printf("%s\n", sentence);
}

static void print_culprit(registryd_session session, const char *line, struct registryd_reply reply)
{
    struct registryd_culprit culprit;
    if (!registryd_culprit(session, line, strlen(line), reply.error, &culprit))
        printf("%s: %s, %.*s: %.*s%s%s\n", reply.name, culprit.place, (int)culprit.package.length, line + culprit.package.at,
               (int)culprit.text.length, line + culprit.text.at, *culprit.meant ? "; did you mean " : "", culprit.meant);
}

int main(void)
{
    registryd_session session;
    struct registryd_reply reply;
    char replies[4096];
    size_t length, left;
    int answer = registryd_open_embedded(NULL, NULL, &session, NULL, 0);
    if (answer)
        return answer;
    answer = registryd_ask(session, publish, strlen(publish), replies, sizeof replies, &length, &left);
    if (!answer)
        answer = registryd_ask(session, unmet, strlen(unmet), replies, sizeof replies, &length, &left);
    if (!answer)
        print_sentences(replies, length);
    if (!answer)
        answer = registryd_ask(session, bad, strlen(bad), replies, sizeof replies, &length, &left);
    if (!answer && !registryd_read(replies, length, &reply))
        print_culprit(session, bad, reply);
    registryd_close(session);
    return answer;
}
