#include "meant.h"
#include "registryd.h"
#include "text.h"

#include <stdio.h>
#include <stdlib.h>
#include <string.h>

/* How many needs a line may have. */
#define MOST_NEEDS 64
/* How long a line may be, without its line feed. */
#define MOST_LINE_BYTES 1048576

/* The errors of docs/REGISTRY.md that are for a text of the line. */
enum { BAD_NAME = 1, BAD_VERSION, BAD_REQUIREMENT, REPEATED, SELF, TOO_MANY, PUBLISHED = 7, NO_SUCH_VERSION = 11, YANKED, NOT_YANKED };

/* A pair of the line, or its name and version. */
struct quoted_pair {
    struct registryd_text name, text;
};

/* What is asked: which text of a line is refused by an error. */
struct search {
    registryd_session session;
    const char *line;
    uint32_t error;
    struct quoted_pair own;
    struct registryd_culprit *culprit;
};

/* ---- the line as JSON, which the caller wrote in any way */

static void skip_space(struct rest *rest)
{
    while (rest->at < rest->end && strchr(" \t\r\n", *rest->at) && *rest->at)
        rest->at++;
}

static int takes(struct rest *rest, const char *sign)
{
    skip_space(rest);
    return has(rest, sign);
}

/* A text in quotes, as it is quoted. */
static int takes_text(struct rest *rest, const char *line, struct registryd_text *text)
{
    if (!takes(rest, "\""))
        return 0;
    text->at = (size_t)(rest->at - line);
    while (rest->at < rest->end && *rest->at != '"')
        rest->at += *rest->at == '\\' && rest->end - rest->at > 1 ? 2 : 1;
    text->length = (size_t)(rest->at - line) - text->at;
    return has(rest, "\"");
}

/* A value of any kind: its brackets have partners. */
static int takes_value(struct rest *rest, const char *line)
{
    struct registryd_text text;
    size_t depth = 0;
    skip_space(rest);
    while (rest->at < rest->end) {
        if (!depth && strchr(",]}", *rest->at))
            return 1;
        depth += *rest->at == '[' || *rest->at == '{';
        depth -= *rest->at == ']' || *rest->at == '}';
        if (*rest->at != '"')
            rest->at++;
        else if (!takes_text(rest, line, &text))
            return 0;
    }
    return 0;
}

/* Whether a line is an object; of the member of a name the value, where there is one. */
static int has_member(struct rest line, const char *name, struct rest *value)
{
    const char *first = line.at;
    struct registryd_text member;
    int is_first = 1;
    *value = (struct rest){line.end, line.end};
    if (!takes(&line, "{"))
        return 0;
    for (; !takes(&line, "}"); is_first = 0) {
        if ((!is_first && !takes(&line, ",")) || !takes_text(&line, first, &member) || !takes(&line, ":"))
            return 0;
        if (member.length == strlen(name) && !memcmp(first + member.at, name, member.length))
            *value = line;
        if (!takes_value(&line, first))
            return 0;
    }
    return 1;
}

/* The next pair of an array, whose bracket is open. */
static int takes_pair(struct rest *pairs, const char *line, struct quoted_pair *pair)
{
    takes(pairs, ",");
    return takes(pairs, "[") && takes_text(pairs, line, &pair->name) && takes(pairs, ",") && takes_text(pairs, line, &pair->text) && takes(pairs, "]");
}

/* ---- which text it is */

static int is_same(const char *line, struct registryd_text one, struct registryd_text other)
{
    return one.length == other.length && !memcmp(line + one.at, line + other.at, one.length);
}

/* Asks the session about a text alone: 1 where that is refused by the same error, 0 where not, and less where the session has ended. */
static int is_refused(const struct search *of, const char *text, size_t size)
{
    static const char of_name[] = "{\"op\":\"resolve\",\"budget\":0,\"needs\":[[\"%.*s\",\"*\"]]}\n";
    static const char of_version[] = "{\"op\":\"resolve\",\"budget\":0,\"needs\":[],\"lock\":[[\"a\",\"%.*s\"]]}\n";
    static const char of_requirement[] = "{\"op\":\"resolve\",\"budget\":0,\"needs\":[[\"a\",\"%.*s\"]]}\n";
    const char *form = of->error == BAD_NAME ? of_name : of->error == BAD_VERSION ? of_version : of_requirement;
    size_t room = sizeof of_version + size, taken, left;
    char *asked = malloc(room), told[256];
    struct registryd_reply reply = {.error = 0};
    if (!asked)
        return -REGISTRYD_MEMORY;
    int length = snprintf(asked, room, form, (int)size, text);
    int answer = registryd_ask(of->session, asked, (size_t)length, told, sizeof told, &taken, &left);
    free(asked);
    if (!answer && !left)
        registryd_read(told, taken, &reply);
    while (!answer && left)
        answer = registryd_take(of->session, told, sizeof told, &taken, &left);
    return answer ? -answer : reply.error == of->error;
}

static int is_repeated(const struct search *of, struct rest pairs, struct registryd_text name, size_t place)
{
    struct quoted_pair pair;
    for (size_t at = 0; at < place && takes_pair(&pairs, of->line, &pair); at++)
        if (is_same(of->line, pair.name, name))
            return 1;
    return 0;
}

/* Which text of a pair may be at fault; null where none may. */
static const struct registryd_text *suspect(const struct search *of, const struct quoted_pair *pair, int is_lock)
{
    if (of->error == BAD_NAME || of->error == REPEATED || (!is_lock && (of->error == SELF || of->error == TOO_MANY)))
        return &pair->name;
    return of->error == (is_lock ? BAD_VERSION : BAD_REQUIREMENT) ? &pair->text : NULL;
}

static int is_at_fault(const struct search *of, struct rest pairs, const struct quoted_pair *pair, const struct registryd_text *text, size_t place)
{
    switch (of->error) {
    case REPEATED: return is_repeated(of, pairs, pair->name, place);
    case SELF: return is_same(of->line, pair->name, of->own.name);
    case TOO_MANY: return place == MOST_NEEDS;
    default: return is_refused(of, of->line + text->at, text->length);
    }
}

/* Looks for the text among the pairs of a member. */
static int search_pairs(const struct search *of, struct rest line, const char *member)
{
    struct quoted_pair pair;
    struct rest pairs;
    int found = 0;
    if (!has_member(line, member, &pairs) || !takes(&pairs, "["))
        return 0;
    struct rest all = pairs;
    for (size_t place = 0; !found && takes_pair(&pairs, of->line, &pair); place++) {
        const struct registryd_text *text = suspect(of, &pair, member[0] == 'l');
        if (!text)
            return 0;
        found = is_at_fault(of, all, &pair, text, place);
        if (found > 0) {
            *of->culprit = (struct registryd_culprit){.package = pair.name, .text = *text};
            snprintf(of->culprit->place, sizeof of->culprit->place, "%s[%zu]", member, place);
        }
    }
    return found;
}

/* The name or the version that the line has of its own, and the two together where the registry has found something of them. */
static int search_own(const struct search *of)
{
    const struct quoted_pair *own = &of->own;
    int is_name = of->error == BAD_NAME;
    struct registryd_text text = is_name ? own->name : own->text;
    int is_both = of->error == PUBLISHED || (of->error >= NO_SUCH_VERSION && of->error <= NOT_YANKED);
    int found = is_both || ((is_name || of->error == BAD_VERSION) ? is_refused(of, of->line + text.at, text.length) : 0);
    if (found > 0) {
        *of->culprit = (struct registryd_culprit){.package = own->name, .text = text};
        strcpy(of->culprit->place, is_both ? "" : is_name ? "name" : "version");
    }
    return found;
}

/* Finds what was meant by the text, where that isn't refused. */
static int search_meant(const struct search *of)
{
    struct registryd_culprit *culprit = of->culprit;
    const char *text = of->line + culprit->text.at;
    struct rest rest = {text, text + culprit->text.length};
    struct written to = {.room = culprit->meant, .size = sizeof culprit->meant};
    int has_meant = 0;
    size_t length;
    if (memchr(text, '\\', culprit->text.length))
        return 0;
    if (of->error == BAD_NAME)
        has_meant = meant_name(rest, &to);
    else if (of->error == BAD_VERSION)
        has_meant = meant_version(rest, &to);
    else if (of->error == BAD_REQUIREMENT)
        has_meant = meant_requirement(rest, &to);
    int is_bad = end_written(&to, &length) || !has_meant || !length ? 1 : is_refused(of, culprit->meant, length);
    if (is_bad)
        culprit->meant[0] = '\0';
    return is_bad < 0 ? is_bad : 0;
}

int registryd_culprit(registryd_session session, const char *line, size_t length, uint32_t error, struct registryd_culprit *culprit)
{
    if (!line || !culprit || length > MOST_LINE_BYTES + 1)
        return REGISTRYD_MISUSE;
    struct rest rest = rest_of(line, length), name, version;
    struct registryd_culprit read = {.place = ""};
    struct search of = {.session = session, .line = line, .error = error, .culprit = &read};
    if (!has_member(rest, "name", &name) || !has_member(rest, "version", &version))
        return REGISTRYD_MISUSE;
    int found = takes_text(&name, line, &of.own.name) && takes_text(&version, line, &of.own.text) ? search_own(&of) : 0;
    if (!found)
        found = search_pairs(&of, rest, "needs");
    if (!found)
        found = search_pairs(&of, rest, "lock");
    if (found > 0)
        found = search_meant(&of);
    if (found < 0)
        return -found;
    *culprit = read;
    return REGISTRYD_OK;
}
