#include "registryd.h"
#include "text.h"

#include <string.h>

/* Of a set of more versions than this three are named. */
#define MOST_NAMED 4

/* What is read of a line, whose texts are told by their places. */
struct reader {
    const char *line;
    struct rest rest;
};

/* A text up to one of some bytes. */
static int has_until(struct reader *from, const char *ends, struct registryd_text *text)
{
    text->at = (size_t)(from->rest.at - from->line);
    while (from->rest.at < from->rest.end && !strchr(ends, *from->rest.at))
        from->rest.at++;
    text->length = (size_t)(from->rest.at - from->line) - text->at;
    return 1;
}

static int has_set(struct reader *from, struct registryd_text *set)
{
    return has(&from->rest, "{") && has_until(from, "}", set) && has(&from->rest, "}");
}

/* A package with a set of its versions, or the request, which may go without. */
static int has_subject(struct reader *from, struct registryd_text *package, struct registryd_text *versions)
{
    int is_request = has(&from->rest, "the request");
    package->at = (size_t)(from->rest.at - from->line);
    package->length = 0;
    *versions = *package;
    if (!is_request)
        has_until(from, " ", package);
    struct rest behind = from->rest;
    if (has(&from->rest, " ") && has_set(from, versions))
        return is_request || package->length > 0;
    from->rest = behind;
    return is_request;
}

static int has_cause(struct reader *from, struct registryd_cause *cause)
{
    struct rest first = from->rest;
    uint32_t number;
    *cause = (struct registryd_cause){.kind = REGISTRYD_ROOT};
    if (has(&from->rest, "the request must be met"))
        return 1;
    if (has(&from->rest, "line ") && has_number(&from->rest, &number)) {
        cause->kind = REGISTRYD_STEP;
        cause->step = (size_t)number - 1;
        return number > 0;
    }
    from->rest = first;
    cause->kind = REGISTRYD_DISALLOWED;
    if (!has_subject(from, &cause->package, &cause->versions))
        return 0;
    if (has(&from->rest, " is not allowed"))
        return 1;
    cause->kind = cause->package.length ? REGISTRYD_PREMISE : REGISTRYD_NEED;
    return has(&from->rest, " needs ") && has_until(from, " ", &cause->target) && has(&from->rest, " \\\"") &&
           has_until(from, "\\", &cause->requirement) && has(&from->rest, "\\\" in ") && has_set(from, &cause->within);
}

/* A step rests on earlier ones alone. */
static int has_step(struct reader *from, size_t place, struct registryd_step *step)
{
    struct registryd_cause *causes = step->causes;
    uint32_t number;
    step->number = 0;
    if (!has_number(&from->rest, &number) || number != place + 1 || !has(&from->rest, ". never (") || !has_until(from, ")", &step->terms))
        return 0;
    if (!has(&from->rest, "), because ") || !has_cause(from, &causes[0]) || !has(&from->rest, " and ") || !has_cause(from, &causes[1]))
        return 0;
    return (causes[0].kind != REGISTRYD_STEP || causes[0].step < place) && (causes[1].kind != REGISTRYD_STEP || causes[1].step < place);
}

/* Whether a word stands somewhere in the rest, which begins behind it then. */
static int finds(struct rest *rest, const char *word)
{
    for (; rest->at < rest->end; rest->at++)
        if (has(rest, word))
            return 1;
    return 0;
}

static int is_before(const struct registryd_cause *cause, size_t place)
{
    return cause->kind == REGISTRYD_STEP && cause->step + 1 == place;
}

/* Gives numbers to the steps that others than the next one cite. */
static void number_steps(struct registryd_step *steps, size_t count)
{
    size_t number = 0;
    for (size_t place = 0; place < count; place++)
        for (int side = 0; side < 2; side++) {
            const struct registryd_cause *cause = &steps[place].causes[side];
            if (cause->kind == REGISTRYD_STEP && !is_before(cause, place))
                steps[cause->step].number = 1;
        }
    for (size_t place = 0; place < count; place++)
        if (steps[place].number)
            steps[place].number = ++number;
}

int registryd_steps(const char *line, size_t length, struct registryd_step *steps, size_t size, size_t *count)
{
    if (!line || !count || (!steps && size))
        return REGISTRYD_MISUSE;
    struct reader from = {line, rest_of(line, length)};
    struct registryd_step step;
    size_t found = 0;
    if (!finds(&from.rest, "\"explanation\":[\""))
        return REGISTRYD_MISUSE;
    for (; !has(&from.rest, "So no selection meets the request.\"]"); found++) {
        if (!has_step(&from, found, &step) || !has(&from.rest, "\",\""))
            return REGISTRYD_MISUSE;
        if (found < size)
            steps[found] = step;
    }
    if (!found)
        return REGISTRYD_MISUSE;
    *count = found;
    if (found > size)
        return REGISTRYD_MEMORY;
    number_steps(steps, found);
    return REGISTRYD_OK;
}

static int is_within(size_t length, struct registryd_text text)
{
    return text.at <= length && text.length <= length - text.at;
}

/* A reader of a text of the line. */
static struct reader reader_of(const char *line, struct registryd_text text)
{
    return (struct reader){line, {line + text.at, line + text.at + text.length}};
}

static void take_off(struct registryd_text *left, const struct reader *read)
{
    size_t at = (size_t)(read->rest.at - read->line);
    left->length -= at - left->at;
    left->at = at;
}

int registryd_term(const char *line, size_t length, struct registryd_text *left, struct registryd_term *term)
{
    if (!line || !left || !term || !is_within(length, *left))
        return REGISTRYD_MISUSE;
    if (!left->length)
        return REGISTRYD_ENDED;
    struct reader from = reader_of(line, *left);
    struct rest first = from.rest;
    struct registryd_term read;
    /* a package may have the name `not`: its set stands behind that */
    read.is_in = !has(&from.rest, "not ") || (from.rest.at < from.rest.end && *from.rest.at == '{');
    if (read.is_in)
        from.rest = first;
    if (!has_subject(&from, &read.package, &read.versions) || (!has(&from.rest, ", ") && from.rest.at < from.rest.end))
        return REGISTRYD_MISUSE;
    *term = read;
    take_off(left, &from);
    return REGISTRYD_OK;
}

int registryd_item(const char *line, size_t length, struct registryd_text *left, struct registryd_text *item)
{
    if (!line || !left || !item || !is_within(length, *left))
        return REGISTRYD_MISUSE;
    if (!left->length)
        return REGISTRYD_ENDED;
    struct reader from = reader_of(line, *left);
    has_until(&from, ",", item);
    if (!has(&from.rest, ", ") && from.rest.at < from.rest.end)
        return REGISTRYD_MISUSE;
    take_off(left, &from);
    return REGISTRYD_OK;
}

/* ---- sentences */

struct said {
    const char *line;
    size_t length;
    struct written to;
};

static void say(struct said *said, const char *words)
{
    put_words(&said->to, words);
}

static void say_text(struct said *said, struct registryd_text text)
{
    for (size_t at = 0; is_within(said->length, text) && at < text.length; at++)
        put(&said->to, said->line[text.at + at]);
}

static void say_number(struct said *said, size_t number)
{
    if (number > 9)
        say_number(said, number / 10);
    put(&said->to, (char)('0' + number % 10));
}

static void say_label(struct said *said, size_t number)
{
    say(said, " (");
    say_number(said, number);
    say(said, ")");
}

static size_t count_of(const struct said *said, struct registryd_text versions)
{
    struct registryd_text version;
    size_t count = 0;
    while (registryd_item(said->line, said->length, &versions, &version) == REGISTRYD_OK)
        count++;
    return count;
}

static void say_versions(struct said *said, struct registryd_text versions)
{
    size_t count = count_of(said, versions), named = count <= MOST_NAMED ? count : MOST_NAMED - 1;
    struct registryd_text version;
    for (size_t place = 0; place < named && registryd_item(said->line, said->length, &versions, &version) == REGISTRYD_OK; place++) {
        say(said, !place ? "" : place + 1 < count ? ", " : " or ");
        say_text(said, version);
    }
    if (named < count) {
        say(said, " or ");
        say_number(said, count - named);
        say(said, " others");
    }
}

/* A package and some of its versions, or the request. */
static void say_some(struct said *said, struct registryd_text package, struct registryd_text versions)
{
    if (!package.length) {
        say(said, "the request");
    } else if (!versions.length) {
        say(said, "no version of ");
        say_text(said, package);
    } else {
        say_text(said, package);
        say(said, " ");
        say_versions(said, versions);
    }
}

/* How many terms of packages a conclusion has, and whether one holds of no choice, so that nothing is said. */
struct counted {
    size_t inside, outside;
    int is_empty;
};

static int next_term(const struct said *said, struct registryd_text *left, struct registryd_term *term)
{
    return registryd_term(said->line, said->length, left, term) == REGISTRYD_OK;
}

static struct counted counted(const struct said *said, struct registryd_text terms)
{
    struct counted count = {.inside = 0};
    struct registryd_term term;
    while (next_term(said, &terms, &term)) {
        if (!term.package.length)
            count.is_empty |= !term.is_in || term.versions.length;
        else if (term.is_in)
            count.inside++;
        else if (term.versions.length)
            count.outside++;
        count.is_empty |= term.package.length && term.is_in && !term.versions.length;
    }
    return count;
}

/* The terms of packages of one kind, in a row. */
static void say_terms(struct said *said, struct registryd_text terms, int is_in, size_t count, const char *between, const char *last)
{
    struct registryd_term term;
    size_t place = 0;
    while (next_term(said, &terms, &term))
        if (term.is_in == is_in && term.package.length && term.versions.length) {
            if (place)
                say(said, place + 1 == count ? last : between);
            say_some(said, term.package, term.versions);
            place++;
        }
}

/* What it means that these terms can't all hold. */
static void say_conclusion(struct said *said, struct registryd_text terms)
{
    struct counted count = counted(said, terms);
    if (count.is_empty) {
        say(said, "nothing is said");
    } else if (count.outside) {
        if (!count.inside)
            say(said, "the request");
        say_terms(said, terms, 1, count.inside, ", ", " and ");
        say(said, count.inside > 1 ? " together require " : " requires ");
        say_terms(said, terms, 0, count.outside, " or ", " or ");
    } else if (count.inside) {
        say_terms(said, terms, 1, count.inside, ", ", count.inside == 2 ? " is incompatible with " : " and ");
        say(said, count.inside == 1 ? " is forbidden" : count.inside == 2 ? "" : " are incompatible");
    } else {
        say(said, "resolving failed");
    }
}

/* Whether a text of the line has a byte. */
static int has_byte(const struct said *said, struct registryd_text text, char byte)
{
    return is_within(said->length, text) && memchr(said->line + text.at, byte, text.length) != NULL;
}

/* Whether a requirement looks like no range of versions. */
static int is_plain(const struct said *said, struct registryd_text requirement)
{
    char first = is_within(said->length, requirement) && requirement.length ? said->line[requirement.at] : ' ';
    return (first == '*' && requirement.length == 1) ||
           ((first == '~' || first == '^') && !has_byte(said, requirement, ' ') && !has_byte(said, requirement, ','));
}

/* A requirement, in quotes where it looks like a range. */
static void say_requirement(struct said *said, struct registryd_text requirement)
{
    const char *quote = is_plain(said, requirement) ? "" : "\"";
    say(said, quote);
    say_text(said, requirement);
    say(said, quote);
}

/* How many reasons a cause gives: none where the sentence before says it, or the question itself. */
static size_t reasons_of(const struct registryd_cause *cause, size_t place)
{
    if (cause->kind == REGISTRYD_ROOT || is_before(cause, place))
        return 0;
    return cause->kind == REGISTRYD_STEP || cause->kind == REGISTRYD_DISALLOWED || cause->within.length ? 1 : 2;
}

/* The first reason that a cause gives. */
static void say_reason(struct said *said, const struct registryd_step *steps, const struct registryd_cause *cause)
{
    if (cause->kind == REGISTRYD_STEP) {
        say_conclusion(said, steps[cause->step].terms);
        say_label(said, steps[cause->step].number);
        return;
    }
    say_some(said, cause->package, cause->versions);
    if (cause->kind == REGISTRYD_DISALLOWED) {
        say(said, has_byte(said, cause->versions, '#') ? " is not allowed" : " is yanked");
    } else {
        say(said, " depends on ");
        say_text(said, cause->target);
        say(said, " ");
        say_requirement(said, cause->requirement);
    }
}

static void say_unmet(struct said *said, const struct registryd_cause *cause)
{
    say(said, "no version of ");
    say_text(said, cause->target);
    say(said, " matches ");
    say_requirement(said, cause->requirement);
}

static void say_reasons(struct said *said, const struct registryd_step *steps, size_t place)
{
    const struct registryd_cause *causes = steps[place].causes;
    size_t told = 0;
    for (int side = 0; side < 2; side++) {
        size_t reasons = reasons_of(&causes[side], place);
        for (size_t reason = 0; reason < reasons; reason++, told++) {
            say(said, told ? " and " : "");
            if (reason)
                say_unmet(said, &causes[side]);
            else
                say_reason(said, steps, &causes[side]);
        }
    }
}

static int cites(const struct registryd_step *step, size_t count)
{
    return (step->causes[0].kind != REGISTRYD_STEP || step->causes[0].step < count) &&
           (step->causes[1].kind != REGISTRYD_STEP || step->causes[1].step < count);
}

int registryd_sentence(const char *line, size_t length, const struct registryd_step *steps, size_t count, size_t place, char *room, size_t size,
                       size_t *written)
{
    struct said said = {line, length, {.room = room, .size = size}};
    if (!line || !steps || place >= count || !written || (!room && size) || !cites(&steps[place], count))
        return REGISTRYD_MISUSE;
    const struct registryd_cause *causes = steps[place].causes;
    int follows = is_before(&causes[0], place) || is_before(&causes[1], place);
    if (reasons_of(&causes[0], place) + reasons_of(&causes[1], place))
        say(&said, follows ? "And because " : "Because ");
    else
        say(&said, "Thus");
    say_reasons(&said, steps, place);
    say(&said, ", ");
    say_conclusion(&said, steps[place].terms);
    say(&said, ".");
    if (steps[place].number)
        say_label(&said, steps[place].number);
    return end_written(&said.to, written);
}
