/* Reads lines of standard input, of a word and a text, and prints what the calls for lines of the library answer. */
#include <registryd.h>

#include <stdio.h>
#include <stdlib.h>
#include <string.h>

static void quote(const char *text, size_t size)
{
    char *room = malloc(size ? size : 1);
    size_t length = 0;
    int answer = registryd_quote(text, size ? room : NULL, size, &length);
    printf("%d %zu %s\n", answer, length, size ? room : "");
    free(room);
}

static void selected(const char *line, size_t length)
{
    struct registryd_pair pair;
    int answer;
    for (size_t place = 0; (answer = registryd_selected(line, length, place, &pair)) == REGISTRYD_OK; place++)
        printf("%s %s, ", pair.name, pair.version);
    printf("%d\n", answer);
}

static void read_reply(const char *line, size_t length)
{
    struct registryd_reply reply = {.kind = REGISTRYD_OTHER};
    int answer = registryd_read(line, length, &reply);
    printf("%d %d %u %u %s\n", answer, (int)reply.kind, (unsigned)reply.revision, (unsigned)reply.error, reply.name);
}

static struct registryd_step *steps_of(const char *line, size_t length, size_t *count)
{
    int answer = registryd_steps(line, length, NULL, 0, count);
    struct registryd_step *steps = answer == REGISTRYD_MEMORY ? malloc(*count * sizeof *steps) : NULL;
    if (steps)
        answer = registryd_steps(line, length, steps, *count, count);
    if (answer)
        printf("%d", answer);
    return steps;
}

/* The sentences of a refusal, each in room of just its length. */
static void explain(const char *line, size_t length)
{
    size_t count = 0, wanted = 0, written = 0;
    struct registryd_step *steps = steps_of(line, length, &count);
    for (size_t place = 0; steps && place < count; place++) {
        int short_of = registryd_sentence(line, length, steps, count, place, NULL, 0, &wanted);
        char *room = malloc(wanted + 1);
        int answer = registryd_sentence(line, length, steps, count, place, room, wanted + 1, &written);
        printf("%s%s", short_of == REGISTRYD_MEMORY && !answer && written == wanted && strlen(room) == wanted ? "" : "!", room);
        printf("%s", place + 1 < count ? " | " : "");
        free(room);
    }
    printf("\n");
    free(steps);
}

static void print_text(const char *line, struct registryd_text text)
{
    printf("%.*s", (int)text.length, line + text.at);
}

static void print_set(const char *line, size_t length, struct registryd_text left)
{
    struct registryd_text item;
    printf("{");
    while (registryd_item(line, length, &left, &item) == REGISTRYD_OK) {
        printf(" ");
        print_text(line, item);
    }
    printf(" }");
}

static void print_cause(const char *line, size_t length, const struct registryd_cause *cause)
{
    printf(" %d:%zu ", (int)cause->kind, cause->step);
    print_text(line, cause->package);
    print_set(line, length, cause->versions);
    print_text(line, cause->target);
    printf("(");
    print_text(line, cause->requirement);
    printf(")");
    print_set(line, length, cause->within);
}

/* The steps of a refusal, with all that they have. */
static void walk(const char *line, size_t length)
{
    size_t count = 0;
    struct registryd_step *steps = steps_of(line, length, &count);
    for (size_t place = 0; steps && place < count; place++) {
        struct registryd_text left = steps[place].terms;
        struct registryd_term term;
        printf("%zu:", steps[place].number);
        while (registryd_term(line, length, &left, &term) == REGISTRYD_OK) {
            printf(" %d ", term.is_in);
            print_text(line, term.package);
            print_set(line, length, term.versions);
        }
        printf(" <-");
        print_cause(line, length, &steps[place].causes[0]);
        print_cause(line, length, &steps[place].causes[1]);
        printf("; ");
    }
    printf("\n");
    free(steps);
}

/* What is no step, no term and no version, or lies outside of the line. */
static void misuse_steps(void)
{
    static const char line[] = "{\"explanation\":[\"1. never (a {1.0.0}), because the request must be met and line {1.0.0} is not allowed\",\"So no selection meets the request.\"]}";
    size_t length = strlen(line), count, written;
    struct registryd_step step = {.number = 0}, far = {.terms = {length, 2}};
    struct registryd_text all = {0, length}, outside = {length, 1}, beyond = {length + 1, 0}, none = {length, 0}, item;
    struct registryd_term term;
    struct registryd_culprit culprit;
    char room[8];
    far.causes[0] = far.causes[1] = (struct registryd_cause){.kind = REGISTRYD_NEED, .target = outside, .requirement = beyond, .within = outside, .versions = beyond};
    printf("%d%d%d%d ", registryd_steps(NULL, 0, &step, 1, &count), registryd_steps(line, length, NULL, 1, &count), registryd_steps(line, length, &step, 1, NULL),
           registryd_steps(line, length, &step, 1, &count));
    printf("%d%d%d%d%d%d%d ", registryd_term(NULL, 0, &none, &term), registryd_term(line, length, NULL, &term), registryd_term(line, length, &all, NULL),
           registryd_term(line, length, &outside, &term), registryd_term(line, length, &beyond, &term), registryd_term(line, length, &all, &term),
           registryd_term(line, length, &none, &term));
    printf("%d%d%d%d%d ", registryd_item(NULL, 0, &none, &item), registryd_item(line, length, NULL, &item), registryd_item(line, length, &all, NULL),
           registryd_item(line, length, &outside, &item), registryd_item(line, length, &none, &item));
    printf("%d%d%d%d%d ", registryd_sentence(NULL, 0, &step, 1, 0, room, sizeof room, &written), registryd_sentence(line, length, NULL, 1, 0, room, sizeof room, &written),
           registryd_sentence(line, length, &step, 1, 1, room, sizeof room, &written), registryd_sentence(line, length, &step, 1, 0, NULL, 8, &written),
           registryd_sentence(line, length, &step, 1, 0, room, sizeof room, NULL));
    step.causes[0] = (struct registryd_cause){.kind = REGISTRYD_STEP, .step = 1};
    printf("%d %d ", registryd_sentence(line, length, &step, 1, 0, room, sizeof room, &written), registryd_sentence(line, length, &far, 1, 0, room, sizeof room, &written));
    printf("%d%d%d%d\n", registryd_culprit(0, NULL, 0, 1, &culprit), registryd_culprit(0, "{}", 2, 1, NULL), registryd_culprit(0, "[]", 2, 1, &culprit),
           registryd_culprit(0, "{\"needs\":[[\"A\",\"*\"]]}", 21, 1, &culprit));
}

/* The bytes of a line in memory of just their number, so that a step beyond them is noticed. */
static void on_copy(void (*read)(const char *, size_t), const char *line)
{
    size_t length = strlen(line);
    char *copy = malloc(length ? length : 1);
    memcpy(copy, line, length);
    read(copy, length);
    free(copy);
}

int main(void)
{
    char line[4096];
    size_t length;
    struct registryd_reply reply;
    struct registryd_pair pair;
    char room[8];
    while (fgets(line, sizeof line, stdin)) {
        line[strcspn(line, "\n")] = '\0';
        char *text = strchr(line, ' ');
        *text++ = '\0';
        if (!strcmp(line, "quote"))
            quote(text, 64);
        else if (!strcmp(line, "short"))
            quote(text, 4);
        else if (!strcmp(line, "none"))
            quote(text, 0);
        else if (!strcmp(line, "read"))
            on_copy(read_reply, text);
        else if (!strcmp(line, "explain"))
            on_copy(explain, text);
        else if (!strcmp(line, "walk"))
            on_copy(walk, text);
        else
            on_copy(selected, text);
    }
    for (int answer = REGISTRYD_OK; answer <= REGISTRYD_JOURNAL + 1; answer++)
        printf("%s\n", registryd_strerror(answer));
    printf("%d\n", strcmp(registryd_version(), REGISTRYD_VERSION));
    printf("%d%d%d%d%d%d%d\n", registryd_quote(NULL, room, sizeof room, &length), registryd_quote("a", NULL, 8, &length), registryd_quote("a", room, 8, NULL),
           registryd_read(NULL, 0, &reply), registryd_read("{}", 2, NULL), registryd_selected(NULL, 0, 0, &pair), registryd_selected("{}", 2, 0, NULL));
    misuse_steps();
    return 0;
}
