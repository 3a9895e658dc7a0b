/* Calls of seats that a careless caller makes. It prints the first line that failed. The word is what is tried: `calls`, `forks` or
 * `threads`. */
#include "c_calls.h"

#include <signal.h>
#include <sys/resource.h>
#include <sys/wait.h>
#include <unistd.h>

static const char resolve[] = "{\"op\":\"resolve\",\"needs\":[[\"a\",\"^1\"]]}\n";
static const char publish_b[] = "{\"op\":\"publish\",\"name\":\"b\",\"version\":\"1.0.0\",\"needs\":[]}\n";
static const char journal_a[] = "registry-journal 2\n{\"name\":\"a\",\"needs\":[],\"op\":\"publish\",\"version\":\"1.0.0\"}\nend 1\n";
static const char empty[] = "registry-journal 2\nend 0\n";
static char words[REGISTRYD_WORDS];

static void opened(const char *load, size_t entries, registryd_session *seats, size_t count)
{
    memset(seats, 0, count * sizeof *seats);
    WANT(registryd_open_seats(load, entries, seats, count, words, sizeof words) == REGISTRYD_OK && words[0] == '\0');
    for (size_t i = 0; i < count; i++)
        WANT(seats[i] != 0);
}

static void closed(registryd_session seat)
{
    WANT(registryd_close(seat) == REGISTRYD_OK);
    WANT(registryd_close(seat) == REGISTRYD_MISUSE);
}

/* The reply to a line is this one. */
static void answered(registryd_session seat, const char *line, const char *wanted)
{
    fed(seat, line);
    told(seat, wanted);
}

static void has_journal(registryd_session seat, const char *wanted)
{
    char text[512];
    size_t length = 0;
    WANT(registryd_journal(seat, text, sizeof text, &length) == REGISTRYD_OK);
    WANT(length == strlen(wanted) && !memcmp(text, wanted, length));
}

static void write_file(const char *name, const char *text)
{
    FILE *file = fopen(name, "wb");
    WANT(file && fwrite(text, 1, strlen(text), file) == strlen(text) && !fclose(file));
}

static void wrong_arguments(void)
{
    registryd_session seats[2] = {5, 5}, session = 0;
    char text[8];
    size_t length = 3;
    struct registryd_stamp stamp = {.place = 9, .seat = 9};
    WANT(registryd_open_seats(NULL, 1, NULL, 1, words, sizeof words) == REGISTRYD_MISUSE && words[0]);
    WANT(registryd_open_seats(NULL, 1, seats, 0, words, sizeof words) == REGISTRYD_MISUSE && words[0]);
    WANT(registryd_open_seats(NULL, 1, seats, REGISTRYD_SEATS + 1, NULL, 0) == REGISTRYD_MISUSE);
    WANT(registryd_open_seats(NULL, 0, seats, 2, NULL, 0) == REGISTRYD_MISUSE);
    WANT(registryd_open_seats(NULL, REGISTRYD_ENTRIES + 1, seats, 2, NULL, 0) == REGISTRYD_MISUSE);
    WANT(registryd_open_seats(NULL, SIZE_MAX, seats, SIZE_MAX, NULL, 0) == REGISTRYD_MISUSE);
    WANT(registryd_open_seats(NULL, 1, seats, 1, NULL, 1) == REGISTRYD_MISUSE);
    WANT(seats[0] == 5 && seats[1] == 5);
    opened(NULL, 1, seats, 1);
    WANT(registryd_journal(seats[0], text, sizeof text, NULL) == REGISTRYD_MISUSE);
    WANT(registryd_journal(seats[0], NULL, 1, &length) == REGISTRYD_MISUSE);
    WANT(registryd_journal(seats[0], text, SIZE_MAX, &length) == REGISTRYD_MISUSE);
    WANT(registryd_open_embedded(NULL, NULL, &session, NULL, 0) == REGISTRYD_OK);
    WANT(registryd_journal(session, text, sizeof text, &length) == REGISTRYD_MISUSE);
    WANT(registryd_close(session) == REGISTRYD_OK);
    WANT(registryd_journal(session, text, sizeof text, &length) == REGISTRYD_MISUSE && length == 3);
    /* too short a room has its length told, and nothing else */
    memset(text, 'x', sizeof text);
    WANT(registryd_journal(seats[0], text, sizeof text, &length) == REGISTRYD_MEMORY && length == strlen(empty) && text[0] == 'x');
    WANT(registryd_error(seats[0], words, sizeof words) == REGISTRYD_OK && !words[0]);
    WANT(registryd_stamp(NULL, 0, &stamp) == REGISTRYD_MISUSE);
    WANT(registryd_stamp(listed, strlen(listed), NULL) == REGISTRYD_MISUSE);
    WANT(registryd_stamp(listed, strlen(listed), &stamp) == REGISTRYD_MISUSE && stamp.place == 9 && stamp.seat == 9);
    closed(seats[0]);
    WANT(registryd_journal(seats[0], text, sizeof text, &length) == REGISTRYD_MISUSE);
}

/* Seats are sessions: there are no more of both together than may be. Where not all seats can be had, none is. */
static void many_seats(void)
{
    registryd_session all[REGISTRYD_SEATS], more[2] = {5, 5};
    opened(NULL, 4, all, REGISTRYD_SEATS);
    WANT(registryd_open_seats(NULL, 1, more, 1, words, sizeof words) == REGISTRYD_MEMORY && words[0]);
    closed(all[7]);
    WANT(registryd_open_seats(NULL, 1, more, 2, words, sizeof words) == REGISTRYD_MEMORY && words[0]);
    WANT(more[0] == 5 && more[1] == 5);
    opened(NULL, 1, more, 1);
    closed(more[0]);
    for (int i = 0; i < REGISTRYD_SEATS; i++)
        if (i != 7)
            closed(all[i]);
}

/* Two seats see what the other enters, whichever is closed first; those of another journal see nothing of it. */
static void two_seats(void)
{
    for (int first = 0; first < 2; first++) {
        registryd_session seats[2], other[1];
        opened(NULL, 8, seats, 2);
        opened(NULL, 8, other, 1);
        answered(seats[0], publish, "{\"ok\":true,\"place\":1,\"revision\":1,\"seat\":1}\n");
        answered(seats[1], publish, "{\"error\":7,\"name\":\"AlreadyPublished\",\"place\":1,\"revision\":1,\"seat\":2}\n");
        answered(seats[1], "{}\n", "{\"error\":19,\"name\":\"BadLine\",\"place\":1,\"revision\":1,\"seat\":2}\n");
        answered(other[0], list, "{\"packages\":[],\"place\":0,\"revision\":0,\"seat\":1}\n");
        closed(seats[first]);
        answered(seats[1 - first], resolve, first ? "{\"place\":1,\"revision\":1,\"seat\":1,\"selected\":[[\"a\",\"1.0.0\"]]}\n"
                                                  : "{\"place\":1,\"revision\":1,\"seat\":2,\"selected\":[[\"a\",\"1.0.0\"]]}\n");
        has_journal(seats[1 - first], journal_a);
        closed(seats[1 - first]);
        has_journal(other[0], empty);
        closed(other[0]);
    }
}

/* Lines that come byte by byte, replies that are taken byte by byte, several lines at once, and a last one without its line feed. */
static void pieces(void)
{
    static const char both[] = "{\"ok\":true,\"place\":1,\"revision\":1,\"seat\":1}\n{\"packages\":[[\"a\",[[\"1.0.0\",false]]]],\"place\":1,\"revision\":1,\"seat\":1}\n";
    registryd_session seats[1];
    char given[256], text[256];
    size_t length, left;
    opened(NULL, 8, seats, 1);
    for (const char *at = publish; *at; at++)
        WANT(registryd_feed(seats[0], at, 1) == REGISTRYD_OK);
    WANT(registryd_feed(seats[0], list, strlen(list)) == REGISTRYD_OK);
    for (size_t at = 0; at < strlen(both); at++)
        WANT(registryd_take(seats[0], text, 1, &length, &left) == REGISTRYD_OK && length == 1 && left == strlen(both) - at - 1 && *text == both[at]);
    /* a command is done once, however short the room for its reply */
    WANT(registryd_ask(seats[0], publish_b, strlen(publish_b), text, 0, &length, &left) == REGISTRYD_OK && length == 0 && left > 0);
    told(seats[0], "{\"ok\":true,\"place\":2,\"revision\":2,\"seat\":1}\n");
    snprintf(given, sizeof given, "%s%s", publish, list);
    WANT(registryd_feed(seats[0], given, strlen(given) - 1) == REGISTRYD_OK);
    told(seats[0], "{\"error\":7,\"name\":\"AlreadyPublished\",\"place\":2,\"revision\":2,\"seat\":1}\n");
    WANT(registryd_save(seats[0]) == REGISTRYD_OK);
    told(seats[0], "{\"packages\":[[\"a\",[[\"1.0.0\",false]]],[\"b\",[[\"1.0.0\",false]]]],\"place\":2,\"revision\":2,\"seat\":1}\n");
    WANT(registryd_feed(seats[0], list, strlen(list)) == REGISTRYD_MISUSE);
    WANT(registryd_save(seats[0]) == REGISTRYD_OK);
    told(seats[0], "");
    closed(seats[0]);
}

/* What the calls for lines read of a seat's replies. */
static void read_replies(void)
{
    static const struct { const char *line; enum registryd_kind kind; uint32_t revision, place, seat; } all[] = {
        {"{\"ok\":true,\"place\":12,\"revision\":7,\"seat\":3}\n", REGISTRYD_ACCEPTED, 7, 12, 3},
        {"{\"error\":10,\"name\":\"JournalFull\",\"place\":65536,\"revision\":65000,\"seat\":64}", REGISTRYD_ERROR, 65000, 65536, 64},
        {"{\"place\":2,\"revision\":1,\"seat\":1,\"selected\":[[\"a\",\"1.0.0\"]]}\n", REGISTRYD_SELECTED, 1, 2, 1},
        {"{\"place\":2,\"refused\":true,\"revision\":2,\"seat\":1}\n", REGISTRYD_NOTHING, 2, 2, 1},
        {"{\"packages\":[[\"place\",[[\"1.0.0\",false]]],[\"seat\",[[\"1.0.0\",true]]]],\"place\":3,\"revision\":3,\"seat\":2}\n", REGISTRYD_OTHER, 3, 3, 2},
    };
    struct registryd_reply reply;
    struct registryd_stamp stamp;
    struct registryd_pair pair;
    for (size_t i = 0; i < sizeof all / sizeof *all; i++) {
        WANT(registryd_read(all[i].line, strlen(all[i].line), &reply) == REGISTRYD_OK);
        WANT(reply.kind == all[i].kind && reply.revision == all[i].revision);
        WANT(registryd_stamp(all[i].line, strlen(all[i].line), &stamp) == REGISTRYD_OK);
        WANT(stamp.place == all[i].place && stamp.seat == all[i].seat);
    }
    WANT(registryd_selected(all[2].line, strlen(all[2].line), 0, &pair) == REGISTRYD_OK && !strcmp(pair.name, "a") && !strcmp(pair.version, "1.0.0"));
    WANT(registryd_selected(all[2].line, strlen(all[2].line), 1, &pair) == REGISTRYD_ENDED);
    WANT(registryd_selected(all[0].line, strlen(all[0].line), 0, &pair) == REGISTRYD_MISUSE);
}

/* Which text of a line is at fault is found by asking, at a seat as at a session. */
static void culprits(void)
{
    static const char line[] = "{\"op\":\"resolve\",\"needs\":[[\"a\",\"==1\"]]}\n";
    registryd_session seats[1];
    struct registryd_culprit culprit;
    opened(NULL, 8, seats, 1);
    answered(seats[0], line, "{\"error\":3,\"name\":\"BadRequirement\",\"place\":0,\"revision\":0,\"seat\":1}\n");
    WANT(registryd_culprit(seats[0], line, strlen(line), 3, &culprit) == REGISTRYD_OK);
    WANT(!strcmp(culprit.place, "needs[0]") && culprit.text.length == 3 && !memcmp(line + culprit.text.at, "==1", 3) && !strcmp(culprit.meant, "=1"));
    closed(seats[0]);
}

/* A journal with no room for more, also one that is loaded; and one that has too many entries. */
static void full_journals(void)
{
    registryd_session seats[2] = {5, 5};
    static const char full[] = "{\"error\":10,\"name\":\"JournalFull\",\"place\":1,\"revision\":1,\"seat\":%d}\n";
    char wanted[128];
    write_file("a.journal", journal_a);
    for (int is_loaded = 0; is_loaded < 2; is_loaded++) {
        opened(is_loaded ? "a.journal" : NULL, 1, seats, 2);
        if (!is_loaded)
            answered(seats[0], publish, "{\"ok\":true,\"place\":1,\"revision\":1,\"seat\":1}\n");
        for (int i = 0; i < 2; i++) {
            snprintf(wanted, sizeof wanted, full, i + 1);
            answered(seats[i], publish_b, wanted);
            has_journal(seats[i], journal_a);
        }
        closed(seats[1]);
        closed(seats[0]);
    }
    write_file("b.journal", "registry-journal 2\n{\"name\":\"a\",\"needs\":[],\"op\":\"publish\",\"version\":\"1.0.0\"}\n"
                            "{\"name\":\"b\",\"needs\":[],\"op\":\"publish\",\"version\":\"1.0.0\"}\nend 2\n");
    seats[0] = 5;
    WANT(registryd_open_seats("b.journal", 1, seats, 1, words, sizeof words) == REGISTRYD_JOURNAL && seats[0] == 5);
    WANT(!strcmp(words, "journal b.journal: has more entries than there is room for"));
    opened("b.journal", 2, seats, 1);
    closed(seats[0]);
}

static void wrong_journals(void)
{
    registryd_session seats[1] = {5};
    write_file("w.journal", "registry-journal 2\n{\"name\":\"a\"}\nend 1\n");
    WANT(registryd_open_seats("w.journal", 8, seats, 1, words, sizeof words) == REGISTRYD_JOURNAL && seats[0] == 5);
    WANT(!strcmp(words, "journal w.journal: line 2 is not a journal's, and nothing was changed"));
    WANT(registryd_open_seats("none.journal", 8, seats, 1, words, sizeof words) == REGISTRYD_JOURNAL && seats[0] == 5);
    WANT(!strncmp(words, "journal none.journal: can't be opened", 37));
}

/* ---- seats that keep their journal in a file */

static const char begun_a[] = "registry-journal 2\n{\"name\":\"a\",\"needs\":[],\"op\":\"publish\",\"version\":\"1.0.0\"}\n";
static const char line_b[] = "{\"name\":\"b\",\"needs\":[],\"op\":\"publish\",\"version\":\"1.0.0\"}\n";
static const char accepted[] = "{\"ok\":true,\"place\":%d,\"revision\":%d,\"seat\":%d}\n";

static void kept(const char *journal, registryd_session *seats, size_t count)
{
    WANT(registryd_open_seats_journal(journal, 16, seats, count, words, sizeof words) == REGISTRYD_OK && words[0] == '\0');
}

/* It can't be opened, and these words say why. */
static void not_kept(const char *journal, size_t entries, const char *why)
{
    registryd_session seats[2] = {5, 5};
    char wanted[256];
    WANT(registryd_open_seats_journal(journal, entries, seats, 2, words, sizeof words) == REGISTRYD_JOURNAL && seats[0] == 5);
    snprintf(wanted, sizeof wanted, "journal %s: %s", journal, why);
    WANT(!strcmp(words, wanted));
}

static void accepts(registryd_session seat, const char *line, int place, int number)
{
    char wanted[128];
    snprintf(wanted, sizeof wanted, accepted, place, place, number);
    answered(seat, line, wanted);
}

/* A file has these texts, one behind another. */
static void has_file(const char *name, const char *first, const char *second, const char *third)
{
    static char text[65536], wanted[65536];
    FILE *file = fopen(name, "rb");
    WANT(file != NULL);
    text[fread(text, 1, sizeof text - 1, file)] = '\0';
    fclose(file);
    snprintf(wanted, sizeof wanted, "%s%s%s", first, second, third);
    WANT(!strcmp(text, wanted));
}

/* The seat takes no lines, and says why; what it has told is not taken back. */
static void is_at_fault(registryd_session seat, const char *line, const char *why)
{
    char text[512];
    size_t length = 7, left = 7;
    WANT(registryd_ask(seat, line, strlen(line), text, sizeof text, &length, &left) == REGISTRYD_JOURNAL && !length && !left);
    WANT(registryd_take(seat, text, sizeof text, &length, &left) == REGISTRYD_JOURNAL && !length && !left);
    WANT(registryd_error(seat, words, sizeof words) == REGISTRYD_OK && !strcmp(words, why));
}

/* What is told stands in the file, by whichever seat; it has its last line with the last one that is saved or closed. */
static void kept_journals(void)
{
    registryd_session seats[3];
    for (int order = 0; order < 6; order++) {
        int first = order % 3, second = (first + 1 + order / 3) % 3, third = 3 - first - second;
        unlink("k.journal");
        kept("k.journal", seats, 3);
        accepts(seats[0], publish, 1, 1);
        has_file("k.journal", begun_a, "", "");
        accepts(seats[2], publish_b, 2, 3);
        has_file("k.journal", begun_a, line_b, "");
        answered(seats[1], resolve, "{\"place\":2,\"revision\":2,\"seat\":2,\"selected\":[[\"a\",\"1.0.0\"]]}\n");
        not_kept("k.journal", 16, "in use by another session");
        if (order % 2)
            WANT(registryd_save(seats[first]) == REGISTRYD_OK);
        closed(seats[first]);
        has_file("k.journal", begun_a, line_b, "");
        WANT(registryd_save(seats[second]) == REGISTRYD_OK && registryd_save(seats[second]) == REGISTRYD_OK);
        WANT(registryd_feed(seats[second], list, strlen(list)) == REGISTRYD_MISUSE);
        accepts(seats[third], "{\"op\":\"yank\",\"name\":\"b\",\"version\":\"1.0.0\"}\n", 3, third + 1);
        has_file("k.journal", begun_a, line_b, "{\"name\":\"b\",\"op\":\"yank\",\"version\":\"1.0.0\"}\n");
        WANT(order % 2 || registryd_save(seats[third]) == REGISTRYD_OK);
        not_kept("k.journal", 16, "in use by another session");
        closed(seats[third]);
        closed(seats[second]);
        has_file("k.journal", begun_a, line_b, "{\"name\":\"b\",\"op\":\"yank\",\"version\":\"1.0.0\"}\nend 3\n");
    }
    not_kept("k.journal", 2, "has more entries than there is room for");
    has_file("k.journal", begun_a, line_b, "{\"name\":\"b\",\"op\":\"yank\",\"version\":\"1.0.0\"}\nend 3\n");
    /* and is gone on with */
    kept("k.journal", seats, 2);
    answered(seats[1], publish_b, "{\"error\":7,\"name\":\"AlreadyPublished\",\"place\":3,\"revision\":3,\"seat\":2}\n");
    accepts(seats[0], "{\"op\":\"unyank\",\"name\":\"b\",\"version\":\"1.0.0\"}\n", 4, 1);
    closed(seats[0]);
    closed(seats[1]);
    WANT(registryd_open_seats_journal(NULL, 16, seats, 2, words, sizeof words) == REGISTRYD_MISUSE && words[0]);
    WANT(registryd_open_seats_journal("k.journal", 0, seats, 2, NULL, 0) == REGISTRYD_MISUSE);
}

/* A file is cut behind each byte of its last two lines: seats go on with what stands there in whole lines. */
static void torn_files(void)
{
    registryd_session seats[2];
    char text[512];
    snprintf(text, sizeof text, "%s%send 2\n", begun_a, line_b);
    for (size_t cut = strlen(text); cut >= strlen(begun_a); text[--cut] = '\0') {
        write_file("t.journal", text);
        kept("t.journal", seats, 2);
        int is_whole = cut >= strlen(begun_a) + strlen(line_b);
        has_file("t.journal", begun_a, is_whole ? line_b : "", "");
        if (!is_whole)
            accepts(seats[1], publish_b, 2, 2);
        closed(seats[0]);
        closed(seats[1]);
        has_file("t.journal", begun_a, line_b, "end 2\n");
    }
    write_file("w.journal", "registry-journal 2\n{\"name\":\"a\"}\nend 1\n");
    not_kept("w.journal", 16, "line 2 is not a journal's, and nothing was changed");
    has_file("w.journal", "registry-journal 2\n{\"name\":\"a\"}\nend 1\n", "", "");
}

static void changes(void)
{
    FILE *file = fopen("c.journal", "ab");
    WANT(file && fputs("x", file) != EOF && !fclose(file));
}

/* Has no file of the process be longer than so. */
static void limit_files(rlim_t most)
{
    WANT(!setrlimit(RLIMIT_FSIZE, &(struct rlimit){most, RLIM_INFINITY}));
}

static void fills_up(void)
{
    signal(SIGXFSZ, SIG_IGN);
    limit_files(strlen(begun_a) + 10);
}

/* Where the file can't be gone on with, each seat says so, whichever met it; none tells what is not there, and the next seats go on. */
static void files_at_fault(void)
{
    static const struct { void (*happens)(void); const char *why, *left; } all[] = {
        {changes, "journal c.journal: changed by another program, and not gone on with", "x"},
        {fills_up, "journal c.journal: can't be written: File too large (os error 27)", "{\"name\":\"b"},
    };
    for (size_t i = 0; i < sizeof all / sizeof *all; i++) {
        registryd_session seats[3];
        char text[512];
        size_t length, left;
        unlink("c.journal");
        kept("c.journal", seats, 3);
        /* this reply is told, and taken later */
        fed(seats[0], publish);
        has_file("c.journal", begun_a, "", "");
        all[i].happens();
        is_at_fault(seats[1], publish_b, all[i].why);
        WANT(registryd_take(seats[0], text, sizeof text, &length, &left) == REGISTRYD_JOURNAL && !left);
        WANT(length == strlen("{\"ok\":true,\"place\":1,\"revision\":1,\"seat\":1}\n"));
        is_at_fault(seats[0], list, all[i].why);
        is_at_fault(seats[2], list, all[i].why);
        WANT(registryd_save(seats[2]) == REGISTRYD_JOURNAL);
        WANT(registryd_journal(seats[2], text, sizeof text, &length) == REGISTRYD_OK);
        for (int seat = 0; seat < 3; seat++)
            closed(seats[seat]);
        limit_files(RLIM_INFINITY);
        has_file("c.journal", begun_a, all[i].left, "");
        kept("c.journal", seats, 1);
        accepts(seats[0], publish_b, 2, 1);
        closed(seats[0]);
        has_file("c.journal", begun_a, line_b, "end 2\n");
    }
}

/* ---- forks */

/* A forked process has no seats, and may open its own; it leaves a file alone, and ends as it likes. */
static void forks(const char *journal)
{
    registryd_session seats[2];
    char text[8];
    size_t length;
    int status;
    if (journal)
        kept(journal, seats, 2);
    else
        opened(NULL, 8, seats, 2);
    answered(seats[0], publish, "{\"ok\":true,\"place\":1,\"revision\":1,\"seat\":1}\n");
    pid_t child = fork();
    WANT(child >= 0);
    if (!child) {
        registryd_session own[2];
        for (int i = 0; i < 2; i++) {
            WANT(registryd_feed(seats[i], list, strlen(list)) == REGISTRYD_MISUSE);
            WANT(registryd_journal(seats[i], text, sizeof text, &length) == REGISTRYD_MISUSE);
            WANT(registryd_close(seats[i]) == REGISTRYD_MISUSE);
        }
        opened(NULL, 8, own, 2);
        answered(own[1], list, "{\"packages\":[],\"place\":0,\"revision\":0,\"seat\":2}\n");
        closed(own[0]);
        closed(own[1]);
        if (journal)
            not_kept(journal, 8, "in use by another session");
        fflush(stdout);
        _exit(0);
    }
    WANT(waitpid(child, &status, 0) == child && status == 0);
    /* one that only ends writes nothing either */
    child = fork();
    WANT(child >= 0);
    if (!child)
        exit(0);
    WANT(waitpid(child, &status, 0) == child && status == 0);
    has_journal(seats[1], journal_a);
    if (journal)
        has_file(journal, begun_a, "", "");
    closed(seats[0]);
    closed(seats[1]);
    if (journal)
        has_file(journal, journal_a, "", "");
}

/* ---- threads */

#define THREADS 8
#define ROUNDS 60

static registryd_session shared[THREADS];

/* Publishes versions of its own, and resolves what all have published; sometimes another thread's seat. */
static void *works(void *given)
{
    size_t number = (size_t)((registryd_session *)given - shared);
    char line[256], text[4096];
    size_t length, left;
    struct registryd_reply reply;
    struct registryd_stamp stamp;
    uint32_t place = 0;
    for (int round = 0; round < ROUNDS; round++) {
        snprintf(line, sizeof line, "{\"op\":\"publish\",\"name\":\"p%zu\",\"version\":\"1.%d.0\",\"needs\":[]}\n", number, round);
        WANT(registryd_ask(shared[number], line, strlen(line), text, sizeof text, &length, &left) == REGISTRYD_OK && left == 0);
        WANT(registryd_read(text, length, &reply) == REGISTRYD_OK && reply.kind == REGISTRYD_ACCEPTED);
        WANT(registryd_stamp(text, length, &stamp) == REGISTRYD_OK && stamp.seat == number + 1 && stamp.place > place && stamp.place >= reply.revision);
        place = stamp.place;
        snprintf(line, sizeof line, "{\"op\":\"resolve\",\"needs\":[[\"p%zu\",\"=1.%d.0\"]]}\n", number, round);
        WANT(registryd_ask(shared[number], line, strlen(line), text, sizeof text, &length, &left) == REGISTRYD_OK && left == 0);
        WANT(registryd_read(text, length, &reply) == REGISTRYD_OK && reply.kind == REGISTRYD_SELECTED && reply.revision >= (uint32_t)round);
    }
    return NULL;
}

static void *closes(void *given)
{
    closed(*(registryd_session *)given);
    return NULL;
}

static void run(void *(*what)(void *))
{
    pthread_t all[THREADS];
    for (int i = 0; i < THREADS; i++)
        WANT(!pthread_create(&all[i], NULL, what, &shared[i]));
    for (int i = 0; i < THREADS; i++)
        WANT(!pthread_join(all[i], NULL));
}

static void threads(const char *journal)
{
    char text[65536];
    size_t length;
    if (journal)
        WANT(registryd_open_seats_journal(journal, REGISTRYD_ENTRIES, shared, THREADS, words, sizeof words) == REGISTRYD_OK);
    else
        opened(NULL, REGISTRYD_ENTRIES, shared, THREADS);
    run(works);
    /* a thread has ended, and its seat goes on in this one */
    WANT(registryd_journal(shared[3], text, sizeof text, &length) == REGISTRYD_OK);
    WANT(length > 8 && !memcmp(text + length - 8, "end 480\n", 8));
    run(closes);
    if (journal) {
        text[length] = '\0';
        has_file(journal, text, "", "");
    }
}

int main(int count, char **given)
{
    WANT(count >= 2);
    if (!strcmp(given[1], "calls")) {
        wrong_arguments();
        many_seats();
        two_seats();
        pieces();
        read_replies();
        culprits();
        full_journals();
        wrong_journals();
        kept_journals();
        torn_files();
        files_at_fault();
    } else if (!strcmp(given[1], "forks")) {
        forks(NULL);
        forks("f.journal");
    } else {
        threads(NULL);
        threads("threads.journal");
    }
    return 0;
}
