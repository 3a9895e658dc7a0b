/* A session of registryd for programs in C, and in what calls C.
 *
 * Request lines go in, reply lines come out, as docs/FORMATS.md has them. A session is answered in one of four ways, which is
 * chosen when it is opened; all other calls are the same for each:
 *
 *   by a child process   registryd_open, registryd_open_journal, registryd_open_budget: a `registryd serve` of its own, with threads
 *                        that share requests
 *   in process           registryd_open_embedded, registryd_open_embedded_journal: the session is a part of the caller's process,
 *                        which starts nothing and waits for nothing but its journal's file
 *   by a seat            registryd_open_seats, registryd_open_seats_journal: several sessions in process that share one journal, each
 *                        for a thread of its own, with replies as a race writes them
 *   by a service         registryd_connect: a `registry serve` that keeps one journal for many clients
 *
 * What is proved: of the program, which replies it gives to the lines that it reads; of the archive `embedded`, which is linked
 * in for sessions in process and for seats, the same of the bytes that each call is given, what a journal's file is to get, and that no
 * reply that rests on an accepted command may be taken before its caller says that the command is safe. What is not: this library,
 * which is C and only tested, and the service. The library starts the child or connects to the service, numbers and locks
 * sessions, keeps what the archive asks of its callers (no null, no two calls at once for a session), and opens, locks, writes and
 * syncs files.
 *
 * A session is a number. No call hands out a pointer but to a text that never changes, and none keeps one that it was given: bytes are
 * copied. A number that is of no open session, a null and a length that nothing can have are
 * answered REGISTRYD_MISUSE, and nothing is done. Threads may call at once; calls for one session
 * wait for each other. A process that was forked has none of the sessions that were open: their numbers are answered
 * REGISTRYD_MISUSE there, and their files and locks stay those of the first process alone. No call may come from a signal's handler,
 * nor may a thread be cancelled within one.
 */
#ifndef REGISTRYD_H
#define REGISTRYD_H

#include <stddef.h>
#include <stdint.h>

#ifdef __cplusplus
extern "C" {
#endif

#define REGISTRYD_VERSION "0.3.0"

typedef uint64_t registryd_session;

/* What a call answers. */
enum registryd_answer {
    REGISTRYD_OK = 0,
    /* An argument is none that the call takes, or it comes at a time when it can't be done. */
    REGISTRYD_MISUSE = 1,
    /* There is no memory, or too many sessions are open. The session is as it was. */
    REGISTRYD_MEMORY = 2,
    /* The program can't be started, or the service can't be reached. */
    REGISTRYD_START = 3,
    /* The program has ended, or the journal isn't whole: why stands on standard error. In process, or amid a feed: there was no memory
     * to go on. By a service: it is not there any more. */
    REGISTRYD_ENDED = 4,
    /* In process: something is the matter with a journal's file. A session that was open takes no more, and what was told as
     * accepted is in the file that it kept its journal in. */
    REGISTRYD_JOURNAL = 5
};

/* How many sessions may be open at once, and how many of these may be seats of one journal. */
#define REGISTRYD_SESSIONS 64
#define REGISTRYD_SEATS 64

/* How many entries a journal with seats may have: accepted commands, and what searches taught. */
#define REGISTRYD_ENTRIES 65536

/* Room for the words that tell what is the matter, unless a file's name is very long. */
#define REGISTRYD_WORDS 1024

/* Starts a session of the program at a path, with so many resolving threads, 1 to 64. It begins with the
 * journal of a file, or with none where `load` is null; registryd_save will write a journal to the
 * file `save`, which is null where none is wanted. That a journal is at fault is told by the calls
 * that follow. */
int registryd_open(const char *program, unsigned workers, const char *load, const char *save, registryd_session *session);

/* As registryd_open, with a journal that the session goes on with, a file that is made where it is not there: it has each
 * accepted command before the reply that tells so can be taken, whatever becomes of this process or the program. One session
 * has a file at a time. */
int registryd_open_journal(const char *program, unsigned workers, const char *journal, registryd_session *session);

/* As registryd_open, or as registryd_open_journal where `journal` is not null, with a budget of each request that names none: how many
 * conflicts its search may meet, 0 to 4,294,967,295. A request that needs more is answered 22. */
int registryd_open_budget(const char *program, unsigned workers, uint32_t budget, const char *journal, const char *load, const char *save,
                          registryd_session *session);

/* Opens a session in process. It begins with the journal of a file, or with none where `load` is null; registryd_save will
 * write a journal to the file `save`, which is null where none is wanted.
 *
 * Where it answers something else than REGISTRYD_OK no session stands, and one line that says why is copied to `words`, ended
 * by a 0 and cut off where there is no room; `words` may be null where `room` is 0. */
int registryd_open_embedded(const char *load, const char *save, registryd_session *session, char *words, size_t room);

/* As registryd_open_embedded, with a journal that the session goes on with, as registryd_open_journal has it: what a call of
 * registryd_feed accepts stands in the file, and is synced once for all of its lines, before the replies can be taken. What a
 * search taught is written before the reply to a later line can be taken, or at the end. A session of the program and one in process
 * exclude each other from a file, as two of either do. */
int registryd_open_embedded_journal(const char *journal, registryd_session *session, char *words, size_t room);

/* Opens `count` seats of one journal in process, 1 to REGISTRYD_SEATS, each a session for one thread, and writes their numbers to `seats`.
 * The journal has room for so many entries, 1 to REGISTRYD_ENTRIES. It begins with that of a file, or with none where `load` is null. No
 * file gets it: registryd_journal hands it out, and registryd_open_seats_journal keeps one. `words` is as in registryd_open_embedded.
 *
 * Calls for different seats wait for nothing of each other. Each line but one that is wrong in every state is answered once its seat has
 * read all entries of the others up to the first place that it finds empty: so what a call accepted is there for each call that begins
 * once that one has returned. A command is entered once, at the place and the revision that its reply tells. Seats are closed one by one,
 * in any order; the journal is gone with the last. */
int registryd_open_seats(const char *load, size_t entries, registryd_session *seats, size_t count, char *words, size_t room);

/* As registryd_open_seats, with a journal that the seats go on with, in a file as registryd_open_embedded_journal has it. A reply can be taken
 * once the file has, for good, all entries up to the place that it tells, whoever made them. A call that finds them there waits for
 * nothing; else it writes all that its seat sees then, and its sync serves all calls that wait meanwhile. What a search taught is written
 * before a reply that counts it can be taken, or at the end. What registryd_journal copies may be ahead of the file. Room is only for as
 * many commands as a session may have, 49,152, and of what searches taught the file has 16,384 lines at most: so a session of any kind
 * goes on with it.
 *
 * Where a write or a sync fails, nothing more is written: each seat answers REGISTRYD_JOURNAL from then on, registryd_error tells why, and
 * of replies only those can be taken that rest on what is in the file for good. The file gets its last line once each seat is saved or
 * closed, and the last one that is closed frees it. */
int registryd_open_seats_journal(const char *journal, size_t entries, registryd_session *seats, size_t count, char *words, size_t room);

/* Copies the journal that a seat has seen to `room`, once it has looked for what others entered, and tells how long it is. It is a text
 * as a file has it. REGISTRYD_MEMORY says that there is no room, or no memory, and then `length` is 0; REGISTRYD_MISUSE also that the session
 * is no seat; REGISTRYD_JOURNAL that an entry stands there that no seat made. */
int registryd_journal(registryd_session seat, char *room, size_t size, size_t *length);

/* Connects to a service, `registry serve`. The address is the path of its socket, or HOST:PORT: a text without a slash that ends in
 * a colon and digits. The service has a journal of its own, which it keeps beyond the session. REGISTRYD_START says that it can't
 * be reached within ten seconds, and errno why: EAGAIN where it has as many clients as may be.
 *
 * Where the connection ends, as it does when the service is begun again, or a program of the service ends, the call that finds that
 * connects again, for ten seconds at most. What has no reply is asked again; of a command it is looked up first, in the journal
 * that the service tells, whether it was carried out since the last reply: then it has the reply of an accepted one. Another
 * client's same command of that time counts as its own. Where that can't be done in time the session answers REGISTRYD_ENDED until it is
 * closed, once the replies that came are taken; of a command without a reply it is not known then whether it was accepted. */
int registryd_connect(const char *where, registryd_session *session);

/* Feeds bytes of request lines, which may begin and end anywhere. It waits while the program is slower; in process, until each
 * line that ends has its reply. */
int registryd_feed(registryd_session session, const void *bytes, size_t length);

/* Waits for the reply to each whole line that was fed, copies reply bytes to `bytes`, at most `room`,
 * and tells how many were copied and how many are left to take. */
int registryd_take(registryd_session session, void *bytes, size_t room, size_t *length, size_t *left);

/* registryd_feed and then registryd_take, with no call of another thread for the session between them. Where the first does not
 * answer REGISTRYD_OK, that is the answer, and nothing is taken. Where it answers REGISTRYD_MEMORY and something is left to take, the lines
 * were fed: their replies come before those of later lines. */
int registryd_ask(registryd_session session, const void *bytes, size_t length, void *room, size_t size, size_t *taken, size_t *left);

/* Ends the input, waits for the last replies, which can then be taken, and for the journal to be whole.
 * REGISTRYD_OK says that all was written; of a service, that each line has its reply. The session takes no further lines. */
int registryd_save(registryd_session session);

/* Tells what is the matter with a session to which a call answered REGISTRYD_ENDED or REGISTRYD_JOURNAL, as
 * registryd_open_embedded does: nothing where nothing is. Of a program's session it says no more than that it ended. */
int registryd_error(registryd_session session, char *words, size_t room);

/* Ends a session. One that was not saved leaves the file to be saved as it was; a journal that it went on with has all that
 * was told as accepted, and, of a session in process, its last line where that can be written, or of the last of its seats. Its replies
 * are dropped.
 *
 * Where another thread waits in a call for the session, of a child or a service that call answers REGISTRYD_ENDED at once, also amid
 * a long search; a search in process has to end by itself first. A service goes on, and may still carry out lines that it was
 * sent. */
int registryd_close(registryd_session session);

/* The version of the library, as REGISTRYD_VERSION is that of this header. */
const char *registryd_version(void);

/* What an answer of these calls means, in English. */
const char *registryd_strerror(int answer);

/* Quotes a text as JSON for a request line: copies it with its quotes and a 0 behind them to `room`, and tells how many bytes it has
 * without the 0. REGISTRYD_MEMORY says that there is no room: `length` tells what it has all the same, and `room` begins with a 0. */
int registryd_quote(const char *text, char *room, size_t size, size_t *length);

/* What a reply line tells. */
enum registryd_kind {
    /* None of the below, as the reply to a list line or a check line. */
    REGISTRYD_OTHER = 0,
    /* A command is accepted. */
    REGISTRYD_ACCEPTED = 1,
    /* A request is answered by a selection: registryd_selected has its packages. */
    REGISTRYD_SELECTED = 2,
    /* No selection meets a request. */
    REGISTRYD_NOTHING = 3,
    /* An error, with its number and name. */
    REGISTRYD_ERROR = 4
};

struct registryd_reply {
    enum registryd_kind kind;
    uint32_t revision;
    /* of an error; else 0 and empty */
    uint32_t error;
    char name[32];
};

/* Where a seat stood when it answered: how many entries it had read, an accepted command's own as the last; and its number, from 1. */
struct registryd_stamp {
    uint32_t place, seat;
};

struct registryd_pair {
    char name[65];
    char version[257];
};

/* Reads one reply line of this library's sessions, with or without its line feed. REGISTRYD_MISUSE says that it is none. */
int registryd_read(const char *line, size_t length, struct registryd_reply *reply);

/* Reads where a seat stood, of its reply line. REGISTRYD_MISUSE says that no seat answered. */
int registryd_stamp(const char *line, size_t length, struct registryd_stamp *stamp);

/* Reads a selected package, counted from 0, of the reply line of a selection. REGISTRYD_ENDED says that it has no more, and
 * REGISTRYD_MISUSE that it is no such line. */
int registryd_selected(const char *line, size_t length, size_t place, struct registryd_pair *pair);

/* A text of a line that a caller has: from the byte `at`, so many bytes, with nothing behind them. */
struct registryd_text {
    size_t at, length;
};

/* Which text of a request line an error is for. */
struct registryd_culprit {
    /* the member, and the item of it, as `version` or `needs[3]`; empty for the name and the version together, and where it is for no text */
    char place[32];
    /* the package that this is about, and what stands there, without the quotes; of no length where it is for no text */
    struct registryd_text package, text;
    /* what was probably meant, where there is telling; else empty */
    char meant[257];
};

/* Tells which text of a request line the error of its reply is for, by the number of the error. For a name, a version or a requirement it
 * asks the session about each such text alone, by a line that searches for nothing, until one is refused as the line was, and then about
 * what was probably meant. So take all replies before, and feed the session in no other thread meanwhile. Names are compared as they are
 * written.
 *
 * REGISTRYD_MISUSE says that the line is no object, or has more than a megabyte; the other answers are those of registryd_ask. It costs
 * a line for each text that is asked about; where a name is repeated, a pass over the pairs for each pair. */
int registryd_culprit(registryd_session session, const char *line, size_t length, uint32_t error, struct registryd_culprit *culprit);

/* What a step of an explanation follows from. */
enum registryd_cause_kind {
    /* An earlier step: `step` is its place. */
    REGISTRYD_STEP = 0,
    /* The request must be met. */
    REGISTRYD_ROOT = 1,
    /* The request needs the package `target` in a version that meets `requirement`: those `within`. */
    REGISTRYD_NEED = 2,
    /* The `versions` of `package` need `target` in a version that meets `requirement`: those `within`. */
    REGISTRYD_PREMISE = 3,
    /* The `versions` of `package` are yanked and not in the lock, or not published. */
    REGISTRYD_DISALLOWED = 4
};

/* A cause; what its kind does not name is empty. The texts of versions are sets, of which registryd_item reads one after another. */
struct registryd_cause {
    enum registryd_cause_kind kind;
    size_t step;
    struct registryd_text package, versions, target, requirement, within;
};

/* A step: it follows from its two causes that its terms, which registryd_term reads, can't all hold. */
struct registryd_step {
    struct registryd_text terms;
    struct registryd_cause causes[2];
    /* by which sentences of later steps cite it, or 0 */
    size_t number;
};

/* A term: the version of a package, or of the request by an empty name, is one of a set, or is none of it. */
struct registryd_term {
    int is_in;
    struct registryd_text package, versions;
};

/* Reads why no selection meets a request, of the reply line to one with `explain`: copies its steps to `steps`, and tells how many there are.
 * Each rests on earlier ones alone, and the last one says that the request can't be met: so they are a tree, whose root is the last one.
 * REGISTRYD_MEMORY says that there is no room for all: `count` tells how many there are all the same. REGISTRYD_MISUSE says that the line
 * tells no such thing. It takes one pass over the line, and no memory of its own. */
int registryd_steps(const char *line, size_t length, struct registryd_step *steps, size_t size, size_t *count);

/* Takes the next term off the terms of a step, or the next version off a set, of the same line: `left` is a copy, and is what is left then.
 * REGISTRYD_ENDED says that there are no more, and REGISTRYD_MISUSE that these are none. */
int registryd_term(const char *line, size_t length, struct registryd_text *left, struct registryd_term *term);
int registryd_item(const char *line, size_t length, struct registryd_text *left, struct registryd_text *item);

/* Tells a step in English, as the reporter of PubGrub does: copies the sentence to `room` as registryd_quote does a text. The steps are
 * those that registryd_steps read of the same line; their sentences in order explain the refusal. One that begins with "And", or is
 * "Thus", follows from the one before it, too. It takes one pass over what the step and those that it cites say. */
int registryd_sentence(const char *line, size_t length, const struct registryd_step *steps, size_t count, size_t place, char *room, size_t size,
                       size_t *written);

#ifdef __cplusplus
}
#endif

#endif
