/* Seats of one journal in this process. The archive answers one whole line at a time, and keeps the reply; here lines come cut anywhere,
 * and replies wait until they are taken, and until the file, where the journal is kept in one, has what they rest on. */
#define _GNU_SOURCE
#include "ways.h"

#include <pthread.h>
#include <stdio.h>
#include <stdlib.h>
#include <string.h>
#include <unistd.h>

/* ---- what the archive has; its numbers are its own */

enum seat_answer { SEAT_OK = 0, SEAT_MISUSE = 1, SEAT_MEMORY = 2, SEAT_JOURNAL = 3, SEAT_BROKEN = 4, SEAT_FULL = 5 };

/* All seats of a new row with room for so many entries, one in each slot; the second begins with a journal, whose text the first seat has
 * seen then. Where that is at fault, `line` is the first line that is. */
uint32_t registryd_seats_open(struct seat_slot *seats, size_t count, size_t entries);
uint32_t registryd_seats_load(struct seat_slot *seats, size_t count, const uint8_t *journal, size_t length, size_t *line, size_t entries);
/* As registryd_seats_load, with what stands in the file of a journal that is kept, of which so many bytes are `kept`: embedded.c tells how
 * the file is mended. */
uint32_t registryd_seats_recover(struct seat_slot *seats, size_t count, const uint8_t *journal, size_t length, size_t *kept, size_t *line,
                                 size_t entries);
/* Each of these tells how long its text is, and gives it where there is room. A line is answered once, whatever room there is: the reply
 * may be had again. */
uint32_t registryd_seat_ask(struct seat_slot *seat, const uint8_t *line, size_t length, uint8_t *room, size_t most, size_t *size);
uint32_t registryd_seat_reply(struct seat_slot *seat, uint8_t *room, size_t most, size_t *size);
uint32_t registryd_seat_journal(struct seat_slot *seat, uint8_t *room, size_t most, size_t *size);
/* Has a seat look, and gives the lines that the entries behind the first `from` have in a journal's file, and how many entries it has seen
 * then: where there is no room, the length and that alone. An entry may have no line. */
uint32_t registryd_seat_lines(struct seat_slot *seat, size_t from, uint8_t *room, size_t most, size_t *size, size_t *place);
uint32_t registryd_seat_close(struct seat_slot *seat);

static struct fault of_seats(uint32_t answer, size_t line)
{
    static const enum what whats[] = {
        [SEAT_OK] = NOTHING, [SEAT_JOURNAL] = WRONG_LINE, [SEAT_BROKEN] = STRAY, [SEAT_FULL] = TOO_LONG,
        [SEAT_MISUSE] = NO_MEMORY, [SEAT_MEMORY] = NO_MEMORY,
    };
    return (struct fault){.what = whats[answer], .line = line};
}

/* ---- the file */

/* How many commands, and lines of what searches taught, the file of a session may have: with more, none goes on with it. */
#define MOST_COMMANDS 49152
#define MOST_LEARNT 16384

/* What the seats of a journal that is kept share; the last of them frees it. */
struct seats_file {
    /* how many entries the file has for good, and whether nothing more goes there: then `fault` tells why, and stays */
    atomic_size_t safe;
    atomic_bool is_faulty;
    struct fault fault;
    /* for what follows: how many seats are open, how many may enter more, and whether one writes, for whose end others may wait */
    pthread_mutex_t lock;
    pthread_cond_t written;
    size_t open, entering;
    bool is_writing;
    /* for who writes: how many lines of items stand in the file, how many of these were learnt, whether the last line of all does, and
     * room for lines on their way */
    struct journal_file file;
    size_t lines, learnt;
    bool is_ended;
    struct bytes bytes;
};

static bool is_faulty(const struct seat *it)
{
    return it->file && atomic_load(&it->file->is_faulty);
}

/* The end of a line, or null where it has none before that of the text. */
static const char *end_of(const char *line, const char *end)
{
    const char *feed = memchr(line, '\n', (size_t)(end - line));
    return feed ? feed + 1 : NULL;
}

static bool is_learnt(const char *line, const char *end)
{
    static const char first[] = "{\"derivation\":";
    return (size_t)(end - line) >= sizeof first - 1 && !memcmp(line, first, sizeof first - 1);
}

/* Counts the lines on their way to the file, and leaves out what was learnt beyond what it may have: no command needs that. */
static void count_lines(struct seats_file *it)
{
    char *to = it->bytes.at;
    const char *line = to, *end = to + it->bytes.length, *next;
    for (; line < end && (next = end_of(line, end)); line = next) {
        bool is_one = is_learnt(line, next);
        if (is_one && it->learnt == MOST_LEARNT)
            continue;
        it->lines++;
        it->learnt += is_one;
        memmove(to, line, (size_t)(next - line));
        to += next - line;
    }
    it->bytes.length = (size_t)(to - it->bytes.at);
}

/* Has nothing more go to the file. */
static int end_file(struct seats_file *it, struct fault fault)
{
    it->fault = fault;
    atomic_store(&it->is_faulty, true);
    return REGISTRYD_JOURNAL;
}

/* Puts bytes behind the end of the file, which has as many entries then. */
static int put_behind(struct seats_file *it, size_t entries)
{
    if (it->bytes.length)
        count_lines(it);
    struct fault fault = it->bytes.length ? append_to_journal(&it->file, &it->bytes) : (struct fault){.what = NOTHING};
    if (fault.what != NOTHING)
        return end_file(it, fault);
    atomic_store(&it->safe, entries);
    return REGISTRYD_OK;
}

/* Has all that a seat sees now stand in the file. */
static int write_seen(struct seats_file *it, struct seat *by)
{
    size_t size = 0, place = 0;
    for (;;) {
        uint32_t answer = registryd_seat_lines(&by->slot, atomic_load(&it->safe), bytes_at(it->bytes.at), it->bytes.room, &size, &place);
        if (answer == SEAT_MEMORY)
            return REGISTRYD_MEMORY;
        if (answer != SEAT_OK)
            return end_file(it, of_seats(SEAT_BROKEN, 0));
        it->bytes.length = size;
        if (size <= it->bytes.room)
            return put_behind(it, place);
        /* others may enter more before the seat looks again */
        if (!make_room(&it->bytes, 2 * size))
            return REGISTRYD_MEMORY;
    }
}

/* Puts the last line behind all others. */
static int end_journal(struct seats_file *it, struct seat *by)
{
    char line[32];
    int answer = write_seen(it, by);
    if (answer)
        return answer;
    int length = snprintf(line, sizeof line, "end %zu\n", it->lines);
    struct fault fault = append_to_journal(&it->file, &(struct bytes){.at = line, .length = (size_t)length});
    it->is_ended = true;
    return fault.what == NOTHING ? REGISTRYD_OK : end_file(it, fault);
}

/* Has a seat write while no other does. It has the lock before and behind that, and not meanwhile. */
static int write_alone(struct seats_file *it, struct seat *by, int (*work)(struct seats_file *, struct seat *))
{
    if (atomic_load(&it->is_faulty))
        return REGISTRYD_JOURNAL;
    it->is_writing = true;
    pthread_mutex_unlock(&it->lock);
    int answer = work(it, by);
    pthread_mutex_lock(&it->lock);
    it->is_writing = false;
    pthread_cond_broadcast(&it->written);
    return answer;
}

/* Has so many entries be safe. What others wait for meanwhile is written by the first of them that finds it is not. */
static int make_safe(struct seat *it, size_t entries)
{
    struct seats_file *file = it->file;
    if (atomic_load(&file->safe) >= entries)
        return REGISTRYD_OK;
    pthread_mutex_lock(&file->lock);
    while (file->is_writing && atomic_load(&file->safe) < entries)
        pthread_cond_wait(&file->written, &file->lock);
    int answer = atomic_load(&file->safe) < entries ? write_alone(file, it, write_seen) : REGISTRYD_OK;
    pthread_mutex_unlock(&file->lock);
    return answer;
}

/* Has a seat enter nothing more: the last one ends the file. */
static int enter_no_more(struct seat *it)
{
    struct seats_file *file = it->file;
    pthread_mutex_lock(&file->lock);
    file->entering -= !it->enters_no_more;
    it->enters_no_more = true;
    while (file->is_writing && !file->entering)
        pthread_cond_wait(&file->written, &file->lock);
    int answer = atomic_load(&file->is_faulty) ? REGISTRYD_JOURNAL : REGISTRYD_OK;
    if (!answer && !file->entering && !file->is_ended)
        answer = write_alone(file, it, end_journal);
    pthread_mutex_unlock(&file->lock);
    return answer;
}

static void free_file(struct seats_file *it)
{
    close_journal(&it->file);
    free_bytes(&it->bytes);
    pthread_cond_destroy(&it->written);
    pthread_mutex_destroy(&it->lock);
    free(it);
}

static void leave_file(struct seats_file *it)
{
    pthread_mutex_lock(&it->lock);
    bool is_last = --it->open == 0;
    pthread_mutex_unlock(&it->lock);
    if (is_last)
        free_file(it);
}

/* ---- lines and replies */

/* Room for most replies. */
#define ROOM 512

/* Keeps bytes of lines; false where there is no memory, and then nothing is kept. */
static bool keep(struct seat *it, const char *bytes, size_t length)
{
    if (!make_more(&it->lines, length))
        return false;
    while (length) {
        const char *end = memchr(bytes, '\n', length);
        size_t piece = end ? (size_t)(end - bytes) : length, room = MOST_LINE - (it->lines.length - it->whole);
        append(&it->lines, bytes, piece < room ? piece : room);
        if (end) {
            append(&it->lines, "\n", 1);
            it->whole = it->lines.length;
            piece++;
        }
        bytes += piece;
        length -= piece;
    }
    return true;
}

/* Where the next reply goes. */
static uint8_t *behind(const struct bytes *told)
{
    return (uint8_t *)told->at + told->length;
}

/* Has the reply that is owed stand behind the others. */
static int pay(struct seat *it)
{
    size_t size = 0;
    for (;;) {
        size_t room = it->told.room - it->told.length;
        if (registryd_seat_reply(&it->slot, behind(&it->told), room, &size) != SEAT_OK || (size > room && !make_more(&it->told, size)))
            return REGISTRYD_MEMORY;
        if (size <= room)
            break;
    }
    it->told.length += size;
    it->owes = false;
    return REGISTRYD_OK;
}

/* Answers a line, without its line feed. */
static int answer_line(struct seat *it, const char *line, size_t length)
{
    size_t room = it->told.room - it->told.length, size = room + 1;
    uint32_t answer = registryd_seat_ask(&it->slot, (const uint8_t *)line, length, behind(&it->told), room, &size);
    it->owes = answer != SEAT_OK || size > room;
    if (it->owes)
        return pay(it);
    it->told.length += size;
    return REGISTRYD_OK;
}

/* Has all replies that stand there be safe: the last one tells the most entries. */
static int free_replies(struct seat *it)
{
    size_t size = it->told.length - it->safe;
    if (it->file && size) {
        const char *first = it->told.at + it->safe, *before = memrchr(first, '\n', size - 1), *last = before ? before + 1 : first;
        struct registryd_stamp stamp = {.place = UINT32_MAX};
        registryd_stamp(last, (size_t)(first + size - last), &stamp);
        int answer = make_safe(it, stamp.place);
        if (answer)
            return answer;
    }
    it->safe = it->told.length;
    return REGISTRYD_OK;
}

/* Answers the lines that have ended, as far as there is memory for their replies, unless the file is at fault. */
static int answer_lines(struct seat *it)
{
    if (is_faulty(it))
        return REGISTRYD_JOURNAL;
    size_t at = 0;
    int answer = it->owes ? pay(it) : REGISTRYD_OK;
    while (!answer && at < it->whole) {
        const char *line = it->lines.at + at;
        size_t length = (size_t)((const char *)memchr(line, '\n', it->whole - at) - line);
        if (!make_more(&it->told, ROOM)) {
            answer = REGISTRYD_MEMORY;
            break;
        }
        answer = answer_line(it, line, length);
        at += length + 1;
    }
    drop_first(&it->lines, at);
    it->whole -= at;
    int is_safe = free_replies(it);
    return is_safe ? is_safe : answer;
}

/* ---- the calls */

static int feed(struct session *session, const char *bytes, size_t length)
{
    struct seat *it = &session->seat;
    if (it->is_ended)
        return REGISTRYD_MISUSE;
    if (is_faulty(it))
        return REGISTRYD_JOURNAL;
    if (!keep(it, bytes, length))
        return REGISTRYD_MEMORY;
    /* What has no memory for its reply now has another try with the next call. */
    return answer_lines(it) == REGISTRYD_JOURNAL ? REGISTRYD_JOURNAL : REGISTRYD_OK;
}

static int take(struct session *session, char *bytes, size_t room, size_t *length, size_t *left)
{
    struct seat *it = &session->seat;
    int answer = answer_lines(it);
    if (answer == REGISTRYD_MEMORY)
        return answer;
    copy_out(&(struct bytes){.at = it->told.at, .length = it->safe}, &it->taken, bytes, room, length, left);
    if (it->taken == it->told.length)
        it->told.length = it->safe = it->taken = 0;
    return answer;
}

static int save(struct session *session)
{
    struct seat *it = &session->seat;
    if (it->lines.length > it->whole && !keep(it, "\n", 1))
        return REGISTRYD_MEMORY;
    it->is_ended = true;
    int answer = answer_lines(it);
    return answer || !it->file ? answer : enter_no_more(it);
}

static int journal(struct session *session, char *room, size_t size, size_t *length)
{
    uint32_t answer = registryd_seat_journal(&session->seat.slot, bytes_at(room), size, length);
    if (answer == SEAT_OK)
        return *length <= size ? REGISTRYD_OK : REGISTRYD_MEMORY;
    *length = 0;
    return answer == SEAT_MEMORY ? REGISTRYD_MEMORY : REGISTRYD_JOURNAL;
}

/* Where no file is, nothing but memory can be the matter with a seat, and that passes. */
static void tell(const struct session *session, struct telling telling)
{
    const struct seat *it = &session->seat;
    if (is_faulty(it))
        tell_fault(telling, it->file->fault, it->file->file.name);
    else
        tell_words(telling, "");
}

static void close_seat(struct session *session)
{
    struct seat *it = &session->seat;
    if (it->file)
        enter_no_more(it);
    registryd_seat_close(&it->slot);
    free_bytes(&it->lines);
    free_bytes(&it->told);
    if (it->file)
        leave_file(it->file);
}

/* What a call waits for ends by itself. */
static void cut(struct session *session)
{
    (void)session;
}

/* Another thread of the first process may have written: nothing else of the file is touched. */
static void forsake(struct session *session)
{
    struct seats_file *file = session->seat.file;
    if (!file || file->file.file < 0)
        return;
    close(file->file.file);
    file->file.file = -1;
}

static const struct way seated = {feed, take, save, journal, tell, close_seat, cut, forsake};

void take_seat(struct session *session, const struct seat_slot *slot, struct seats_file *file)
{
    session->way = &seated;
    session->seat.slot = *slot;
    session->seat.file = file;
}

/* ---- opening */

/* The seats that are opened, and how many lines of items stand in the file that they keep, and were learnt. */
struct opened {
    struct seat_slot *seats;
    size_t count, entries, lines, learnt;
};

/* With so much room at most no more commands are accepted than the file may have. */
static struct fault recover(void *whom, const struct bytes *text, size_t *kept)
{
    struct opened *it = whom;
    const char *at = text->at, *end = at + text->length, *next;
    size_t lines = 0, line = 0;
    for (; at < end && (next = end_of(at, end)); at = next, lines++)
        it->learnt += is_learnt(at, next);
    size_t most = it->learnt + MOST_COMMANDS, entries = it->entries < most ? it->entries : most;
    uint32_t answer = registryd_seats_recover(it->seats, it->count, bytes_at(text->at), text->length, kept, &line, entries);
    /* what is cut off may be a whole line, that of the end */
    if (answer == SEAT_OK && *kept)
        it->lines = lines - 1 - (*kept < (size_t)(at - text->at));
    return of_seats(answer, line);
}

/* Begins with the journal of a file that the seats go on with. */
static struct fault keep_seats(struct opened *opened, const char *name, struct seats_file **file)
{
    struct seats_file *it = calloc(1, sizeof *it);
    if (!it)
        return of_seats(SEAT_MEMORY, 0);
    struct fault fault = begin_journal(&it->file, name, recover, opened);
    if (fault.what != NOTHING) {
        free(it);
        return fault;
    }
    pthread_mutex_init(&it->lock, NULL);
    pthread_cond_init(&it->written, NULL);
    it->open = it->entering = opened->count;
    it->lines = opened->lines;
    it->learnt = opened->learnt;
    atomic_init(&it->safe, opened->lines);
    *file = it;
    return fault;
}

/* Begins with the journal of a file. */
static struct fault load_seats(const struct opened *opened, const char *name)
{
    size_t line = 0;
    struct bytes text = {.at = NULL};
    struct fault fault = read_journal(name, &text);
    if (fault.what == NOTHING) {
        uint32_t answer = registryd_seats_load(opened->seats, opened->count, bytes_at(text.at), text.length, &line, opened->entries);
        fault = of_seats(answer, line);
    }
    free_bytes(&text);
    return fault;
}

static struct fault begin(struct opened *opened, const struct wanted *wanted, struct seats_file **file)
{
    if (wanted->journal)
        return keep_seats(opened, wanted->journal, file);
    if (wanted->load)
        return load_seats(opened, wanted->load);
    return of_seats(registryd_seats_open(opened->seats, opened->count, opened->entries), 0);
}

int open_seats(struct seat_slot *seats, size_t count, size_t entries, const struct wanted *wanted, struct seats_file **file,
               struct telling telling)
{
    struct opened opened = {.seats = seats, .count = count, .entries = entries};
    struct fault fault = begin(&opened, wanted, file);
    tell_fault(telling, fault, wanted->journal ? wanted->journal : wanted->load);
    if (fault.what == NOTHING)
        return REGISTRYD_OK;
    for (size_t i = 0; i < count; i++)
        registryd_seat_close(&seats[i]);
    return fault.what == NO_MEMORY ? REGISTRYD_MEMORY : REGISTRYD_JOURNAL;
}
