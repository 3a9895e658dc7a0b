/* Sessions by number, with a lock each; registryd.h says what each call does. */
#define _GNU_SOURCE
#include "ways.h"

#include <pthread.h>
#include <string.h>

struct place {
    /* apart from the others, so that threads at different ones don't wait for each other's memory */
    _Alignas(128) pthread_mutex_t lock;
    /* for who opens a session, cuts what it waits for, or closes it: held besides the lock, or, to cut, without it */
    pthread_mutex_t ending;
    bool is_open;
    /* how often the place was given to a session: a number of an earlier one finds another count */
    uint64_t count;
    struct session session;
};

static struct {
    /* for who takes a place, and who gives it back */
    pthread_mutex_t lock;
    bool is_taken[REGISTRYD_SESSIONS];
    struct place places[REGISTRYD_SESSIONS];
} table = {.lock = PTHREAD_MUTEX_INITIALIZER};

static pthread_once_t once = PTHREAD_ONCE_INIT;

static void make_locks(void)
{
    for (int i = 0; i < REGISTRYD_SESSIONS; i++) {
        pthread_mutex_init(&table.places[i].lock, NULL);
        pthread_mutex_init(&table.places[i].ending, NULL);
    }
}

/* In a process that was forked, of which this is the only thread: no session is its own, and no lock is held by anyone. */
static void forsake_all(void)
{
    for (int i = 0; i < REGISTRYD_SESSIONS; i++) {
        struct place *place = &table.places[i];
        if (place->is_open)
            place->session.way->forsake(&place->session);
        place->is_open = table.is_taken[i] = false;
    }
    pthread_mutex_init(&table.lock, NULL);
    make_locks();
}

static void begin(void)
{
    make_locks();
    pthread_atfork(NULL, NULL, forsake_all);
}

/* The place of a session, locked, or null. */
static struct place *enter(registryd_session session)
{
    struct place *place = &table.places[session % REGISTRYD_SESSIONS];
    pthread_once(&once, begin);
    pthread_mutex_lock(&place->lock);
    if (place->is_open && place->count == session / REGISTRYD_SESSIONS)
        return place;
    pthread_mutex_unlock(&place->lock);
    return NULL;
}

static int leave(struct place *place, int answer)
{
    pthread_mutex_unlock(&place->lock);
    return answer;
}

/* ---- opening */

/* The number of a place that no session has, which is taken from now on; or REGISTRYD_SESSIONS. */
static size_t take_place(void)
{
    size_t number = 0;
    pthread_once(&once, begin);
    pthread_mutex_lock(&table.lock);
    while (number < REGISTRYD_SESSIONS && table.is_taken[number])
        number++;
    if (number < REGISTRYD_SESSIONS)
        table.is_taken[number] = true;
    pthread_mutex_unlock(&table.lock);
    return number;
}

static void give_back(size_t number)
{
    pthread_mutex_lock(&table.lock);
    table.is_taken[number] = false;
    pthread_mutex_unlock(&table.lock);
}

/* Has a session stand in a place, which is locked; answers its number. */
static registryd_session begun(struct place *place, size_t number)
{
    pthread_mutex_lock(&place->ending);
    place->is_open = true;
    registryd_session session = ++place->count * REGISTRYD_SESSIONS + number;
    pthread_mutex_unlock(&place->ending);
    return session;
}

static int as_many_as_may_be(struct telling telling)
{
    tell_words(telling, "as many sessions are open as may be at once");
    return REGISTRYD_MEMORY;
}

typedef int opening(struct session *it, const struct wanted *wanted, struct telling telling);

/* Opens a session in a free place. */
static int open_by(opening *open, const struct wanted *wanted, registryd_session *session, struct telling telling)
{
    size_t number = take_place();
    if (number == REGISTRYD_SESSIONS)
        return as_many_as_may_be(telling);
    struct place *place = &table.places[number];
    pthread_mutex_lock(&place->lock);
    memset(&place->session, 0, sizeof place->session);
    int answer = open(&place->session, wanted, telling);
    if (!answer)
        *session = begun(place, number);
    pthread_mutex_unlock(&place->lock);
    if (answer)
        give_back(number);
    return answer;
}

static int open_program(const struct wanted *wanted, registryd_session *session)
{
    if (!wanted->program || !session || wanted->workers < 1 || wanted->workers > 64)
        return REGISTRYD_MISUSE;
    return open_by(open_child, wanted, session, (struct telling){.words = NULL});
}

int registryd_open(const char *program, unsigned workers, const char *load, const char *save, registryd_session *session)
{
    return open_program(&(struct wanted){.program = program, .workers = workers, .load = load, .save = save}, session);
}

int registryd_open_journal(const char *program, unsigned workers, const char *journal, registryd_session *session)
{
    if (!journal)
        return REGISTRYD_MISUSE;
    return open_program(&(struct wanted){.program = program, .workers = workers, .journal = journal}, session);
}

int registryd_open_budget(const char *program, unsigned workers, uint32_t budget, const char *journal, const char *load, const char *save,
                          registryd_session *session)
{
    if (journal && (load || save))
        return REGISTRYD_MISUSE;
    return open_program(&(struct wanted){.program = program, .workers = workers, .has_budget = true, .budget = budget, .journal = journal,
                                         .load = load, .save = save}, session);
}

/* Whether bytes that a caller names may be there. */
static bool may_be(const void *bytes, size_t length)
{
    return length <= PTRDIFF_MAX && (bytes || !length);
}

static int open_in_process(const struct wanted *wanted, registryd_session *session, char *words, size_t room)
{
    if (!may_be(words, room))
        return REGISTRYD_MISUSE;
    struct telling telling = {.words = words, .room = room};
    tell_words(telling, "");
    if (!session) {
        tell_words(telling, "an argument is null");
        return REGISTRYD_MISUSE;
    }
    return open_by(open_embedded, wanted, session, telling);
}

int registryd_open_embedded(const char *load, const char *save, registryd_session *session, char *words, size_t room)
{
    return open_in_process(&(struct wanted){.load = load, .save = save}, session, words, room);
}

int registryd_open_embedded_journal(const char *journal, registryd_session *session, char *words, size_t room)
{
    return open_in_process(&(struct wanted){.journal = journal}, journal ? session : NULL, words, room);
}

/* Places that no session has, which are taken from now on: as many as there are, up to so many. */
static size_t take_places(size_t *numbers, size_t count)
{
    size_t taken = 0;
    while (taken < count && (numbers[taken] = take_place()) < REGISTRYD_SESSIONS)
        taken++;
    return taken;
}

/* Has each seat stand in its place. */
static void begin_seats(const struct seat_slot *slots, struct seats_file *file, const size_t *numbers, registryd_session *seats, size_t count)
{
    for (size_t i = 0; i < count; i++) {
        struct place *place = &table.places[numbers[i]];
        pthread_mutex_lock(&place->lock);
        memset(&place->session, 0, sizeof place->session);
        take_seat(&place->session, &slots[i], file);
        seats[i] = begun(place, numbers[i]);
        pthread_mutex_unlock(&place->lock);
    }
}

static int open_all(const struct wanted *wanted, size_t entries, registryd_session *seats, size_t count, char *words, size_t room)
{
    size_t numbers[REGISTRYD_SEATS];
    struct seat_slot slots[REGISTRYD_SEATS] = {{.is_open = false}};
    struct seats_file *file = NULL;
    struct telling telling = {.words = words, .room = room};
    if (!may_be(words, room))
        return REGISTRYD_MISUSE;
    tell_words(telling, "");
    if (!seats || count < 1 || count > REGISTRYD_SEATS || entries < 1 || entries > REGISTRYD_ENTRIES) {
        tell_words(telling, "an argument is none that the call takes");
        return REGISTRYD_MISUSE;
    }
    size_t taken = take_places(numbers, count);
    int answer = taken == count ? open_seats(slots, count, entries, wanted, &file, telling) : as_many_as_may_be(telling);
    if (!answer)
        begin_seats(slots, file, numbers, seats, count);
    while (answer && taken)
        give_back(numbers[--taken]);
    return answer;
}

int registryd_open_seats(const char *load, size_t entries, registryd_session *seats, size_t count, char *words, size_t room)
{
    return open_all(&(struct wanted){.load = load}, entries, seats, count, words, room);
}

int registryd_open_seats_journal(const char *journal, size_t entries, registryd_session *seats, size_t count, char *words, size_t room)
{
    return open_all(&(struct wanted){.journal = journal}, entries, journal ? seats : NULL, count, words, room);
}

int registryd_connect(const char *where, registryd_session *session)
{
    if (!where || !session)
        return REGISTRYD_MISUSE;
    return open_by(open_service, &(struct wanted){.where = where}, session, (struct telling){.words = NULL});
}

/* ---- the calls for a session */

int registryd_feed(registryd_session session, const void *bytes, size_t length)
{
    struct place *place = may_be(bytes, length) ? enter(session) : NULL;
    if (!place)
        return REGISTRYD_MISUSE;
    return leave(place, place->session.way->feed(&place->session, bytes, length));
}

int registryd_take(registryd_session session, void *bytes, size_t room, size_t *length, size_t *left)
{
    struct place *place = may_be(bytes, room) && length && left ? enter(session) : NULL;
    if (!place)
        return REGISTRYD_MISUSE;
    return leave(place, place->session.way->take(&place->session, bytes, room, length, left));
}

int registryd_ask(registryd_session session, const void *bytes, size_t length, void *room, size_t size, size_t *taken, size_t *left)
{
    struct place *place = may_be(bytes, length) && may_be(room, size) && taken && left ? enter(session) : NULL;
    if (!place)
        return REGISTRYD_MISUSE;
    const struct way *way = place->session.way;
    *taken = *left = 0;
    int answer = way->feed(&place->session, bytes, length);
    if (!answer) {
        answer = way->take(&place->session, room, size, taken, left);
        if (answer == REGISTRYD_MEMORY)
            *left = 1;
    }
    return leave(place, answer);
}

int registryd_save(registryd_session session)
{
    struct place *place = enter(session);
    if (!place)
        return REGISTRYD_MISUSE;
    return leave(place, place->session.way->save(&place->session));
}

int registryd_journal(registryd_session session, char *room, size_t size, size_t *length)
{
    struct place *place = may_be(room, size) && length ? enter(session) : NULL;
    if (!place)
        return REGISTRYD_MISUSE;
    const struct way *way = place->session.way;
    return leave(place, way->journal ? way->journal(&place->session, room, size, length) : REGISTRYD_MISUSE);
}

int registryd_error(registryd_session session, char *words, size_t room)
{
    struct place *place = may_be(words, room) ? enter(session) : NULL;
    if (!place)
        return REGISTRYD_MISUSE;
    place->session.way->tell(&place->session, (struct telling){.words = words, .room = room});
    return leave(place, REGISTRYD_OK);
}

/* Breaks off what a call of another thread may be waiting for. */
static void cut(registryd_session session)
{
    struct place *place = &table.places[session % REGISTRYD_SESSIONS];
    pthread_once(&once, begin);
    pthread_mutex_lock(&place->ending);
    if (place->is_open && place->count == session / REGISTRYD_SESSIONS)
        place->session.way->cut(&place->session);
    pthread_mutex_unlock(&place->ending);
}

int registryd_close(registryd_session session)
{
    cut(session);
    struct place *place = enter(session);
    if (!place)
        return REGISTRYD_MISUSE;
    pthread_mutex_lock(&place->ending);
    place->session.way->close(&place->session);
    place->is_open = false;
    pthread_mutex_unlock(&place->ending);
    pthread_mutex_unlock(&place->lock);
    give_back(session % REGISTRYD_SESSIONS);
    return REGISTRYD_OK;
}
