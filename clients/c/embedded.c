/* Sessions in this process: what the archive `embedded` is asked, and what is done at the journal's file meanwhile. */
#define _GNU_SOURCE
#include "ways.h"

#include <stdlib.h>
#include <unistd.h>

/* ---- what the archive has; its numbers are its own */

enum slot_answer { SLOT_OK = 0, SLOT_MISUSE = 1, SLOT_MEMORY = 2, SLOT_JOURNAL = 3 };

uint32_t registryd_slot_open(struct slot *slot);
/* A whole journal. Where its text is at fault, `line` is the first line that is. */
uint32_t registryd_slot_load(struct slot *slot, const uint8_t *journal, size_t length, size_t *line);
/* What stands in the file of a journal that is kept as the session goes: how many of its bytes stay. What is behind them is cut off, and
 * the first line of the second format is written over their first 19, or where none stay at the front: then the file has the lines of
 * the session's items, and may be gone on with once that outlasts a crash. */
uint32_t registryd_slot_recover(struct slot *slot, const uint8_t *journal, size_t length, size_t *kept, size_t *line);
uint32_t registryd_slot_feed(struct slot *slot, const uint8_t *bytes, size_t length);
/* How many reply bytes may be taken: none while one of them rests on a command that is not said to be safe. */
size_t registryd_slot_waiting(struct slot *slot);
size_t registryd_slot_take(struct slot *slot, uint8_t *room, size_t length);
/* Of what was accepted and is not said to be safe: how many items these are, their lines, and that what was given is safe now. */
size_t registryd_slot_unsaved(struct slot *slot);
uint32_t registryd_slot_append(struct slot *slot, uint8_t *room, size_t length, size_t *size);
uint32_t registryd_slot_appended(struct slot *slot);
/* The last line of the journal's file, and the whole of it: each tells its length, and gives it where there is room. */
uint32_t registryd_slot_end(struct slot *slot, uint8_t *room, size_t length, size_t *size);
uint32_t registryd_slot_journal(struct slot *slot, uint8_t *room, size_t length, size_t *size);
uint32_t registryd_slot_close(struct slot *slot);

/* ---- */

/* What a call answers to a session that was ended by a fault, or that goes on. */
static int answer_to(const struct fault *fault)
{
    if (fault->what == NOTHING)
        return REGISTRYD_OK;
    return fault->what == NO_MEMORY ? REGISTRYD_ENDED : REGISTRYD_JOURNAL;
}

static int end_by(struct embedded *it, struct fault fault)
{
    it->fault = fault;
    return answer_to(&it->fault);
}

static const struct fault fine = {.what = NOTHING}, no_memory = {.what = NO_MEMORY};

/* ---- what goes to the file */

/* Has a part of the journal, which the archive gives by one of its calls, stand in `bytes`. Each call tells how long the part is,
 * and gives it where there is room. */
static bool copy_part(struct embedded *it, uint32_t (*part)(struct slot *, uint8_t *, size_t, size_t *))
{
    size_t size = 0;
    if (part(&it->slot, bytes_at(it->bytes.at), it->bytes.room, &size) != SLOT_OK)
        return false;
    if (size > it->bytes.room
        && (!make_room(&it->bytes, size) || part(&it->slot, bytes_at(it->bytes.at), it->bytes.room, &size) != SLOT_OK))
        return false;
    it->bytes.length = size;
    return size <= it->bytes.room;
}

/* Has all that was accepted stand in the file. */
static int save_accepted(struct embedded *it)
{
    if (registryd_slot_unsaved(&it->slot) == 0)
        return REGISTRYD_OK;
    if (!copy_part(it, registryd_slot_append))
        return end_by(it, no_memory);
    /* An item may have no line. */
    struct fault fault = it->bytes.length ? append_to_journal(&it->kept, &it->bytes) : fine;
    if (fault.what == NOTHING)
        registryd_slot_appended(&it->slot);
    return end_by(it, fault);
}

/* Puts the last line behind a journal's file. */
static int end_kept(struct embedded *it)
{
    int answer = save_accepted(it);
    if (answer)
        return answer;
    if (!copy_part(it, registryd_slot_end))
        return end_by(it, no_memory);
    return end_by(it, append_to_journal(&it->kept, &it->bytes));
}

/* Writes the whole journal to the file that is to be saved. */
static int write_whole(struct embedded *it)
{
    if (!copy_part(it, registryd_slot_journal))
        return end_by(it, no_memory);
    return end_by(it, write_saved(&it->saved, &it->bytes));
}

/* ---- the calls */

static int answer_lines(struct embedded *it, const char *bytes, size_t length)
{
    if (registryd_slot_feed(&it->slot, bytes_at(bytes), length) != SLOT_OK)
        return end_by(it, no_memory);
    if (length)
        it->is_begun = bytes[length - 1] != '\n';
    /* A reply that rests on what is not in the file yet holds all of them back. */
    return it->is_kept && registryd_slot_waiting(&it->slot) == 0 ? save_accepted(it) : REGISTRYD_OK;
}

static int feed(struct session *session, const char *bytes, size_t length)
{
    struct embedded *it = &session->embedded;
    if (it->is_ended)
        return REGISTRYD_MISUSE;
    return it->fault.what == NOTHING ? answer_lines(it, bytes, length) : answer_to(&it->fault);
}

static int take(struct session *session, char *bytes, size_t room, size_t *length, size_t *left)
{
    struct embedded *it = &session->embedded;
    *length = registryd_slot_take(&it->slot, bytes_at(bytes), room);
    *left = registryd_slot_waiting(&it->slot);
    return answer_to(&it->fault);
}

static int save(struct session *session)
{
    struct embedded *it = &session->embedded;
    if (it->is_ended || it->fault.what != NOTHING)
        return answer_to(&it->fault);
    int answer = it->is_begun ? answer_lines(it, "\n", 1) : REGISTRYD_OK;
    it->is_ended = true;
    if (!answer && it->is_kept)
        answer = end_kept(it);
    if (!answer && it->is_saved)
        answer = write_whole(it);
    return answer;
}

static void tell(const struct session *session, struct telling telling)
{
    const struct embedded *it = &session->embedded;
    tell_fault(telling, it->fault, it->is_kept ? it->kept.name : it->saved.name);
}

static void close_files(struct embedded *it)
{
    if (it->is_kept)
        close_journal(&it->kept);
    if (it->is_saved)
        close_saved(&it->saved);
    free_bytes(&it->bytes);
}

static void close_session(struct session *session)
{
    struct embedded *it = &session->embedded;
    if (it->is_kept && !it->is_ended && it->fault.what == NOTHING)
        end_kept(it);
    registryd_slot_close(&it->slot);
    close_files(it);
}

static void forsake(struct session *session)
{
    const struct embedded *it = &session->embedded;
    if (it->is_kept && it->kept.file >= 0)
        close(it->kept.file);
    if (it->is_saved && it->saved.file >= 0)
        close(it->saved.file);
}

/* What runs in this process is waited for. */
static void cut(struct session *session)
{
    (void)session;
}

static const struct way in_process = {feed, take, save, NULL, tell, close_session, cut, forsake};

/* ---- opening */

static struct fault of_slot(uint32_t answer, size_t line)
{
    if (answer == SLOT_OK)
        return fine;
    return answer == SLOT_JOURNAL ? (struct fault){.what = WRONG_LINE, .line = line} : no_memory;
}

static struct fault recover(void *slot, const struct bytes *text, size_t *kept)
{
    size_t line = 0;
    uint32_t answer = registryd_slot_recover(slot, bytes_at(text->at), text->length, kept, &line);
    return of_slot(answer, line);
}

/* Begins with the journal of a file that the session goes on with. */
static struct fault begin_kept(struct embedded *it, const char *name)
{
    struct fault fault = begin_journal(&it->kept, name, recover, &it->slot);
    it->is_kept = fault.what == NOTHING;
    return fault;
}

/* Begins with the journal of a file. */
static struct fault begin_loaded(struct embedded *it, const char *name)
{
    size_t line = 0;
    struct bytes text = {.at = NULL};
    struct fault fault = read_journal(name, &text);
    if (fault.what == NOTHING) {
        uint32_t answer = registryd_slot_load(&it->slot, bytes_at(text.at), text.length, &line);
        fault = of_slot(answer, line);
    }
    free_bytes(&text);
    return fault;
}

static struct fault begin(struct embedded *it, const struct wanted *wanted)
{
    if (wanted->journal)
        return begin_kept(it, wanted->journal);
    return wanted->load ? begin_loaded(it, wanted->load) : of_slot(registryd_slot_open(&it->slot), 0);
}

/* Holds the file to which the journal is saved at the end. */
static struct fault begin_saving(struct embedded *it, const char *name)
{
    struct fault fault = hold_saved(&it->saved, name);
    it->is_saved = fault.what == NOTHING;
    return fault;
}

int open_embedded(struct session *session, const struct wanted *wanted, struct telling telling)
{
    struct embedded *it = &session->embedded;
    const char *named = wanted->journal ? wanted->journal : wanted->load;
    session->way = &in_process;
    struct fault fault = begin(it, wanted);
    if (fault.what == NOTHING && wanted->save) {
        named = wanted->save;
        fault = begin_saving(it, named);
    }
    tell_fault(telling, fault, named);
    if (fault.what == NOTHING)
        return REGISTRYD_OK;
    registryd_slot_close(&it->slot);
    close_files(it);
    return fault.what == NO_MEMORY ? REGISTRYD_MEMORY : REGISTRYD_JOURNAL;
}
