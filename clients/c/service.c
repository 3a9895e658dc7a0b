/* Sessions with a service, `registry serve`. Where the connection ends it is made again, and what has no reply is asked again: of a
 * command it is looked up first, in the journal that the service tells, whether it was carried out since the last reply. */
#define _GNU_SOURCE
#include "reach.h"
#include "said_line.h"
#include "ways.h"

#include <errno.h>
#include <fcntl.h>
#include <inttypes.h>
#include <stdio.h>
#include <stdlib.h>
#include <string.h>
#include <sys/socket.h>
#include <unistd.h>

/* How many milliseconds a service may take to be there again, and the pause between two tries. */
#ifndef REGISTRYD_PATIENCE
#define REGISTRYD_PATIENCE 10000
#endif
#define PAUSE 100

/* The reply to this one tells the revision. */
#define GREETING "{\"op\":\"resolve\",\"needs\":[]}\n"
/* The program that keeps the journal refuses this one, once all commands that came before are in the journal. */
#define FENCE "{}\n"

/* ---- the lines that have no reply */

/* The revisions by which lines were carried out, 0 for each that is to be asked. */
static uint64_t *known_of(struct asked *it)
{
    return (uint64_t *)(void *)it->known.at + it->first;
}

/* The first line, with its line feed. */
static struct part first_line(const struct asked *it)
{
    const char *at = it->text.at + it->begin;
    return (struct part){at, (const char *)memchr(at, '\n', it->whole - it->begin) + 1};
}

static void drop_line(struct asked *it)
{
    it->begin += (size_t)(first_line(it).end - first_line(it).at);
    it->first++;
    it->count--;
    if (it->begin > it->text.length / 2) {
        drop_first(&it->text, it->begin);
        drop_first(&it->known, it->first * sizeof(uint64_t));
        it->whole -= it->begin;
        it->begin = it->first = 0;
    }
}

/* Notes bytes of lines, and queues the lines that end among them; false where there is no memory, and then nothing is noted. */
static bool note(struct asked *it, const char *bytes, size_t length)
{
    static const uint64_t unknown = 0;
    size_t lines = 0, begun = it->text.length - it->whole;
    for (size_t i = 0; i < length; i++)
        lines += bytes[i] == '\n';
    if (!make_more(&it->text, length) || !make_more(&it->unsent, begun + length) || !make_more(&it->known, lines * sizeof unknown))
        return false;
    while (length) {
        const char *end = memchr(bytes, '\n', length);
        size_t piece = end ? (size_t)(end - bytes) : length, room = MOST_LINE - begun;
        append(&it->text, bytes, piece < room ? piece : room);
        if (end) {
            append(&it->text, "\n", 1);
            append(&it->unsent, it->text.at + it->whole, it->text.length - it->whole);
            append(&it->known, &unknown, sizeof unknown);
            it->whole = it->text.length;
            it->count++;
            piece++;
        }
        begun = it->text.length - it->whole;
        bytes += piece;
        length -= piece;
    }
    return true;
}

static void note_sent(struct asked *it, size_t length)
{
    it->sent += length;
    if (it->sent == it->unsent.length)
        it->sent = it->unsent.length = 0;
}

/* Walks over the lines that are to be asked. */
struct walk {
    struct part line;
    size_t number;
};

static bool next_open(struct asked *it, struct walk *walk)
{
    while (walk->number < it->count) {
        const char *at = walk->number ? walk->line.end : it->text.at + it->begin;
        walk->line = (struct part){at, (const char *)memchr(at, '\n', (size_t)(it->text.at + it->whole - at)) + 1};
        if (!known_of(it)[walk->number++])
            return true;
    }
    return false;
}

static bool has_commands(struct asked *it)
{
    for (struct walk walk = {.number = 0}; next_open(it, &walk);)
        if (!changes_nothing(walk.line))
            return true;
    return false;
}

/* ---- replies */

static bool tell_reply(struct service *it, const char *reply, size_t length)
{
    if (it->taken > it->told.length / 2) {
        drop_first(&it->told, it->taken);
        it->taken = 0;
    }
    if (!make_more(&it->told, length))
        return false;
    append(&it->told, reply, length);
    return true;
}

/* Notes a revision that was told. One that was looked up may lie before those of lines that were asked again. */
static void note_revision(struct service *it, uint64_t revision)
{
    if (revision > it->revision)
        it->revision = revision;
}

/* Answers the first lines as long as they are known to have been carried out. */
static bool tell_known(struct service *it)
{
    while (it->asked.count && *known_of(&it->asked)) {
        char reply[64];
        int length = snprintf(reply, sizeof reply, "{\"ok\":true,\"revision\":%" PRIu64 "}\n", *known_of(&it->asked));
        if (!tell_reply(it, reply, (size_t)length))
            return false;
        note_revision(it, *known_of(&it->asked));
        drop_line(&it->asked);
    }
    return true;
}

/* Takes the replies that came, up to one of the service's own: from there on all is asked again. False where there is no memory. */
static bool sort_replies(struct service *it)
{
    struct channel *from = &it->channel;
    const char *at, *end;
    bool has_memory = tell_known(it);
    while (has_memory && from->length && (end = memchr(at = from->waiting + from->taken, '\n', from->length))) {
        size_t length = (size_t)(end + 1 - at);
        if (!it->asked.count || is_unavailable(at, length)) {
            from->is_broken = true;
            from->length = 0;
            break;
        }
        has_memory = tell_reply(it, at, length);
        if (has_memory) {
            note_revision(it, revision_of(at, length));
            it->is_answered = true;
            from->taken += length;
            from->length -= length;
            drop_line(&it->asked);
            has_memory = tell_known(it);
        }
    }
    return has_memory;
}

/* ---- connecting again */

/* Notes which commands were carried out: after what was told last, and in their order. False where there is no memory. */
static bool settle(struct service *it, struct journal *journal)
{
    struct bytes line = {.at = NULL};
    bool has_memory = true;
    skip_commands(journal, it->revision);
    for (struct walk walk = {.number = 0}; has_memory && next_open(&it->asked, &walk);) {
        has_memory = put_journal_line(walk.line, &line);
        if (has_memory && line.length)
            known_of(&it->asked)[walk.number - 1] = find_command(journal, &line);
    }
    free_bytes(&line);
    return has_memory;
}

/* Reads the journal, and settles by it; false where that could not be done now. */
static bool look_up(struct service *it, const struct patience *patience)
{
    struct journal journal = {.begin = 0};
    bool is_read = ask_journal(it->where, patience, &journal) && settle(it, &journal);
    free_bytes(&journal.text);
    return is_read;
}

/* Goes on by another connection, under the number of the one before: so a thread may shut it at any time. */
static bool go_on_by(struct service *it, int file)
{
    struct channel *channel = &it->channel;
    it->asked.unsent.length = it->asked.sent = 0;
    for (struct walk walk = {.number = 0}; next_open(&it->asked, &walk);) {
        if (!make_more(&it->asked.unsent, (size_t)(walk.line.end - walk.line.at)))
            return false;
        append(&it->asked.unsent, walk.line.at, (size_t)(walk.line.end - walk.line.at));
    }
    if (dup3(file, channel->file, O_CLOEXEC) < 0)
        return false;
    if (atomic_load(&it->is_cut))
        shutdown(channel->file, SHUT_RDWR);
    *channel = (struct channel){.file = channel->file, .waiting = channel->waiting, .room = channel->room};
    return true;
}

/* Connects again, and asks again what is not known; false where that was not possible in time, or can't be done. Nothing is looked up
 * while a command may still be under way. */
static bool renew(struct service *it)
{
    bool is_open = has_commands(&it->asked), is_done = false;
    if (it->is_answered)
        it->patience = patience_of(REGISTRYD_PATIENCE, &it->is_cut);
    it->is_answered = false;
    if (!has_ended(it->channel.file, &it->patience) && is_open)
        return false;
    while (!is_done && !is_over(&it->patience)) {
        uint64_t revision;
        rest(PAUSE, &it->patience);
        int file = reach(it->where, &it->patience);
        if (file < 0)
            continue;
        is_done = ask_revision(file, is_open ? FENCE : GREETING, &it->patience, &revision) && (!is_open || look_up(it, &it->patience)) && go_on_by(it, file);
        close(file);
    }
    return is_done;
}

/* ---- the calls */

/* Sends what is not sent, and reads what is answered: until all is sent or, where it waits for replies, until each line has its own. */
static int go_on(struct service *it, bool waits)
{
    struct channel *channel = &it->channel;
    while (!it->is_lost) {
        if (!sort_replies(it))
            return REGISTRYD_MEMORY;
        size_t unsent = it->asked.unsent.length - it->asked.sent;
        if (!(waits ? it->asked.count : unsent))
            return REGISTRYD_OK;
        if (channel->is_broken) {
            it->error = channel->error;
            it->is_lost = !renew(it);
            continue;
        }
        ssize_t sent = unsent ? send_some(channel, it->asked.unsent.at + it->asked.sent, unsent) : 0;
        if (sent > 0)
            note_sent(&it->asked, (size_t)sent);
        if (sent)
            continue;
        await_channel(channel, unsent);
        if (receive_channel(channel))
            return REGISTRYD_MEMORY;
    }
    return REGISTRYD_ENDED;
}

static int feed(struct session *session, const char *bytes, size_t length)
{
    struct service *it = &session->service;
    if (it->is_ended || it->is_lost)
        return it->is_lost ? REGISTRYD_ENDED : REGISTRYD_MISUSE;
    if (!note(&it->asked, bytes, length))
        return REGISTRYD_MEMORY;
    /* what could not be sent now for lack of memory is sent with the next call */
    int answer = go_on(it, false);
    return answer == REGISTRYD_MEMORY ? REGISTRYD_OK : answer;
}

static int take(struct session *session, char *bytes, size_t room, size_t *length, size_t *left)
{
    struct service *it = &session->service;
    int answer = go_on(it, true);
    if (answer == REGISTRYD_MEMORY)
        return answer;
    copy_out(&it->told, &it->taken, bytes, room, length, left);
    return answer;
}

/* What was told as accepted stands in the service's journal: so there is nothing to be written here. */
static int save(struct session *session)
{
    struct service *it = &session->service;
    if (!it->is_lost && !it->is_ended) {
        if (it->asked.text.length > it->asked.whole && !note(&it->asked, "\n", 1))
            return REGISTRYD_MEMORY;
        it->is_ended = true;
    }
    return go_on(it, true);
}

static void tell(const struct session *session, struct telling telling)
{
    const struct service *it = &session->service;
    if (it->is_lost)
        tell_broken(telling, it->where, it->error);
    else
        tell_words(telling, "");
}

/* Its end is told to a call that waits meanwhile. */
static void cut(struct session *session)
{
    atomic_store(&session->service.is_cut, true);
    shutdown(session->service.channel.file, SHUT_RDWR);
}

/* The connection is the first process's: it is not shut. */
static void forsake(struct session *session)
{
    close(session->service.channel.file);
}

static void close_session(struct session *session)
{
    struct service *it = &session->service;
    forsake(session);
    free(it->channel.waiting);
    free_bytes(&it->asked.text);
    free_bytes(&it->asked.unsent);
    free_bytes(&it->asked.known);
    free_bytes(&it->told);
    free(it->where);
}

static const struct way by_service = {feed, take, save, NULL, tell, close_session, cut, forsake};

int open_service(struct session *session, const struct wanted *wanted, struct telling telling)
{
    struct patience patience = patience_of(REGISTRYD_PATIENCE, NULL);
    uint64_t revision;
    (void)telling;
    int file = reach(wanted->where, &patience);
    char *where = file < 0 ? NULL : copy_of(wanted->where, strlen(wanted->where));
    if (file >= 0 && !where)
        errno = ENOMEM;
    if (!where || !ask_revision(file, GREETING, &patience, &revision)) {
        int error = errno;
        free(where);
        if (file >= 0)
            close(file);
        errno = error;
        return error == ENOMEM ? REGISTRYD_MEMORY : REGISTRYD_START;
    }
    session->way = &by_service;
    session->service = (struct service){.channel = {.file = file}, .where = where, .revision = revision, .is_answered = true};
    return REGISTRYD_OK;
}
