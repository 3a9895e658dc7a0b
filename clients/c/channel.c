#define _GNU_SOURCE
#include "channel.h"
#include "registryd.h"

#include <errno.h>
#include <poll.h>
#include <stdlib.h>
#include <string.h>
#include <sys/socket.h>
#include <sys/types.h>

/* How many bytes are sent, or read, at once. */
#define PIECE 65536

/* Makes room for one piece more behind what waits. */
static bool make_piece(struct channel *it)
{
    if (it->taken) {
        memmove(it->waiting, it->waiting + it->taken, it->length);
        it->taken = 0;
    }
    if (it->room - it->length >= PIECE)
        return true;
    size_t room = it->room ? it->room * 2 : 4 * PIECE;
    char *grown = room > it->room ? realloc(it->waiting, room) : NULL;
    if (!grown)
        return false;
    it->waiting = grown;
    it->room = room;
    return true;
}

/* Whether the system is to be asked again. */
static bool is_passing(int error)
{
    return error == EAGAIN || error == EINTR;
}

int receive_channel(struct channel *it)
{
    if (!make_piece(it))
        return REGISTRYD_MEMORY;
    char *end = it->waiting + it->length;
    ssize_t got = recv(it->file, end, PIECE, MSG_DONTWAIT);
    if (got < 0 && is_passing(errno))
        return REGISTRYD_OK;
    if (got <= 0) {
        if (got < 0)
            it->error = errno;
        it->is_broken = it->is_over = true;
        return REGISTRYD_OK;
    }
    for (ssize_t i = 0; i < got; i++)
        it->replies += end[i] == '\n';
    it->length += (size_t)got;
    return REGISTRYD_OK;
}

void await_channel(const struct channel *it, bool feeds)
{
    struct pollfd both = {.fd = it->file, .events = (short)(feeds ? POLLIN | POLLOUT : POLLIN)};
    while (poll(&both, 1, -1) < 0 && errno == EINTR)
        ;
}

/* Notes the lines that end within bytes that were sent. */
static void note_lines(struct channel *it, const char *bytes, size_t length)
{
    for (size_t i = 0; i < length; i++)
        it->lines += bytes[i] == '\n';
    if (length)
        it->is_begun = bytes[length - 1] != '\n';
}

ssize_t send_some(struct channel *it, const char *bytes, size_t length)
{
    ssize_t sent = send(it->file, bytes, length < PIECE ? length : PIECE, MSG_DONTWAIT | MSG_NOSIGNAL);
    if (sent < 0 && is_passing(errno))
        return 0;
    if (sent < 0) {
        it->is_broken = true;
        it->error = errno;
    } else {
        note_lines(it, bytes, (size_t)sent);
    }
    return sent;
}

/* Ends a channel that has sent a part of what it was fed, and has no memory for what is answered: so nothing can go on behind that part. */
static int break_off(struct channel *it)
{
    shutdown(it->file, SHUT_RDWR);
    it->is_broken = it->is_over = true;
    it->error = ENOMEM;
    return REGISTRYD_ENDED;
}

int feed_channel(struct channel *it, const char *bytes, size_t length)
{
    const char *begin = bytes;
    if (it->is_ended)
        return REGISTRYD_MISUSE;
    while (length) {
        ssize_t sent = it->is_broken ? -1 : send_some(it, bytes, length);
        if (sent < 0)
            return REGISTRYD_ENDED;
        bytes += sent;
        length -= (size_t)sent;
        if (sent == 0) {
            /* What was answered is read meanwhile, so that neither waits for the other. */
            await_channel(it, true);
            int answer = receive_channel(it);
            if (answer)
                return bytes == begin ? answer : break_off(it);
        }
    }
    return REGISTRYD_OK;
}

/* Reads until so many replies came, or to the end. */
static int read_replies(struct channel *it, bool to_end)
{
    while (!it->is_over && (to_end || it->replies < it->lines)) {
        await_channel(it, false);
        int answer = receive_channel(it);
        if (answer)
            return answer;
    }
    return REGISTRYD_OK;
}

/* Copies what waits, as far as there is room, and tells how much. */
static void hand_out(struct channel *it, char *bytes, size_t room, size_t *length, size_t *left)
{
    *length = room < it->length ? room : it->length;
    if (*length)
        memcpy(bytes, it->waiting + it->taken, *length);
    it->taken += *length;
    it->length -= *length;
    *left = it->length;
}

bool is_all_answered(const struct channel *it)
{
    return it->replies >= it->lines + (it->is_ended && it->is_begun);
}

int take_from_channel(struct channel *it, char *bytes, size_t room, size_t *length, size_t *left)
{
    int answer = read_replies(it, it->is_ended);
    if (answer)
        return answer;
    hand_out(it, bytes, room, length, left);
    return is_all_answered(it) ? REGISTRYD_OK : REGISTRYD_ENDED;
}

int end_channel(struct channel *it)
{
    if (!it->is_ended)
        shutdown(it->file, SHUT_WR);
    it->is_ended = true;
    return read_replies(it, true);
}
