/* Lines on their way to what answers them over a socket, and its replies. */
#ifndef REGISTRYD_CHANNEL_H
#define REGISTRYD_CHANNEL_H

#include <stdbool.h>
#include <stddef.h>
#include <stdint.h>
#include <sys/types.h>

struct channel {
    /* the socket, which stays open as long as the session: so a thread may shut it while another one waits for it */
    int file;
    /* whether the caller has ended the lines, whether no more can be sent or comes, and whether nothing more comes */
    bool is_ended, is_broken, is_over;
    /* why, a number of errno.h, or 0 where the other end was closed */
    int error;
    /* whole lines that were fed, replies that came, and whether a line is begun */
    uint64_t lines, replies;
    bool is_begun;
    /* replies that are not taken: `length` bytes from `taken` on */
    char *waiting;
    size_t taken, length, room;
};

/* What registryd.h says of the calls of these names. */
int feed_channel(struct channel *it, const char *bytes, size_t length);
int take_from_channel(struct channel *it, char *bytes, size_t room, size_t *length, size_t *left);

/* Takes no more lines, and reads what is still answered. */
int end_channel(struct channel *it);

/* What these calls are made of. Sends what is taken at once of some bytes, and answers how many: -1 where no more is, and no SIGPIPE
 * reaches the caller. */
ssize_t send_some(struct channel *it, const char *bytes, size_t length);
/* Reads what was answered, without waiting. */
int receive_channel(struct channel *it);
/* Waits until something was answered, or, if more is to be fed, until it may be. */
void await_channel(const struct channel *it, bool feeds);

/* Whether each line that was fed has its reply, once the channel has ended the last one too where it lacks its line feed. */
bool is_all_answered(const struct channel *it);

#endif
