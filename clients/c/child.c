/* Sessions as child processes. */
#define _GNU_SOURCE
#include "ways.h"

#include <errno.h>
#include <fcntl.h>
#include <inttypes.h>
#include <signal.h>
#include <spawn.h>
#include <stdio.h>
#include <stdlib.h>
#include <string.h>
#include <sys/socket.h>
#include <sys/wait.h>
#include <unistd.h>

extern char **environ;

/* Where the program has its end of the lifeline. */
#define LIFELINE 3

static int feed(struct session *session, const char *bytes, size_t length)
{
    return feed_channel(&session->child.channel, bytes, length);
}

static int take(struct session *session, char *bytes, size_t room, size_t *length, size_t *left)
{
    return take_from_channel(&session->child.channel, bytes, room, length, left);
}

/* ---- how it ends */

/* Waits for the program's end, and answers whether all was well. */
static bool reap(struct child *it)
{
    int status = 0;
    pid_t ended;
    do
        ended = waitpid(it->process, &status, 0);
    while (ended < 0 && errno == EINTR);
    it->was_reaped = true;
    return ended == it->process && WIFEXITED(status) && WEXITSTATUS(status) == 0;
}

static int save(struct session *session)
{
    struct child *it = &session->child;
    int answer = end_channel(&it->channel);
    if (answer)
        return answer;
    if (!it->was_reaped)
        it->was_saved = reap(it);
    return it->was_saved ? REGISTRYD_OK : REGISTRYD_ENDED;
}

static void tell(const struct session *session, struct telling telling)
{
    const struct child *it = &session->child;
    bool has_ended = it->channel.is_broken && !(it->was_reaped && it->was_saved);
    tell_words(telling, has_ended ? "the program has ended: why stands on standard error" : "");
}

/* Closes what this process has open of a session. */
static void forsake(struct session *session)
{
    const struct child *it = &session->child;
    close(it->channel.file);
    if (it->lifeline >= 0)
        close(it->lifeline);
}

/* Has the program killed, whose output then ends. A call that reads it meanwhile touches nothing of this. */
static void cut(struct session *session)
{
    struct child *it = &session->child;
    if (it->lifeline >= 0)
        close(it->lifeline);
    it->lifeline = -1;
}

static void close_session(struct session *session)
{
    struct child *it = &session->child;
    if (!it->was_reaped) {
        kill(it->process, SIGKILL);
        reap(it);
    }
    forsake(session);
    free(it->channel.waiting);
}

static const struct way by_child = {feed, take, save, NULL, tell, close_session, cut, forsake};

/* ---- how it begins */

/* The words of the program's command line. */
struct words {
    char number[16], budget[16];
    char *at[13];
};

static void put_words(struct words *words, const struct wanted *wanted)
{
    const char *files[][2] = {{"--journal", wanted->journal}, {"--load", wanted->load}, {"--save", wanted->save}};
    int count = 4;
    snprintf(words->number, sizeof words->number, "%u", wanted->workers);
    *words->at = (char *)wanted->program;
    words->at[1] = "serve";
    words->at[2] = "--workers";
    words->at[3] = words->number;
    if (wanted->has_budget) {
        snprintf(words->budget, sizeof words->budget, "%" PRIu32, wanted->budget);
        words->at[count++] = "--budget";
        words->at[count++] = words->budget;
    }
    for (size_t i = 0; i < sizeof files / sizeof *files; i++) {
        if (files[i][1]) {
            words->at[count++] = (char *)files[i][0];
            words->at[count++] = (char *)files[i][1];
        }
    }
    words->at[count] = NULL;
}

/* Starts the program with one end of a channel as its standard input and output, and one end of its lifeline. */
static int start(const struct wanted *wanted, int channel, int lifeline, pid_t *process)
{
    struct words words;
    posix_spawn_file_actions_t actions;
    put_words(&words, wanted);
    if (posix_spawn_file_actions_init(&actions))
        return REGISTRYD_MEMORY;
    bool has_failed = posix_spawn_file_actions_adddup2(&actions, channel, STDIN_FILENO)
        || posix_spawn_file_actions_adddup2(&actions, channel, STDOUT_FILENO)
        || posix_spawn_file_actions_adddup2(&actions, lifeline, LIFELINE)
        || posix_spawn(process, wanted->program, &actions, NULL, words.at, environ);
    posix_spawn_file_actions_destroy(&actions);
    return has_failed ? REGISTRYD_START : REGISTRYD_OK;
}

/* Has the system kill the program once the other end of its lifeline is closed, which this process alone has open: so it does not
 * outlive this process, in the midst of a search either. (A parent's end could be told to it too, but that counts the end of the
 * thread that has started it.) */
static void tie(int lifeline, pid_t process)
{
    fcntl(lifeline, F_SETSIG, SIGKILL);
    fcntl(lifeline, F_SETOWN, process);
    fcntl(lifeline, F_SETFL, O_ASYNC);
}

static void close_both(const int ends[2])
{
    for (int i = 0; i < 2; i++)
        if (ends[i] >= 0)
            close(ends[i]);
}

/* Moves both ends beside the standard streams; false where that can't be done, and then they are closed. */
static bool move_both(int ends[2])
{
    ends[0] = beside_streams(ends[0]);
    ends[1] = beside_streams(ends[1]);
    if (ends[0] >= 0 && ends[1] >= 0)
        return true;
    close_both(ends);
    return false;
}

int open_child(struct session *session, const struct wanted *wanted, struct telling telling)
{
    int channel[2], lifeline[2];
    pid_t process = 0;
    (void)telling;
    if (socketpair(AF_UNIX, SOCK_STREAM | SOCK_CLOEXEC, 0, channel) || !move_both(channel))
        return REGISTRYD_MEMORY;
    if (pipe2(lifeline, O_CLOEXEC) || !move_both(lifeline)) {
        close_both(channel);
        return REGISTRYD_MEMORY;
    }
    int answer = start(wanted, channel[1], lifeline[0], &process);
    if (answer) {
        close_both(channel);
        close_both(lifeline);
        return answer;
    }
    tie(lifeline[0], process);
    close(lifeline[0]);
    close(channel[1]);
    session->way = &by_child;
    session->child = (struct child){.process = process, .channel = {.file = channel[0]}, .lifeline = lifeline[1]};
    return REGISTRYD_OK;
}
