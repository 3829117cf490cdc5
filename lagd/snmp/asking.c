/* Asks all daemons of this network namespace for their status, at once. One that does not answer in time has told nothing. */
#define _GNU_SOURCE
#include <errno.h>
#include <poll.h>
#include <stdlib.h>
#include <string.h>
#include <sys/socket.h>
#include <unistd.h>

#include "../sockets.h"
#include "snmp.h"

/* How long all daemons together may take, in milliseconds: less than the second that snmpd waits for a subagent. One that was too slow has
 * less, until it answers. */
#define PATIENCE 700
#define LITTLE_PATIENCE 100
#define QUESTION "json\n"
/* The most octets of an answer, and of all. */
#define MOST_ANSWERED 4194304
#define MOST_OF_ALL 67108864
#define READ_AT_ONCE 65536

static struct daemon {
    const char *path;
    int fd; /* -1: it is not waited for */
    char *text;
    size_t length, room;
    bool whole;
} daemons[MOST_DAEMONS];
static unsigned count;

/* The paths of those that were too slow last time. */
static char slow[MOST_DAEMONS][SOCKET_PATH_ROOM];
static unsigned slow_count;

static bool was_slow(const char *path) {
    for (unsigned i = 0; i < slow_count; i++)
        if (strcmp(slow[i], path) == 0) return true;
    return false;
}

/* Asks a daemon, whose answer is waited for then. */
static void ask(struct daemon *daemon) {
    int fd = socket(AF_UNIX, SOCK_STREAM | SOCK_NONBLOCK | SOCK_CLOEXEC, 0);
    if (fd >= 0 && connect_to(fd, daemon->path) == 0 && send(fd, QUESTION, strlen(QUESTION), MSG_NOSIGNAL) == (ssize_t)strlen(QUESTION))
        daemon->fd = fd;
    else if (fd >= 0)
        close(fd);
}

static void leave(struct daemon *daemon) {
    if (daemon->fd >= 0) close(daemon->fd);
    daemon->fd = -1;
}

static size_t room_of_all_daemons(void) {
    size_t all = 0;
    for (unsigned i = 0; i < count; i++) all += daemons[i].room;
    return all;
}

/* Makes room for more of an answer; answers whether there is some. */
static bool make_room(struct daemon *daemon) {
    char *grown;
    if (daemon->room - daemon->length >= READ_AT_ONCE) return true;
    if (daemon->room + READ_AT_ONCE > MOST_ANSWERED || room_of_all_daemons() + READ_AT_ONCE > MOST_OF_ALL) return false;
    grown = realloc(daemon->text, daemon->room + READ_AT_ONCE);
    if (!grown) return false;
    daemon->text = grown;
    daemon->room += READ_AT_ONCE;
    return true;
}

/* Takes what came of an answer. */
static void take_part_or_complain(struct daemon *daemon) {
    ssize_t got;
    if (!make_room(daemon)) {
        complain("%s: it answers too much", daemon->path);
        leave(daemon);
        return;
    }
    got = recv(daemon->fd, daemon->text + daemon->length, daemon->room - daemon->length, 0);
    if (got < 0 && (errno == EAGAIN || errno == EINTR)) return;
    if (got > 0) daemon->length += (size_t)got;
    daemon->whole = got == 0;
    if (got <= 0) leave(daemon);
}

/* How many are still waited for, and until when. */
static unsigned waiting(struct pollfd waits[static MOST_DAEMONS], uint64_t began, uint64_t *until) {
    unsigned left = 0;
    *until = began + LITTLE_PATIENCE;
    for (unsigned i = 0; i < count; i++) {
        waits[i] = (struct pollfd){daemons[i].fd, POLLIN, 0};
        left += daemons[i].fd >= 0;
        if (daemons[i].fd >= 0 && !was_slow(daemons[i].path)) *until = began + PATIENCE;
    }
    return left;
}

/* Takes the answers, until all are whole or time is over. */
static void take_answers_or_complain(void) {
    static struct pollfd waits[MOST_DAEMONS];
    uint64_t began = milliseconds(), until, time;
    while (waiting(waits, began, &until) > 0 && (time = milliseconds()) < until) {
        if (poll(waits, count, (int)(until - time)) < 0 && errno != EINTR) break;
        for (unsigned i = 0; i < count; i++)
            if (waits[i].revents) take_part_or_complain(&daemons[i]);
    }
}

/* Remembers who was too slow; who was not so before has a line. */
static void note_slow_and_complain(void) {
    unsigned noted = 0;
    static bool were[MOST_DAEMONS];
    for (unsigned i = 0; i < count; i++) were[i] = was_slow(daemons[i].path);
    for (unsigned i = 0; i < count; i++) {
        if (daemons[i].fd < 0) continue;
        if (!were[i]) complain("%s: its daemon does not answer in time", daemons[i].path);
        memcpy(slow[noted++], daemons[i].path, sizeof slow[0]);
    }
    slow_count = noted;
}

/* Asks the daemons whose sockets are in a folder, and in the folders in it, and has each whole answer taken. */
void ask_all_daemons_or_complain(const char *folder, take_answer *take_whole, struct told *told) {
    static struct found found;
    free(found.denied);
    found.denied = NULL;
    found.count = 0;
    find_sockets(&found, folder, true);
    for (count = 0; count < found.count; count++) {
        daemons[count] = (struct daemon){.path = found.sockets[count].path, .fd = -1};
        ask(&daemons[count]);
    }
    take_answers_or_complain();
    note_slow_and_complain();
    for (unsigned i = 0; i < count; i++) {
        leave(&daemons[i]);
        if (daemons[i].whole && daemons[i].length > 0) take_whole(told, daemons[i].path, daemons[i].text, daemons[i].length);
        free(daemons[i].text);
        daemons[i].text = NULL;
    }
}
