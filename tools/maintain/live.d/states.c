/* What a daemon leaves to the next one (lagd/state.c), cut off at each octet, as by a loss of power, and with a disk that fails at each octet: a
 * state that is not whole counts for nothing, and of the lines behind its end those that are whole are taken. So it is with the copy beyond a
 * reboot. An end at which the kernel makes no process waits for none for long, and touches no copy. Linked with the files of the daemon but for
 * main.c, and with --wrap of open_in and fork.
 *
 * It prints a line for each check that fails, and then 'states: N passed, M failed'; status 1 if one failed. */
#define _GNU_SOURCE
#include <fcntl.h>
#include <net/if.h>
#include <stdio.h>
#include <stdlib.h>
#include <string.h>
#include <unistd.h>

#include "checks.h"
#include "daemon.h"

#define ROOM 4096
/* Of the first link while the state is written, and on which the conversation is then. */
#define INDEX 11
#define CONVERSATION 5

const char *const program = "states";

static struct lagd *lagd;
static char folder[] = "/tmp/lagd-states-XXXXXX";
static int broken; /* a file of which no octet can be read */
static size_t readable = ROOM; /* how many octets of a state can be read */
static bool forks = true; /* whether the kernel makes processes */

FILE *__real_open_in(int in, const char *name, int flags, const char *mode);
FILE *__wrap_open_in(int in, const char *name, int flags, const char *mode);
pid_t __real_fork(void);
pid_t __wrap_fork(void);

bool await_input(int epoll_file UNUSED, int fd UNUSED, uint32_t tag UNUSED) {
    return true;
}

bool await_output(int epoll_file UNUSED, int fd UNUSED, uint32_t tag UNUSED) {
    return true;
}

void await_no_more(int epoll_file UNUSED, int fd UNUSED) {}

/* The disk fails behind the octets that were read at once. */
FILE *__wrap_open_in(int in, const char *name, int flags, const char *mode) {
    static char buffer[ROOM];
    FILE *file = __real_open_in(in, name, flags, mode);
    if (!file || mode[0] != 'r' || readable == ROOM) return file;
    if (readable > 0 && (setvbuf(file, buffer, _IOFBF, readable) != 0 || ungetc(getc(file), file) == EOF)) abort();
    if (dup2(broken, fileno(file)) < 0) abort();
    return file;
}

pid_t __wrap_fork(void) {
    errno = EAGAIN;
    return forks ? __real_fork() : -1;
}

/* A daemon with a port that carries, whose interface goes by the name of one that is there, and a port whose interface is missing. */
static void make_daemon(void) {
    lagd = make_lagd_or_stop();
    lagd->settings = usual_settings();
    strcpy(lagd->settings.name, "states");
    strcpy(lagd->settings.state_dir, folder);
    lagd->settings.config.mac[0] = 2;
    if (add_port(&lagd->settings, "lo", 2) || add_port(&lagd->settings, "gone", 4)) abort();
    lagd->process.folder = open_or_make_status_folder_or_stop(folder);
    lagd->process.printer.output = open("/dev/null", O_WRONLY);
    broken = open("/proc/self/mem", O_RDONLY);
    recall_state_and_leave_other_device(&lagd->state);
    make_ports_and_system_or_stop(&lagd->protocol);
    struct link *link = &lagd->ports.links[0];
    link->index = INDEX;
    link->lacpdu_at = boottime();
    link->view.port_status = NIW_PORT_STATUS_DISTRIBUTING;
    link->view.defaulted = false;
    link->socket = 0;
}

static void write_octets(const char *name, const char *octets, size_t length) {
    int file = openat(lagd->process.folder, name, O_WRONLY | O_CREAT | O_TRUNC, 0600);
    if (write(file, octets, length) != (ssize_t)length) abort();
    close(file);
}

/* Reads a state of which so much is there, or can be read: nothing of it is known, or all up to the last whole line. */
static void check_read(const char *text, size_t length, bool fails) {
    static const struct inherited nothing;
    const char *end = strstr(text, "\nend") + 4, *moved = strstr(end, "on ");
    bool whole = length >= (size_t)(end - text) && !fails, moves = whole && moved && length > (size_t)(strchr(moved, '\n') - text);
    lagd->inherited = nothing;
    recall_state_and_leave_other_device(&lagd->state);
    if (!whole) CHECK(memcmp(&lagd->inherited, &nothing, sizeof nothing) == 0);
    if (!whole) return;
    CHECK(lagd->inherited.port_count == 2 && lagd->inherited.link_count == 1 && lagd->inherited.links[0].carried);
    CHECK(lagd->inherited.links[0].index == (lagd->inherited.ahead == 0 ? INDEX : (int)if_nametoindex("lo")));
    CHECK(lagd->inherited.members[CONVERSATION] == (moves && lagd->inherited.ahead == 0 ? INDEX : 0));
}

static void check_state(const char *name) {
    char text[ROOM + 1] = "";
    int file = openat(lagd->process.folder, name, O_RDONLY);
    size_t length = (size_t)read(file, text, ROOM);
    close(file);
    CHECK(length > 0 && length < ROOM && strstr(text, "\nend\n"));
    for (size_t cut = 0; cut <= length; cut++) {
        write_octets(name, text, cut);
        check_read(text, cut, false);
        readable = cut;
        write_octets(name, text, length);
        check_read(text, length, true);
        readable = ROOM;
    }
    (void)unlinkat(lagd->process.folder, name, 0);
}

/* An end without a process that would remove the copy: that stays, and the end comes soon. */
static void check_end(void) {
    uint64_t began = milliseconds();
    forks = false;
    remove_state(&lagd->state);
    CHECK(milliseconds() - began < 5000 && faccessat(lagd->process.folder, "states.state", F_OK, 0) == 0);
    (void)unlinkat(lagd->process.folder, "states.state", 0);
}

int main(void) {
    char name[64 + NAME_ROOM];
    if (!mkdtemp(folder)) abort();
    make_daemon();
    lagd->process.has_started = true;
    CHECK(save_state(&lagd->state, true));
    write_port_of_conversation(&lagd->state, CONVERSATION, 1);
    snprintf(name, sizeof name, "%lu.states.state", network_namespace());
    check_state(name);
    check_state("states.state");
    CHECK(save_state(&lagd->state, true));
    check_end();
    (void)unlinkat(lagd->process.folder, "states.state.lock", 0);
    (void)rmdir(folder);
    return tell_checks();
}
