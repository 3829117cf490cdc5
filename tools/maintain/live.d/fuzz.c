/* Gives octets to the parsers of the daemon, for libFuzzer: the first octet says which one. Linked with the files of the daemon but for
 * main.c, and with --wrap of recvmsg, mnl_socket_sendto and mnl_socket_recvfrom. */
#define _GNU_SOURCE
#include <errno.h>
#include <linux/if_packet.h>
#include <sanitizer/asan_interface.h>
#include <stdio.h>
#include <stdlib.h>
#include <string.h>
#include <sys/mman.h>
#include <sys/socket.h>
#include <sys/un.h>
#include <unistd.h>

#include "daemon.h"
#include "netlink.h"
#include "team/team.h"

/* The daemon. What is wrapped gets none. */
static struct lagd *lagd;

int LLVMFuzzerTestOneInput(const uint8_t *octets, size_t length);
ssize_t __real_recvmsg(int fd, struct msghdr *message, int flags);
ssize_t __wrap_recvmsg(int fd, struct msghdr *message, int flags);
ssize_t __wrap_mnl_socket_sendto(const struct mnl_socket *asked, const void *question, size_t length);
ssize_t __wrap_mnl_socket_recvfrom(const struct mnl_socket *asked, void *part, size_t room);

static char folder[] = "/tmp/lagd-fuzz-XXXXXX"; /* of the status socket */
static int wire[2];                             /* the packet socket of the first port, and its other end */
static const uint8_t *waiting;                  /* what waits there, or is the answer of the kernel; or NULL */
static size_t waiting_length;

bool await_input(int epoll_file, int fd, uint32_t tag) {
    return true;
}

bool await_output(int epoll_file, int fd, uint32_t tag) {
    return await_input(epoll_file, fd, tag);
}

void await_no_more(int epoll_file, int fd) {
}

static size_t least(size_t one, size_t other) {
    return one < other ? one : other;
}

/* A frame with auxiliary data. The first octet says what kind of packet it is, the second one how many octets of auxiliary data follow;
 * the others are the frame. */
ssize_t __wrap_recvmsg(int fd, struct msghdr *message, int flags) {
    struct sockaddr_ll from = {.sll_family = AF_PACKET, .sll_ifindex = lagd->ports.links[0].index};
    size_t more, frame;
    if (fd != wire[0]) return __real_recvmsg(fd, message, flags);
    errno = EAGAIN;
    if (!waiting || waiting_length < 2) return -1;
    from.sll_pkttype = waiting[0];
    more = least(least(waiting[1], waiting_length - 2), message->msg_controllen);
    frame = least(waiting_length - 2 - more, message->msg_iov[0].iov_len);
    memcpy(message->msg_name, &from, sizeof from);
    memcpy(message->msg_control, waiting + 2, more);
    message->msg_controllen = more;
    memcpy(message->msg_iov[0].iov_base, waiting + 2 + more, frame);
    waiting = NULL;
    return (ssize_t)frame;
}

static void remove_folder(void) {
    (void)rmdir(folder);
}

/* A system of two ports, whose links are up, and its status socket. */
static void make_ports(void) {
    lagd = make_lagd_or_stop();
    lagd->settings = usual_settings();
    lagd->settings.policy = PARTNER_FIRST;
    strcpy(lagd->settings.name, "fuzz");
    lagd->settings.config.mac[0] = 2;
    (void)add_port(&lagd->settings, "fuzz0", 5);
    (void)add_port(&lagd->settings, "fuzz1", 5);
    make_ports_and_system_or_stop(&lagd->protocol);
    if (!mkdtemp(folder) || socketpair(AF_UNIX, SOCK_DGRAM | SOCK_NONBLOCK, 0, wire) < 0) abort();
    (void)atexit(remove_folder);
    lagd->process.folder = open_or_make_status_folder_or_stop(folder);
    open_status_or_stop(&lagd->process, folder);
    lagd->process.has_started = true;
    set_link_send_and_tell(&lagd->protocol, &lagd->ports.links[0], true);
    set_link_send_and_tell(&lagd->protocol, &lagd->ports.links[1], true);
}

static void fuzz_file(const uint8_t *octets, size_t length) {
    static struct settings read;
    char path[64];
    int file = memfd_create("fuzz", MFD_CLOEXEC);
    if (file >= 0 && write(file, octets, length) == (ssize_t)length) {
        snprintf(path, sizeof path, "/proc/self/fd/%d", file);
        (void)read_bundle_file(&lagd->process.printer, &lagd->process.words, path, &read);
    }
    close(file);
}

static void fuzz_frame(const uint8_t *octets, size_t length) {
    struct arrival arrival = {octets, length, PACKET_MULTICAST, lagd->ports.links[0].index, false};
    accept_frame(&lagd->protocol, &lagd->ports.links[0], &arrival);
    send_due(&lagd->protocol);
}

static void fuzz_auxiliary(const uint8_t *octets, size_t length) {
    char scrap[NIW_FRAME];
    lagd->ports.links[0].socket = wire[0];
    waiting = octets;
    waiting_length = length;
    receive_frames(&lagd->protocol, 1);
    waiting = NULL;
    lagd->ports.links[0].socket = -1;
    while (recv(wire[1], scrap, sizeof scrap, MSG_DONTWAIT) > 0) continue;
}

static void serve_all(void) {
    accept_callers(&lagd->process.status, lagd->process.epoll_file);
    for (uint32_t caller = 0; caller < MOST_CALLERS; caller++) serve_caller(&lagd->control, caller);
}

/* What somebody sends to the status socket, in two parts: the first octet tells the length of the first one. */
static void fuzz_caller(const uint8_t *octets, size_t length) {
    struct sockaddr_un address = {.sun_family = AF_UNIX};
    char scrap[4096];
    int asker = socket(AF_UNIX, SOCK_STREAM | SOCK_NONBLOCK | SOCK_CLOEXEC, 0);
    size_t first;
    if (length == 0) return;
    first = least(octets[0], length - 1);
    snprintf(address.sun_path, sizeof address.sun_path, "%s/%lu.%s.sock", folder, network_namespace(), lagd->settings.name);
    if (asker < 0 || connect(asker, (struct sockaddr *)&address, sizeof address) < 0) abort();
    if (send(asker, octets + 1, first, MSG_NOSIGNAL) != (ssize_t)first) abort();
    serve_all();
    (void)send(asker, octets + 1 + first, length - 1 - first, MSG_NOSIGNAL);
    serve_all();
    for (int part = 0; part < 4 && recv(asker, scrap, sizeof scrap, 0) > 0; part++) serve_all();
    set_link_send_and_tell(&lagd->protocol, &lagd->ports.links[1], !lagd->ports.links[1].up); /* whoever watches is told */
    close(asker);
    serve_all();
    pass_tick_of_callers(&lagd->process.status, lagd->process.epoll_file);
}

/* What the last daemon left, behind the number of this boot, or that of another boot; and a daemon that goes on from it. */
static void fuzz_state(const uint8_t *octets, size_t length) {
    char name[64 + NAME_ROOM];
    char boot[BOOT_ROOM];
    FILE *file;
    snprintf(name, sizeof name, "%s/%lu.%s.state", folder, network_namespace(), lagd->settings.name);
    if (length % 2 == 1) snprintf(name, sizeof name, "%s/%s.state", folder, lagd->settings.name);
    snprintf(lagd->settings.state_dir, sizeof lagd->settings.state_dir, "%s", folder);
    file = fopen(name, "we");
    if (!file) abort();
    fprintf(file, "lagd 2\nboot %s\n", boot_id(boot));
    (void)fwrite(octets, 1, length, file);
    fclose(file);
    lagd->inherited = (struct inherited){0};
    recall_state_and_leave_other_device(&lagd->state);
    (void)unlink(name);
    lagd->process.resuming = has_carried_links(&lagd->inherited);
    resume_data(&lagd->protocol, resume(&lagd->core, &lagd->protocol, &lagd->ports));
    bring_up_others_and_send(&lagd->protocol);
}

/* The kernel gets no question. */
ssize_t __wrap_mnl_socket_sendto(const struct mnl_socket *asked, const void *question, size_t length) {
    return (ssize_t)length;
}

/* The one part of an answer. What the last one left behind it may not be read. */
ssize_t __wrap_mnl_socket_recvfrom(const struct mnl_socket *asked, void *part, size_t room) {
    size_t length = least(waiting_length, room);
    errno = EAGAIN;
    if (!waiting) return -1;
    ASAN_UNPOISON_MEMORY_REGION(part, room);
    memcpy(part, waiting, length);
    ASAN_POISON_MEMORY_REGION((uint8_t *)part + length, room - length);
    waiting = NULL;
    return (ssize_t)length;
}

/* What the kernel answers to a question: of an interface, of the team driver and of classifiers. */
static void fuzz_answers(const uint8_t *octets, size_t length) {
    struct interface interface;
    static struct team_now now;
    waiting_length = length;
    waiting = octets;
    (void)ask_interface(1, NULL, &interface);
    waiting = octets;
    (void)read_team(lagd->team.family, 1, &now);
    waiting = octets;
    drop_classifier(1);
    waiting = NULL;
}

/* Messages of the kernel, which begin where a number of 32 bits may, and end with their last octet. */
static void fuzz_messages(const uint8_t *octets, size_t length) {
    uint8_t *messages = malloc(length);
    if (!messages) return;
    memcpy(messages, octets, length);
    follow_messages_or_stop(&lagd->protocol, messages, length);
    free(messages);
}

int LLVMFuzzerTestOneInput(const uint8_t *octets, size_t length) {
    static bool made;
    if (!made) {
        if (!freopen("/dev/null", "w", stdout)) return 0;
        make_ports();
    }
    made = true;
    if (length == 0) return 0;
    switch (octets[0] % 7) {
    case 0: fuzz_file(octets + 1, length - 1); break;
    case 1: fuzz_frame(octets + 1, length - 1); break;
    case 2: fuzz_auxiliary(octets + 1, length - 1); break;
    case 3: fuzz_caller(octets + 1, length - 1); break;
    case 4: fuzz_state(octets + 1, length - 1); break;
    case 5: fuzz_messages(octets + 1, length - 1); break;
    default: fuzz_answers(octets + 1, length - 1); break;
    }
    return 0;
}
