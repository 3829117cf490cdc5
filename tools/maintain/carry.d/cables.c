/* Cables with a delay, between pairs of interfaces of this network namespace.
 *
 *     cables SOCKET NEAR:FAR:MICROSECONDS..
 *
 * A datagram to SOCKET is a command: cut N, join N, silence N, hear N, mute N, dumb N or speak N. A cable that is cut takes both
 * interfaces down and loses what is on it, one that is silent loses all frames, one that is mute loses the markers and their
 * responses, and one that is dumb those of odd queues. */
#define _GNU_SOURCE
#include <linux/if_packet.h>
#include <net/ethernet.h>
#include <net/if.h>
#include <netinet/in.h>
#include <poll.h>
#include <stdbool.h>
#include <stdint.h>
#include <stdio.h>
#include <stdlib.h>
#include <string.h>
#include <sys/ioctl.h>
#include <sys/prctl.h>
#include <sys/socket.h>
#include <sys/un.h>
#include <time.h>
#include <unistd.h>

#define MOST_CABLES 16
#define BATCH 64
#define SECOND 1000000000u
/* Frames that a way of a cable has room for, and the octets of one. */
#define RING 8192u
#define LONGEST 1600
#define SOCKET_ROOM (16 << 20)
#define SLOW_PROTOCOLS 0x8809
#define MARKER 2

/* One way of a cable. */
struct way {
    int in, out;
    unsigned head, tail;
    uint64_t due[RING];
    unsigned lengths[RING];
    uint8_t (*frames)[LONGEST];
};

static struct cable {
    char near[IFNAMSIZ], far[IFNAMSIZ];
    uint64_t delay; /* in nanoseconds */
    bool silent, mute, dumb, cut;
    struct way ways[2];
} cables[MOST_CABLES];
static int count;

static uint64_t now(void) {
    struct timespec time;
    clock_gettime(CLOCK_MONOTONIC, &time);
    return (uint64_t)time.tv_sec * SECOND + (uint64_t)time.tv_nsec;
}

static int open_packet(const char *name) {
    int fd = socket(AF_PACKET, SOCK_RAW | SOCK_NONBLOCK, 0);
    struct sockaddr_ll address = {.sll_family = AF_PACKET, .sll_protocol = htons(ETH_P_ALL), .sll_ifindex = (int)if_nametoindex(name)};
    struct packet_mreq all = {address.sll_ifindex, PACKET_MR_PROMISC, 0, {0}};
    (void)setsockopt(fd, SOL_SOCKET, SO_RCVBUFFORCE, &(int){SOCKET_ROOM}, sizeof(int));
    (void)setsockopt(fd, SOL_SOCKET, SO_SNDBUFFORCE, &(int){SOCKET_ROOM}, sizeof(int));
    (void)setsockopt(fd, SOL_PACKET, PACKET_IGNORE_OUTGOING, &(int){1}, sizeof(int));
    if (bind(fd, (struct sockaddr *)&address, sizeof address) == 0
        && setsockopt(fd, SOL_PACKET, PACKET_ADD_MEMBERSHIP, &all, sizeof all) == 0)
        return fd;
    perror(name);
    exit(1);
}

static void set_up(const char *name, bool up) {
    struct ifreq request = {0};
    int fd = socket(AF_INET, SOCK_DGRAM, 0);
    memcpy(request.ifr_name, name, strlen(name));
    (void)ioctl(fd, SIOCGIFFLAGS, &request);
    request.ifr_flags = (short)(up ? request.ifr_flags | IFF_UP : request.ifr_flags & ~IFF_UP);
    if (ioctl(fd, SIOCSIFFLAGS, &request) < 0) perror(name);
    close(fd);
}

/* Loses what is on a cable, and waits at its ends. */
static void lose_all(struct cable *cable) {
    uint8_t scrap[LONGEST];
    for (int i = 0; i < 2; i++) {
        while (recv(cable->ways[i].in, scrap, sizeof scrap, MSG_DONTWAIT) > 0) continue;
        cable->ways[i].head = cable->ways[i].tail;
    }
}

static void set_cut(struct cable *cable, bool cut) {
    cable->cut = cut;
    lose_all(cable);
    set_up(cable->near, !cut);
    set_up(cable->far, !cut);
    lose_all(cable);
}

static void obey(const char *text) {
    char what[16];
    int number;
    struct cable *cable;
    if (sscanf(text, "%15s %d", what, &number) != 2 || number < 0 || number >= count) {
        fprintf(stderr, "cables: not a command: %s\n", text);
        return;
    }
    cable = &cables[number];
    if (strcmp(what, "cut") == 0 || strcmp(what, "join") == 0) set_cut(cable, what[0] == 'c');
    if (strcmp(what, "silence") == 0 || strcmp(what, "hear") == 0) cable->silent = what[0] == 's';
    if (strcmp(what, "mute") == 0 || strcmp(what, "speak") == 0) cable->mute = what[0] == 'm';
    if (strcmp(what, "dumb") == 0 || strcmp(what, "speak") == 0) cable->dumb = what[0] == 'd';
}

static bool is_marker(const uint8_t *frame, unsigned length) {
    return length > ETH_HLEN && (frame[12] << 8 | frame[13]) == SLOW_PROTOCOLS && frame[ETH_HLEN] == MARKER;
}

/* Whether a cable loses a frame: lagd has the queue in the first four bits of the identifier of a marker. */
static bool loses(const struct cable *cable, const uint8_t *frame, unsigned length) {
    if (cable->silent || cable->cut) return true;
    return is_marker(frame, length) && (cable->mute || (cable->dumb && (frame[ETH_HLEN + 12] >> 4 & 1)));
}

/* Puts a frame that came behind the others, unless the cable loses it: it lies at the tail already, or behind it. */
static void keep(struct cable *cable, struct way *way, unsigned from, unsigned length, uint64_t due) {
    unsigned to = way->tail % RING;
    if (loses(cable, way->frames[from], length)) return;
    if (to != from) memcpy(way->frames[to], way->frames[from], length);
    way->due[to] = due;
    way->lengths[to] = length;
    way->tail++;
}

/* Takes what came at one end. */
static void take(struct cable *cable, struct way *way) {
    int got = BATCH;
    while (got == BATCH && way->tail - way->head + BATCH <= RING) {
        struct mmsghdr messages[BATCH];
        struct iovec parts[BATCH];
        unsigned first = way->tail;
        for (unsigned i = 0; i < BATCH; i++) {
            parts[i] = (struct iovec){way->frames[(first + i) % RING], LONGEST};
            messages[i].msg_hdr = (struct msghdr){.msg_iov = &parts[i], .msg_iovlen = 1};
        }
        got = recvmmsg(way->in, messages, BATCH, MSG_DONTWAIT, NULL);
        for (int i = 0; i < got; i++) keep(cable, way, (first + (unsigned)i) % RING, messages[i].msg_len, now() + cable->delay);
    }
}

/* Gives what has come over; answers when the next frame has, or UINT64_MAX. */
static uint64_t give(struct cable *cable, struct way *way) {
    uint64_t time = now();
    if (cable->silent) way->head = way->tail;
    while (way->head != way->tail && way->due[way->head % RING] <= time) {
        struct mmsghdr messages[BATCH];
        struct iovec parts[BATCH];
        unsigned given = 0;
        for (; given < BATCH && way->head + given != way->tail && way->due[(way->head + given) % RING] <= time; given++) {
            parts[given] = (struct iovec){way->frames[(way->head + given) % RING], way->lengths[(way->head + given) % RING]};
            messages[given].msg_hdr = (struct msghdr){.msg_iov = &parts[given], .msg_iovlen = 1};
        }
        for (unsigned at = 0; at < given;) {
            int sent = sendmmsg(way->out, messages + at, given - at, 0);
            at += sent > 0 ? (unsigned)sent : 1;
        }
        way->head += given;
    }
    return way->head == way->tail ? UINT64_MAX : way->due[way->head % RING];
}

/* NEAR:FAR:MICROSECONDS. */
static bool lay(struct cable *cable, const char *text, struct pollfd *waits) {
    unsigned long microseconds;
    int ends[2];
    if (sscanf(text, "%15[^:]:%15[^:]:%lu", cable->near, cable->far, &microseconds) != 3) return false;
    cable->delay = microseconds * 1000;
    ends[0] = open_packet(cable->near);
    ends[1] = open_packet(cable->far);
    for (int i = 0; i < 2; i++) {
        cable->ways[i].in = ends[i];
        cable->ways[i].out = ends[1 - i];
        cable->ways[i].frames = malloc(RING * sizeof *cable->ways[i].frames);
        waits[i] = (struct pollfd){ends[i], POLLIN, 0};
        if (!cable->ways[i].frames) return false;
    }
    return true;
}

static int open_commands(const char *path) {
    struct sockaddr_un address = {.sun_family = AF_UNIX};
    int fd = socket(AF_UNIX, SOCK_DGRAM | SOCK_NONBLOCK, 0);
    if (strlen(path) >= sizeof address.sun_path) exit(2);
    memcpy(address.sun_path, path, strlen(path));
    (void)unlink(path);
    if (bind(fd, (struct sockaddr *)&address, sizeof address) == 0) return fd;
    perror(path);
    exit(1);
}

static void obey_all(int fd) {
    char text[64] = "";
    for (ssize_t got; (got = recv(fd, text, sizeof text - 1, 0)) > 0;) {
        text[got] = 0;
        obey(text);
    }
}

int main(int argc, char **argv) {
    struct pollfd waits[2 * MOST_CABLES + 1];
    int commands;
    if (argc < 3 || argc > MOST_CABLES + 2) return 2;
    (void)prctl(PR_SET_TIMERSLACK, 1000);
    (void)prctl(PR_SET_PDEATHSIG, 15);
    for (; count < argc - 2; count++)
        if (!lay(&cables[count], argv[count + 2], waits + 2 * count)) return 2;
    commands = open_commands(argv[1]);
    waits[2 * count] = (struct pollfd){commands, POLLIN, 0};
    for (uint64_t next = UINT64_MAX;;) {
        uint64_t time = now(), wait = next > time ? next - time : 0;
        if (wait > SECOND - 1) wait = SECOND - 1;
        (void)ppoll(waits, (nfds_t)(2 * count + 1), &(struct timespec){0, (long)wait}, NULL);
        if (waits[2 * count].revents) obey_all(commands);
        next = UINT64_MAX;
        for (int i = 0; i < 2 * count; i++) {
            struct way *way = &cables[i / 2].ways[i % 2];
            uint64_t due;
            if (waits[i].revents) take(&cables[i / 2], way);
            due = give(&cables[i / 2], way);
            if (due < next) next = due;
        }
    }
}
