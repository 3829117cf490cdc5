/* One port on an interface of Linux: `cc -o minimal examples/c/minimal.c -llag`, and as root `./minimal eth1`.
 *
 * It prints a line when the port begins to distribute and when it stops, and ends when the interface is gone. */
#define _GNU_SOURCE
#include <arpa/inet.h>
#include <err.h>
#include <linux/if_ether.h>
#include <linux/if_packet.h>
#include <net/if.h>
#include <poll.h>
#include <stdio.h>
#include <string.h>
#include <sys/ioctl.h>
#include <sys/socket.h>
#include <sys/timerfd.h>
#include <time.h>
#include <unistd.h>

#include "lag.h"

#define MOST_FRAMES 64 /* that are taken in a turn, so that no flood stops the clock */
#define MOST_TICKS 10  /* that are made up after a stall, so that a link does not expire whose LACPDUs waited in the socket */
#define RESPONSES 10   /* markers that are answered at most in a second (802.3, 57A.2) */
#define SECOND_MS 1100 /* with what the frames may come closer on their way */

static const uint8_t GROUP[6] = {0x01, 0x80, 0xc2, 0x00, 0x00, 0x02};
static struct niw_system here = NIW_EMPTY;
static struct ifreq interface;
static int wire; /* the packet socket of the interface */

/* Opens the interface for the slow protocols; answers whether it did. */
static bool open_wire(const char *name) {
    int index = (int)if_nametoindex(name);
    struct sockaddr_ll address = {.sll_family = AF_PACKET, .sll_protocol = htons(ETH_P_SLOW), .sll_ifindex = index};
    struct packet_mreq member = {.mr_ifindex = index, .mr_type = PACKET_MR_MULTICAST, .mr_alen = sizeof GROUP};
    memcpy(member.mr_address, GROUP, sizeof GROUP);
    wire = socket(AF_PACKET, SOCK_RAW | SOCK_NONBLOCK, 0);
    return index > 0 && wire >= 0 && if_indextoname((unsigned)index, interface.ifr_name)
        && ioctl(wire, SIOCGIFHWADDR, &interface) == 0
        && setsockopt(wire, SOL_PACKET, PACKET_ADD_MEMBERSHIP, &member, sizeof member) == 0
        && bind(wire, (struct sockaddr *)&address, sizeof address) == 0;
}

/* Makes a system of port 1 and aggregator 1, with the MAC address of the interface; answers whether it did. */
static bool make_system(void) {
    struct niw_config config = {.priority = 32768, .first_marker = 1, .conversations = NIW_FEW_CONVERSATIONS};
    struct niw_port port = {.number = 1, .key = 1, .aggregatable = true, .active = true, .short_timeout = true};
    memcpy(config.mac, interface.ifr_hwaddr.sa_data, sizeof config.mac);
    memcpy(port.mac, config.mac, sizeof port.mac);
    return niw_new(&here, &config, &port.key, 1, &port, 1).status == NIW_OK;
}

/* Says whether the link is up, where that changed; answers whether the interface is still there. */
static bool follow_link(void) {
    bool up;
    if (ioctl(wire, SIOCGIFFLAGS, &interface) < 0) return false;
    up = (interface.ifr_flags & IFF_UP) && (interface.ifr_flags & IFF_RUNNING);
    if (up != niw_is_up(&here, 1).is) niw_set_link(&here, 1, up);
    return true;
}

/* Whether fewer markers than the most were answered within a second; it notes this one, then. */
static bool may_respond(void) {
    static int64_t answered[RESPONSES];
    static unsigned oldest;
    struct timespec time;
    int64_t now;
    clock_gettime(CLOCK_BOOTTIME, &time);
    now = (int64_t)time.tv_sec * 1000 + time.tv_nsec / 1000000 + SECOND_MS; /* so that 0 is long ago */
    if (now - answered[oldest] < SECOND_MS) return false;
    answered[oldest] = now;
    oldest = (oldest + 1) % RESPONSES;
    return true;
}

/* Takes the frames that wait, and answers markers. A frame to another address than that of the group may come from anybody. */
static void take_frames(void) {
    uint8_t frame[2048], response[NIW_FRAME];
    for (int turn = 0; turn < MOST_FRAMES; turn++) {
        struct niw_received received;
        ssize_t octets = recv(wire, frame, sizeof frame, 0);
        if (octets < 0) return;
        if (octets < ETH_HLEN || memcmp(frame, GROUP, sizeof GROUP) != 0) continue;
        received = niw_receive(&here, 1, frame, (size_t)octets, response, sizeof response);
        if (received.what == NIW_RECEIVED_RESPOND && may_respond()) send(wire, response, received.number, 0);
    }
}

/* Makes up the ticks that passed, and sends what is due. What the kernel does not take is lost, as on a wire. */
static void pass_time(int clock) {
    uint8_t frame[NIW_FRAME];
    uint64_t passed = 0;
    if (read(clock, &passed, sizeof passed) == sizeof passed) niw_ticks(&here, passed < MOST_TICKS ? (uint32_t)passed : MOST_TICKS);
    while (niw_transmit(&here, 1, frame, sizeof frame).is) send(wire, frame, sizeof frame, 0);
}

/* Prints whether the port distributes, where that changed. Without a partner it does so, too: on defaults. */
static void print_change(void) {
    static bool printed;
    bool distributes = niw_distributes(&here, 1).is, alone = distributes && niw_defaulted(&here, 1).is;
    const char *text = niw_port_status_text(niw_port_status(&here, 1).number);
    if (distributes != printed) printf("%s: %s%s\n", interface.ifr_name, text, alone ? " without a partner" : "");
    printed = distributes;
}

int main(int argc, char **argv) {
    struct itimerspec every = {{0, NIW_TICK_MILLISECONDS * 1000000}, {0, NIW_TICK_MILLISECONDS * 1000000}};
    int clock = timerfd_create(CLOCK_MONOTONIC, TFD_NONBLOCK);
    if (argc != 2) errx(2, "usage: minimal INTERFACE");
    if (!open_wire(argv[1]) || timerfd_settime(clock, 0, &every, NULL) < 0) err(1, "%s", argv[1]);
    if (!make_system()) errx(1, "no system");
    setvbuf(stdout, NULL, _IOLBF, 0);
    while (poll((struct pollfd[]){{wire, POLLIN, 0}, {clock, POLLIN, 0}}, 2, -1) >= 0 && follow_link()) {
        take_frames();
        pass_time(clock);
        print_change();
    }
    warn("%s", argv[1]);
    niw_free(&here);
    return 1;
}
