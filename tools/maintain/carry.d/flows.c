/* Numbers frames of flows, and looks at what comes of them.
 *
 *     flows send INTERFACE RATE FLOWS SECONDS macs|ports
 *     flows receive INTERFACE FLOWS SECONDS
 *
 * A flow is a pair of MAC addresses, or a port of UDP between two addresses. Each frame has 200 octets, RATE of them go in a
 * second, or as many as the machine sends, and the flows take turns. The receiver has to run first. Each prints one line of JSON: how many frames were sent and not
 * taken by the kernel; or how many came, came twice and were overtaken by a later one of their flow, in how many flows, and the
 * longest time in which a flow had none. */
#define _GNU_SOURCE
#include <linux/if_packet.h>
#include <net/ethernet.h>
#include <net/if.h>
#include <netinet/in.h>
#include <poll.h>
#include <stdbool.h>
#include <stdint.h>
#include <stdio.h>
#include <stdlib.h>
#include <string.h>
#include <sys/prctl.h>
#include <sys/socket.h>
#include <time.h>

#define BATCH 64
#define MOST_FLOWS 256
#define OCTETS 200
#define TO_PORT 20000
#define FIRST_PORT 10000
#define HEADERS 42
#define SECOND 1000000000u
/* The room of the kernel for frames that wait. */
#define ROOM (64 << 20)
/* The most frames of a flow. */
#define MOST_FRAMES (1u << 20)

/* What stands behind the headers of a frame. */
struct mark {
    uint64_t flow, number, sent_at;
};

static uint64_t now(void) {
    struct timespec time;
    clock_gettime(CLOCK_MONOTONIC, &time);
    return (uint64_t)time.tv_sec * SECOND + (uint64_t)time.tv_nsec;
}

static int open_packet(const char *name, uint16_t type) {
    struct sockaddr_ll address = {.sll_family = AF_PACKET, .sll_protocol = htons(type), .sll_ifindex = (int)if_nametoindex(name)};
    int fd = socket(AF_PACKET, SOCK_RAW, 0);
    (void)setsockopt(fd, SOL_SOCKET, SO_RCVBUFFORCE, &(int){ROOM}, sizeof(int));
    (void)setsockopt(fd, SOL_SOCKET, SO_SNDBUFFORCE, &(int){ROOM}, sizeof(int));
    (void)setsockopt(fd, SOL_PACKET, PACKET_IGNORE_OUTGOING, &(int){1}, sizeof(int));
    if (bind(fd, (struct sockaddr *)&address, sizeof address) == 0) return fd;
    perror(name);
    exit(1);
}

static void put(uint8_t *at, unsigned number) {
    at[0] = (uint8_t)(number >> 8);
    at[1] = (uint8_t)number;
}

/* Writes a frame: Ethernet, IPv4 and UDP without a checksum. */
static void write_frame(uint8_t *frame, unsigned flow, uint64_t number, bool by_macs) {
    static const uint8_t start[HEADERS] = {2, 0xbb, 0, 0, 0, 0, 2, 0xaa, 0, 0, 0, 0, 8, 0, 0x45, 0, 0, 0, 0, 0, 0, 0, 64, 17, 0, 0, 10,
        99, 0, 1, 10, 99, 0, 2};
    struct mark mark = {flow, number, now()};
    unsigned sum = 0;
    memcpy(frame, start, sizeof start);
    if (by_macs) put(frame + 4, flow);
    put(frame + 16, OCTETS - ETH_HLEN);
    for (unsigned i = 14; i < 34; i += 2) sum += (unsigned)frame[i] << 8 | frame[i + 1];
    sum = (sum & 0xffff) + (sum >> 16);
    put(frame + 24, ~(sum + (sum >> 16)) & 0xffff);
    put(frame + 34, FIRST_PORT + flow);
    put(frame + 36, TO_PORT);
    put(frame + 38, OCTETS - 34);
    memcpy(frame + HEADERS, &mark, sizeof mark);
}

/* Sleeps until the next frame is due, and so long that some are where many go in a second: a guest without a processor of its own wakes dearly. */
static void wait_until(uint64_t due) {
    uint64_t time = now(), least = time + 300000, until = due > least ? due : least;
    (void)clock_nanosleep(CLOCK_MONOTONIC, TIMER_ABSTIME, &(struct timespec){(time_t)(until / SECOND), (long)(until % SECOND)}, NULL);
}

/* Sends frames; answers how many the kernel did not take. */
static uint64_t send_frames(int fd, struct mmsghdr *messages, unsigned count) {
    uint64_t refused = 0;
    for (unsigned at = 0; at < count;) {
        int sent = sendmmsg(fd, messages + at, count - at, 0);
        refused += sent <= 0;
        at += sent > 0 ? (unsigned)sent : 1;
    }
    return refused;
}

static int send_flows(char **words) {
    static uint8_t frames[BATCH][OCTETS];
    static uint64_t numbers[MOST_FLOWS];
    double rate = atof(words[1]), seconds = atof(words[3]);
    unsigned flows = (unsigned)atoi(words[2]), flow = 0;
    bool by_macs = strcmp(words[4], "macs") == 0;
    int fd = open_packet(words[0], 0);
    uint64_t start = now(), sent = 0, refused = 0, total = (uint64_t)(rate * seconds);
    while (sent < total && flows <= MOST_FLOWS && now() - start < (uint64_t)((seconds + 1) * SECOND)) {
        struct mmsghdr messages[BATCH];
        struct iovec parts[BATCH];
        uint64_t wanted = (uint64_t)((double)(now() - start) * rate / SECOND);
        unsigned count;
        if (wanted > total) wanted = total;
        if (wanted <= sent) {
            wait_until(start + (uint64_t)((double)(sent + 1) * SECOND / rate));
            continue;
        }
        count = wanted - sent > BATCH ? BATCH : (unsigned)(wanted - sent);
        for (unsigned i = 0; i < count; i++) {
            write_frame(frames[i], flow, numbers[flow]++, by_macs);
            parts[i] = (struct iovec){frames[i], OCTETS};
            messages[i].msg_hdr = (struct msghdr){.msg_iov = &parts[i], .msg_iovlen = 1};
            flow = (flow + 1) % flows;
        }
        refused += send_frames(fd, messages, count);
        sent += count;
    }
    printf("{\"sent\":%lu,\"refused\":%lu}\n", sent, refused);
    return 0;
}

/* What came of a flow. */
struct flow {
    uint64_t highest, count, overtaken, twice, gap, last;
    uint8_t *seen;
};

static struct flow flows[MOST_FLOWS];
static uint64_t strange, longest;

/* Takes a frame of a flow. */
static void take_mark(const struct mark *mark, uint64_t time) {
    struct flow *flow = &flows[mark->flow];
    uint8_t *octet = &flow->seen[mark->number / 8], bit = (uint8_t)(1 << (mark->number % 8));
    if (*octet & bit) {
        flow->twice++;
        return;
    }
    *octet |= bit;
    if (flow->count > 0 && mark->number < flow->highest) flow->overtaken++;
    if (flow->count > 0 && time - flow->last > flow->gap) flow->gap = time - flow->last;
    if (flow->count == 0 || mark->number > flow->highest) flow->highest = mark->number;
    flow->last = time;
    flow->count++;
    if (time - mark->sent_at > longest) longest = time - mark->sent_at;
}

static void accept_frame(const uint8_t *frame, size_t length, unsigned count, uint64_t time) {
    struct mark mark;
    if (length != OCTETS || frame[1] != 0xbb || frame[36] != TO_PORT >> 8 || frame[37] != (TO_PORT & 0xff)) return;
    memcpy(&mark, frame + HEADERS, sizeof mark);
    if (mark.flow >= count || mark.number >= MOST_FRAMES)
        strange++;
    else
        take_mark(&mark, time);
}

static void print_flows(unsigned count, uint64_t lost) {
    struct flow all = {0};
    unsigned turned = 0;
    for (unsigned i = 0; i < count; i++) {
        all.count += flows[i].count;
        all.overtaken += flows[i].overtaken;
        all.twice += flows[i].twice;
        turned += flows[i].overtaken > 0;
        if (flows[i].gap > all.gap) all.gap = flows[i].gap;
    }
    printf("{\"received\":%lu,\"twice\":%lu,\"overtaken\":%lu,\"overtaken_flows\":%u,\"gap_ms\":%lu,\"delay_ms\":%lu,\"strange\":%lu,"
           "\"lost_here\":%lu}\n", all.count, all.twice, all.overtaken, turned, all.gap / 1000000, longest / 1000000, strange, lost);
}

static int receive_flows(char **words) {
    static uint8_t frames[BATCH][2048];
    unsigned count = (unsigned)atoi(words[1]);
    int fd = open_packet(words[0], ETH_P_IP);
    uint64_t end = now() + (uint64_t)(atof(words[2]) * SECOND);
    struct tpacket_stats stats = {0};
    socklen_t length = sizeof stats;
    if (count > MOST_FLOWS) return 2;
    for (unsigned i = 0; i < count; i++) flows[i].seen = calloc(MOST_FRAMES / 8, 1);
    while (now() < end) {
        struct mmsghdr messages[BATCH];
        struct iovec parts[BATCH];
        int got;
        (void)poll(&(struct pollfd){fd, POLLIN, 0}, 1, 100);
        for (unsigned i = 0; i < BATCH; i++) {
            parts[i] = (struct iovec){frames[i], sizeof frames[i]};
            messages[i].msg_hdr = (struct msghdr){.msg_iov = &parts[i], .msg_iovlen = 1};
        }
        got = recvmmsg(fd, messages, BATCH, MSG_DONTWAIT, NULL);
        for (int i = 0; i < got; i++) accept_frame(frames[i], messages[i].msg_len, count, now());
    }
    (void)getsockopt(fd, SOL_PACKET, PACKET_STATISTICS, &stats, &length);
    print_flows(count, stats.tp_drops);
    return 0;
}

int main(int argc, char **argv) {
    (void)prctl(PR_SET_TIMERSLACK, 10000);
    if (argc == 7 && strcmp(argv[1], "send") == 0) return send_flows(argv + 2);
    if (argc == 5 && strcmp(argv[1], "receive") == 0) return receive_flows(argv + 2);
    fprintf(stderr, "usage: flows send INTERFACE RATE FLOWS SECONDS macs|ports, or flows receive INTERFACE FLOWS SECONDS\n");
    return 2;
}
