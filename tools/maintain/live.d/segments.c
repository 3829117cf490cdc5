/* Frames of several segments that are cut, and frames that are put together (lagd/tap/segments.c), alone, over a device in memory: what is
 * cut has the headers and checksums that each segment has by itself; what goes up together is, cut again, what came, in its order; and what is
 * no part of a stream, was damaged, or is refused together, goes up as it came.
 *
 * It prints a line for each check that fails, and then 'segments: N passed, M failed'; status 1 if one failed. */
#define _GNU_SOURCE
#include <stdio.h>
#include <stdlib.h>
#include <sys/uio.h>

#include "checks.h"
#include "tap/segments.h"
#include "daemon.h"

#define HEAD 10
#define ROUNDS 3000
#define MOST 70000
/* The least octets of a segment with its options. */
#define LEAST 48

/* The daemon, as far as it is here. */
static struct lagd tested, *lagd = &tested;
const char *const program = "segments";

/* What the device took since the last round, packet by packet; and what it refuses. */
static uint8_t *taken[4 * BATCH];
static size_t lengths[4 * BATCH];
static unsigned took;
static bool refuses_joined, refuses_all;
static uint64_t state = 7;

bool give_host(const struct core *core, int tap, const struct iovec *parts, unsigned count, size_t length) {
    uint8_t *packet = malloc(length);
    size_t at = 0;
    for (unsigned i = 0; i < count; at += parts[i++].iov_len) {
        CHECK(at + parts[i].iov_len <= length);
        memcpy(packet + at, parts[i].iov_base, parts[i].iov_len);
    }
    CHECK(at == length && took < sizeof taken / sizeof *taken);
    if (refuses_all || (refuses_joined && has_segments(packet))) {
        free(packet);
        return false;
    }
    taken[took] = packet;
    lengths[took++] = length;
    return true;
}

static uint32_t below(uint32_t most) {
    state = state * 6364136223846793005u + 1442695040888963407u;
    return (uint32_t)(state >> 33) % most;
}

static void forget_taken(void) {
    while (took > 0) free(taken[--took]);
}

/* A sum, in the plainest way: octet by octet. */
static uint32_t plain_sum(uint32_t sum, const uint8_t *octets, size_t length) {
    for (size_t i = 0; i < length; i++) sum += i % 2 == 0 ? (uint32_t)octets[i] << 8 : octets[i];
    while (sum > UINT16_MAX) sum = (sum & UINT16_MAX) + (sum >> 16);
    return sum;
}

static uint32_t pseudo_sum(const uint8_t *packet, const struct tcp_packet *tcp) {
    bool six = packet[tcp->network] >> 4 == 6;
    uint32_t length = (uint32_t)(tcp->length - tcp->transport);
    return plain_sum(6 + length, packet + tcp->network + (six ? 8 : 12), six ? 32 : 8);
}

/* Makes a packet of several segments of a stream, as the host hands it over, with so many tags. */
static uint8_t *make_whole(struct tcp_packet *tcp, unsigned tags, size_t size, size_t payload) {
    bool six = below(2);
    size_t options = 4 * below(11);
    uint8_t *packet;
    *tcp = (struct tcp_packet){.network = HEAD + 14 + 4 * tags};
    tcp->transport = tcp->network + (six ? 40 : 20);
    tcp->payload = tcp->transport + 20 + options;
    tcp->length = tcp->payload + payload;
    packet = malloc(tcp->length);
    for (size_t i = 0; i < tcp->length; i++) packet[i] = (uint8_t)below(256);
    memcpy(packet, &(struct virtio_net_hdr){.flags = VIRTIO_NET_HDR_F_NEEDS_CSUM,
        .gso_type = six ? VIRTIO_NET_HDR_GSO_TCPV6 : VIRTIO_NET_HDR_GSO_TCPV4, .gso_size = (uint16_t)size,
        .csum_start = (uint16_t)(tcp->transport - HEAD), .csum_offset = 16}, HEAD);
    for (unsigned i = 0; i < tags; i++) write16(packet + HEAD + 12 + 4 * i, i + 1 < tags ? 0x88a8 : 0x8100);
    write16(packet + tcp->network - 2, six ? ETH_P_IPV6 : ETH_P_IP);
    packet[tcp->network] = six ? 0x60 : 0x45;
    packet[tcp->network + (six ? 6 : 9)] = IPPROTO_TCP;
    if (six) write16(packet + tcp->network + 4, tcp->length - tcp->transport);
    if (!six) write16(packet + tcp->network + 2, tcp->length - tcp->network);
    if (!six) write16(packet + tcp->network + 6, 0x4000);
    packet[tcp->transport + 12] = (uint8_t)((20 + options) / 4 << 4);
    packet[tcp->transport + 13] = (uint8_t)(0x10 | (below(2) ? 0x08 : 0));
    write16(packet + tcp->transport + 16, pseudo_sum(packet, tcp));
    return packet;
}

/* Puts in the checksums that a packet has by itself. */
static void put_sums(uint8_t *packet, const struct tcp_packet *tcp) {
    uint8_t *ip = packet + tcp->network, *of = packet + tcp->transport;
    if (ip[0] >> 4 == 4) {
        write16(ip + 10, 0);
        write16(ip + 10, ~plain_sum(0, ip, 20) & UINT16_MAX);
    }
    write16(of + 16, 0);
    write16(of + 16, ~plain_sum(pseudo_sum(packet, tcp), of, tcp->length - tcp->transport) & UINT16_MAX);
}

/* A segment has the headers that it has by itself. */
static void check_segment(const struct cut *cut, const uint8_t *whole, uint32_t number, const uint8_t *packet, size_t length) {
    struct tcp_packet tcp = cut->whole;
    size_t at = tcp.payload + number * cut->size, octets = length - tcp.payload;
    const uint8_t *ip = packet + tcp.network, *of = packet + tcp.transport;
    bool six = ip[0] >> 4 == 6, last = number + 1 == cut->count;
    tcp.length = length;
    CHECK(last ? at + octets == cut->whole.length : octets == cut->size);
    CHECK(memcmp(packet + tcp.payload, whole + at, octets) == 0 && memcmp(packet, (uint8_t[HEAD]){0}, HEAD) == 0);
    CHECK(six ? read16(ip + 4) == length - tcp.transport : read16(ip + 2) == length - tcp.network && plain_sum(0, ip, 20) == UINT16_MAX);
    CHECK(six || read16(ip + 4) == (uint16_t)(read16(whole + tcp.network + 4) + number));
    CHECK(read32(of + 4) == read32(whole + tcp.transport + 4) + number * (uint32_t)cut->size);
    CHECK(of[13] == (whole[tcp.transport + 13] & (last ? 0xff : 0xf6) & (number == 0 ? 0xff : 0x7f)));
    CHECK(plain_sum(pseudo_sum(packet, &tcp), of, length - tcp.transport) == UINT16_MAX);
}

/* The rooms of segments. */
static uint8_t *rooms[2 * BATCH];
static size_t room_lengths[2 * BATCH];

/* Cuts a packet into rooms; answers how many. */
static uint32_t cut_whole(const uint8_t *whole, size_t length) {
    struct cut cut;
    bool can = read_cut(whole, length, &cut);
    CHECK(can && cut.count <= 2 * BATCH);
    for (uint32_t i = 0; can && i < cut.count; i++) {
        room_lengths[i] = put_segment(&cut, i, rooms[i]);
        check_segment(&cut, whole, i, rooms[i], room_lengths[i]);
    }
    return can ? cut.count : 0;
}

/* What went up is what is in the rooms, in its order, but for the numbers of packets of IPv4 that go up together: those count on. */
static void check_taken(uint32_t count) {
    static uint8_t again[MOST];
    uint32_t at = 0;
    for (unsigned i = 0; i < took; i++) {
        struct cut cut = {.count = 1};
        bool joined = has_segments(taken[i]);
        CHECK(!joined || read_cut(taken[i], lengths[i], &cut));
        for (uint32_t number = 0; number < cut.count && at < count; number++, at++) {
            size_t length = joined ? put_segment(&cut, number, again) : lengths[i];
            const uint8_t *packet = joined ? again : taken[i];
            CHECK(length == room_lengths[at] && memcmp(packet, rooms[at], length) == 0);
        }
    }
    CHECK(at == count);
}

static void put_rooms(uint32_t count) {
    uint64_t before = lagd->carry.counts[HANDED_UP] + lagd->carry.counts[HOST_UNTAKEN];
    for (uint32_t i = 0; i < count; i++) put_host(&lagd->tap, rooms[i], room_lengths[i]);
    flush_host(&lagd->tap);
    CHECK(lagd->carry.counts[HANDED_UP] + lagd->carry.counts[HOST_UNTAKEN] == before + count);
}

/* Packets that are cut go up together, whole or refused; one that was damaged on its way goes up by itself. */
static void check_round(void) {
    size_t size = LEAST + below(1500 - LEAST), payload = 1 + below((uint32_t)(size * BATCH < 60000 ? size * BATCH : 60000));
    struct tcp_packet tcp;
    uint8_t *whole = make_whole(&tcp, below(3), size, payload), *octet;
    uint32_t count = cut_whole(whole, tcp.length), damaged = below(count);
    put_rooms(count);
    CHECK(took == 1);
    check_taken(count);
    forget_taken();
    refuses_joined = true;
    put_rooms(count);
    CHECK(took == count);
    check_taken(count);
    refuses_joined = false;
    forget_taken();
    octet = rooms[damaged] + tcp.network + below((uint32_t)(room_lengths[damaged] - tcp.network));
    *octet = (uint8_t)(*octet + 1 + below(255));
    put_rooms(count);
    CHECK(took <= 3);
    for (unsigned i = 0, at = 0; i < took; i++) {
        struct cut cut = {.count = 1};
        if (has_segments(taken[i])) CHECK(read_cut(taken[i], lengths[i], &cut) && (damaged < at || damaged >= at + cut.count));
        at += cut.count;
    }
    check_taken(count);
    forget_taken();
    free(whole);
}

/* A packet that differs from the one before it in one field of its headers, or does not follow it, goes up by itself. */
static void check_differences(void) {
    static const struct { int from; size_t at; } fields[] = {
        {0, HEAD}, {0, HEAD + 6}, {1, 1}, {1, 8}, {1, 12}, {1, 16}, {2, 0}, {2, 2}, {2, 4}, {2, 8}, {2, 14}, {2, 18}};
    for (unsigned i = 0; i < 4 * sizeof fields / sizeof *fields; i++) {
        struct tcp_packet tcp;
        uint8_t *whole = make_whole(&tcp, below(2), 1000, 3000);
        uint32_t count = cut_whole(whole, tcp.length);
        size_t from = fields[i / 4].from == 1 ? tcp.network : fields[i / 4].from == 2 ? tcp.transport : 0;
        rooms[1][from + fields[i / 4].at] ^= 1;
        tcp.length = room_lengths[1];
        put_sums(rooms[1], &tcp);
        put_rooms(count);
        CHECK(took == 3);
        check_taken(count);
        forget_taken();
        free(whole);
    }
}

/* Segments that are shorter with their options than Linux makes any are not cut. */
static void check_short(void) {
    for (unsigned round = 0; round < ROUNDS; round++) {
        struct tcp_packet tcp;
        uint8_t *whole = make_whole(&tcp, below(3), 1000, 3000);
        size_t options = tcp.payload - tcp.transport - 20;
        struct virtio_net_hdr told = head_of(whole);
        struct cut cut;
        for (unsigned more = 0; more < 2; more++) {
            told.gso_size = (uint16_t)(LEAST - 1 - options + more);
            memcpy(whole, &told, sizeof told);
            CHECK(read_cut(whole, tcp.length, &cut) == (more == 1));
        }
        free(whole);
    }
}

/* A packet is cut behind any number of tags, and goes up together behind two at most. */
static void check_tags(void) {
    for (unsigned tags = 0; tags < 12; tags++) {
        struct tcp_packet tcp;
        uint8_t *whole = make_whole(&tcp, tags, 1000, 3000);
        uint32_t count = cut_whole(whole, tcp.length);
        put_rooms(count);
        CHECK(count == 3 && took == (tags <= 2 ? 1 : 3));
        check_taken(count);
        forget_taken();
        free(whole);
    }
}

/* Whether it goes up or not, each packet is counted. */
static void check_refused(void) {
    struct tcp_packet tcp;
    uint8_t *whole = make_whole(&tcp, 0, 1000, 3000);
    uint64_t before = lagd->carry.counts[HOST_UNTAKEN];
    refuses_all = true;
    put_rooms(cut_whole(whole, tcp.length));
    CHECK(took == 0 && lagd->carry.counts[HOST_UNTAKEN] == before + 3);
    refuses_all = false;
    free(whole);
}

/* A checksum that was left to a card is put in; that of a datagram is never 0. */
static void check_sums(void) {
    for (unsigned round = 0; round < ROUNDS; round++) {
        size_t length = HEAD + 44 + below(200);
        uint8_t *packet = malloc(length);
        for (size_t i = 0; i < length; i++) packet[i] = round % 3 == 0 ? 0 : (uint8_t)below(256);
        memcpy(packet, &(struct virtio_net_hdr){.flags = VIRTIO_NET_HDR_F_NEEDS_CSUM, .csum_start = 34, .csum_offset = 6}, HEAD);
        write16(packet + HEAD + 40, 0);
        finish_sum(packet, length);
        CHECK(packet[0] == 0 && read16(packet + HEAD + 40) != 0 && plain_sum(0, packet + HEAD + 34, length - HEAD - 34) == UINT16_MAX);
        free(packet);
    }
}

/* Nothing is read or written outside of a packet, whatever stands in it. */
static void check_rubbish(void) {
    for (unsigned round = 0; round < 20 * ROUNDS; round++) {
        struct tcp_packet tcp;
        uint8_t *whole = make_whole(&tcp, below(4), LEAST + below(400), 1 + below(900)), *packet;
        size_t length = HEAD + below((uint32_t)(tcp.length - HEAD) + 1);
        struct cut cut;
        packet = malloc(length);
        memcpy(packet, whole, length);
        for (unsigned i = below(4); i > 0; i--) packet[below((uint32_t)(length < 100 ? length : 100))] = (uint8_t)below(256);
        if (read_cut(packet, length, &cut))
            for (uint32_t i = 0; i < cut.count; i++) CHECK(put_segment(&cut, i, rooms[0]) <= length);
        finish_sum(packet, length);
        if (below(2)) memset(packet, 0, HEAD);
        if (length >= HEAD + ETH_HLEN) put_host(&lagd->tap, packet, length);
        flush_host(&lagd->tap);
        forget_taken();
        free(packet);
        free(whole);
    }
}

int main(void) {
    join_parts(lagd);
    for (unsigned i = 0; i < 2 * BATCH; i++) rooms[i] = malloc(MOST);
    for (unsigned round = 0; round < ROUNDS; round++) check_round();
    check_differences();
    check_short();
    check_tags();
    check_refused();
    check_sums();
    check_rubbish();
    return tell_checks();
}
