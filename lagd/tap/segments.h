/* Segments of TCP: what the files share that cut frames into them, and put them together. */
#ifndef LAGD_SEGMENTS_H
#define LAGD_SEGMENTS_H

#include "tap.h"

#include <linux/virtio_net.h>
#include <netinet/in.h>

/* Where headers of IP and TCP have what differs between segments, and flags of TCP. */
enum {
    IPV4_LENGTH = 2, IPV4_ID = 4, IPV4_SUM = 10, IPV6_LENGTH = 4,
    TCP_SEQUENCE = 4, TCP_ACKNOWLEDGED = 8, TCP_LENGTH = 12, TCP_FLAGS = 13, TCP_WINDOW = 14, TCP_SUM = 16, TCP_URGENT = 18, TCP_OCTETS = 20,
    FLAG_FIN = 0x01, FLAG_PSH = 0x08, FLAG_ACK = 0x10, FLAG_CWR = 0x80,
};

static inline uint16_t read16(const uint8_t *at) {
    return (uint16_t)(at[0] << 8 | at[1]);
}

static inline void write16(uint8_t *at, size_t number) {
    at[0] = (uint8_t)(number >> 8);
    at[1] = (uint8_t)number;
}

static inline uint32_t read32(const uint8_t *at) {
    return (uint32_t)read16(at) << 16 | read16(at + 2);
}

static inline void write32(uint8_t *at, uint32_t number) {
    write16(at, number >> 16);
    write16(at + 2, number & UINT16_MAX);
}

/* What the kernel tells of a packet. */
static inline struct virtio_net_hdr head_of(const uint8_t *packet) {
    struct virtio_net_hdr told;
    memcpy(&told, packet, sizeof told);
    return told;
}

static inline bool has_ipv6(const uint8_t *packet, const struct tcp_packet *tcp) {
    return packet[tcp->network] >> 4 == 6;
}

#endif
