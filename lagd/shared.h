/* What the daemon and its programs of the kernel share: the tables, and numbers of frames. */
#ifndef LAGD_SHARED_H
#define LAGD_SHARED_H

#include <linux/if_ether.h>
#include <stdint.h>

/* Conversations of the host, and members: what the tables have room for. */
#define CONVERSATIONS 256
#define MOST_MEMBERS 64
/* The most queues of a member by which data goes: the identifier of a marker has four bits for one. */
#define MOST_QUEUES 16
/* By this mark, and the number of a queue from 1 on, a frame of the daemon is sent by that queue. */
#define QUEUE_MARK 0x6c617100u
#define QUEUE_BITS 0xffu
/* Frames of the host that wait for the daemon, which other programs may keep from a processor for a while. */
#define HOST_QUEUE 4096

/* Where a frame of the slow protocols has its subtype, and those of LACP and of the Marker protocol (IEEE 802.1AX-2014, 6.4.2.3 and
 * 6.5.3.3). */
#define SUBTYPE_AT 14
#define SUBTYPE_LACP 1
#define SUBTYPE_MARKER 2

/* The groups 01-80-C2-00-00-00 to -0F, which no bridge passes on: frames to them concern the member alone, as those of 802.1X, MKA, LLDP
 * and PTP do, but for the groups by which bridges speak with each other, a bit for each: their ports are above the aggregator. */
#define LINK_GROUPS 0x0180c200
#define MOST_LINK_GROUP 0x0f
#define BRIDGE_GROUPS (1 << 0x00 | 1 << 0x08 | 1 << 0x0d)

/* What a conversation is of: what stands in its frames, in the words of xmit_hash_policy of the bonding driver of Linux. */
enum hash {
    HASH_LAYER2,    /* the last octets of both MAC addresses, as the library has it */
    HASH_LAYER2_3,  /* MAC addresses, and those of IP */
    HASH_LAYER3_4,  /* addresses of IP, and the ports of TCP, UDP and SCTP */
    HASH_ENCAP3_4,  /* those of the packet that a tunnel carries */
    HASH_VLAN_SRCMAC, /* the VLAN, and the source */
};

/* FNV-1a, of words of 32 bits; and where the headers have what is hashed. */
#define HASH_START 2166136261u
#define HASH_FACTOR 16777619
/* The octets of a VLAN tag, and how many tags are skipped to find the network header. */
#define TAG_OCTETS 4
#define MOST_TAGS 4
enum {
    SOURCE = ETH_ALEN, VLAN = 0x0fff, /* the bits of a tag that tell the VLAN */
    IPV4_OCTETS = 20, IPV4_FRAGMENT = 6, IPV4_PROTOCOL = 9, IPV4_ADDRESSES = 12,
    IPV6_OCTETS = 40, IPV6_NEXT = 6, IPV6_ADDRESSES = 8,
    FRAGMENTED = 0x3fff, /* the bits of a fragment: more of them, and its place */
    /* VXLAN (RFC 7348), at its own port of UDP and at the usual one of Linux; and GRE (RFC 2784, 2890). */
    UDP_TO = 2, VXLAN_PORT = 4789, VXLAN_USUAL_PORT = 8472, VXLAN_FLAGS = 8, VXLAN_IS_VALID = 0x08, VXLAN_ETHERNET = 16,
    GRE_OCTETS = 4, GRE_TYPE = 2, GRE_SUM = 0x8000, GRE_KEY = 0x2000, GRE_SEQUENCE = 0x1000,
    GRE_OTHER = 0x4c07, /* another version, or bits with which the header may have another form */
};

/* A table of each: a row of a conversation, an entry of a member, and what is of the host. A daemon of another version may have made them. What is
 * passed, passed up, overflowed, uncollected, unfit or of a wrong length is counted since the daemon took the count. */
struct fast_row {
    uint64_t word;   /* below: the interface that the kernel sends on, or 0; above: segments that were left to the daemon, beyond which
                        a count runs over into nothing */
    uint64_t passed; /* frames that the kernel sent */
    uint64_t opaque; /* frames left to the daemon, of segments that nobody has counted */
    uint64_t overflowed; /* of the segments that were left to the daemon, those that were lost since too many waited */
};
struct fast_member {
    uint64_t up_to; /* the interface to which frames go up, or 0 */
    uint64_t passed_up, uncollected, wrong_length;
};
/* Of which port a member is: above its interface, below the port. An interface has one place, which another one may have. */
#define PLACES 4096
struct fast_place {
    uint64_t word;
};
static inline uint32_t member_place(uint32_t interface) {
    return interface & (PLACES - 1);
}
struct fast_host {
    int64_t left;        /* frames that were left to the daemon, and not taken yet */
    uint64_t overflowed; /* frames that were lost, since there were too many of these */
    uint64_t unfit;      /* frames that were lost, since they were unfit for the member of their row */
    uint64_t mac;        /* of the TAP device, as the octets stand in memory, and zeros */
    uint64_t open_until; /* the time in nanoseconds, by CLOCK_MONOTONIC, from which on no frame of the host is taken */
};

#endif
