/* The hash of a frame, for hash.c and for the program of the kernel. Each of them says what a `struct frame` is, how its octets are read, and
 * includes the numbers of protocols of IP. There it is one function, and its values have 64 bits, since without CAP_PERFMON Linux 6.1 takes
 * no loop, and no half of a word that the compiler keeps on the stack. */
#ifndef LAGD_HASH_H
#define LAGD_HASH_H

#include <stdbool.h>

#include "shared.h"

/* Copies octets of a frame; answers whether it has them. */
static __always_inline bool read_octets(const struct frame *frame, uint64_t at, void *octets, uint32_t count);

/* The beginning of a frame, or a header in it: as octets, and as words of this processor. */
union header {
    uint8_t octets[IPV6_OCTETS];
    uint32_t words[IPV6_OCTETS / 4];
};

/* Where a network header stands, and its type; or what it carries, and the protocol of that. */
struct place {
    uint64_t at, type;
};

static __always_inline uint16_t number_at(const uint8_t *octets) {
    return (uint16_t)(octets[0] << 8 | octets[1]);
}

static __always_inline uint64_t add_words(uint64_t hash, const uint32_t *words, unsigned count) {
    for (unsigned i = 0; i < count; i++) hash = ((hash ^ words[i]) * HASH_FACTOR) & UINT32_MAX;
    return hash;
}

static __always_inline bool is_tag(uint64_t type) {
    return type == ETH_P_8021Q || type == ETH_P_8021AD;
}

/* Goes on behind a VLAN tag; answers whether there is one. */
static __always_inline bool skip_tag(const struct frame *frame, struct place *place) {
    uint8_t type[2];
    if (!is_tag(place->type) || !read_octets(frame, place->at + 2, type, sizeof type)) return false;
    place->at += TAG_OCTETS;
    place->type = number_at(type);
    return true;
}

/* Goes on behind MOST_TAGS VLAN tags at most; `beside`: one of them is not in the frame. */
static __always_inline void skip_tags(const struct frame *frame, struct place *place, bool beside) {
    (void)(skip_tag(frame, place) && skip_tag(frame, place) && skip_tag(frame, place) && !beside && skip_tag(frame, place));
}

/* Goes on from an Ethernet header to the network header, if there is one. */
static __always_inline void enter_ethernet(const struct frame *frame, struct place *place) {
    uint8_t type[2];
    if (!read_octets(frame, place->at + 2 * ETH_ALEN, type, sizeof type)) return;
    place->at += ETH_HLEN;
    place->type = number_at(type);
    skip_tags(frame, place, false);
}

/* Adds the addresses of IP, if there are some; answers whether. What the packet carries is `carried`: of a fragment of IPv4 that is not
 * told, since those behind the first one have no ports. */
static __always_inline bool add_addresses(const struct frame *frame, const struct place *place, uint64_t *hash, struct place *carried) {
    union header ip;
    if (place->type == ETH_P_IP && read_octets(frame, place->at, &ip, IPV4_OCTETS) && ip.octets[0] >> 4 == 4) {
        *hash = add_words(*hash, ip.words + IPV4_ADDRESSES / 4, 2);
        carried->at = place->at + 4 * (ip.octets[0] & 15u);
        carried->type = number_at(ip.octets + IPV4_FRAGMENT) & FRAGMENTED ? 0 : ip.octets[IPV4_PROTOCOL];
        return true;
    }
    if (place->type == ETH_P_IPV6 && read_octets(frame, place->at, &ip, IPV6_OCTETS) && ip.octets[0] >> 4 == 6) {
        *hash = add_words(*hash, ip.words + IPV6_ADDRESSES / 4, 8);
        carried->at = place->at + IPV6_OCTETS;
        carried->type = ip.octets[IPV6_NEXT];
        return true;
    }
    return false;
}

/* Goes on from a header of UDP to what VXLAN carries, if it does. */
static __always_inline void enter_vxlan(const struct frame *frame, struct place *place) {
    uint8_t udp[VXLAN_FLAGS + 1];
    place->type = 0;
    if (!read_octets(frame, place->at, udp, sizeof udp) || !(udp[VXLAN_FLAGS] & VXLAN_IS_VALID)) return;
    uint16_t port = number_at(udp + UDP_TO);
    if (port != VXLAN_PORT && port != VXLAN_USUAL_PORT) return;
    place->at += VXLAN_ETHERNET;
    enter_ethernet(frame, place);
}

/* Goes on from a header of GRE to what it carries, if it is of the kind that is known. */
static __always_inline void enter_gre(const struct frame *frame, struct place *place) {
    uint8_t gre[GRE_OCTETS];
    place->type = 0;
    if (!read_octets(frame, place->at, gre, sizeof gre)) return;
    uint16_t flags = number_at(gre);
    if (flags & GRE_OTHER) return;
    place->at += GRE_OCTETS + (flags & GRE_SUM ? 4u : 0u) + (flags & GRE_KEY ? 4u : 0u) + (flags & GRE_SEQUENCE ? 4u : 0u);
    place->type = number_at(gre + GRE_TYPE);
    if (place->type == ETH_P_TEB) enter_ethernet(frame, place);
}

/* Goes on from what a packet carries to the network header of the packet in it, if it is a tunnel. */
static __always_inline void enter_tunnel(const struct frame *frame, struct place *place) {
    switch (place->type) {
    case IPPROTO_IPIP: place->type = ETH_P_IP; break;
    case IPPROTO_IPV6: place->type = ETH_P_IPV6; break;
    case IPPROTO_UDP: enter_vxlan(frame, place); break;
    case IPPROTO_GRE: enter_gre(frame, place); break;
    default: place->type = 0;
    }
}

/* Addresses, and ports where the hash has them. Frames without IP have their MAC addresses, of `ethernet`. */
static __always_inline uint64_t add_headers(const struct frame *frame, const uint32_t *ethernet, const struct place *place, enum hash way,
                                            uint64_t start) {
    uint64_t hash = start, inner_hash = start;
    uint32_t ports;
    struct place carried = {0, 0}, inner, in_inner = {0, 0};
    bool has_addresses = add_addresses(frame, place, &hash, &carried);
    if (way == HASH_ENCAP3_4 && carried.type != 0) {
        inner = carried;
        enter_tunnel(frame, &inner);
        if (add_addresses(frame, &inner, &inner_hash, &in_inner)) {
            hash = inner_hash;
            carried = in_inner;
        }
    }
    if (way == HASH_LAYER2_3 || !has_addresses) hash = add_words(hash, ethernet, 3);
    bool has_ports = carried.type == IPPROTO_TCP || carried.type == IPPROTO_UDP || carried.type == IPPROTO_SCTP;
    if (way != HASH_LAYER2_3 && has_ports && read_octets(frame, carried.at, &ports, sizeof ports)) hash = add_words(hash, &ports, 1);
    return hash;
}

/* The VLAN of the outer tag, or 0, and the source. */
static __always_inline uint64_t add_vlan_and_source(const union header *ethernet, uint16_t tag, uint64_t hash) {
    union header first;
    first.octets[0] = ethernet->octets[SOURCE];
    first.octets[1] = ethernet->octets[SOURCE + 1];
    first.octets[2] = (uint8_t)((tag & VLAN) >> 8);
    first.octets[3] = (uint8_t)tag;
    hash = add_words(hash, ethernet->words + 2, 1);
    return add_words(hash, first.words, 1);
}

/* The number of a conversation that a hash has. */
static __always_inline uint32_t conversation_in(uint64_t hash) {
    hash ^= hash >> 16;
    hash ^= hash >> 8;
    return (uint32_t)hash % CONVERSATIONS;
}

#endif
