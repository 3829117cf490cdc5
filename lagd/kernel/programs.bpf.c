/* The programs that the kernel runs for frames. Where it passes data on by itself: one where frames leave the TAP device, one where
 * frames come in at a member, and one where these come in at the TAP device. Else: one that keeps data from the stack of a member. */
#include <linux/bpf.h>
#include <linux/if_packet.h>
#include <linux/in.h>
#include <linux/pkt_cls.h>
#include <stddef.h>
#include <stdint.h>

#include <bpf/bpf_endian.h>
#include <bpf/bpf_helpers.h>

struct frame {
    struct __sk_buff *skb;
};

#include "../hash.h"

/* What a program answers: the kernel goes on with the frame, or loses it. */
#define GO_ON TC_ACT_UNSPEC
#define LOSE TC_ACT_SHOT
/* The most frames that wait for the daemon: fewer than the queue of the TAP device has room for. */
#define MOST_LEFT (HOST_QUEUE - 96)

/* What the daemon sets before a program is loaded. */
const volatile uint64_t way = HASH_LAYER2; /* of enum hash */
const volatile uint64_t hash_seed = 0;
const volatile uint64_t all_queues = 0; /* whether members keep their queues */

struct {
    __uint(type, BPF_MAP_TYPE_ARRAY);
    __uint(map_flags, BPF_F_MMAPABLE);
    __uint(max_entries, CONVERSATIONS);
    __type(key, uint32_t);
    __type(value, struct fast_row);
} rows SEC(".maps");

struct {
    __uint(type, BPF_MAP_TYPE_ARRAY);
    __uint(map_flags, BPF_F_MMAPABLE);
    __uint(max_entries, MOST_MEMBERS);
    __type(key, uint32_t);
    __type(value, struct fast_member);
} members SEC(".maps");

struct {
    __uint(type, BPF_MAP_TYPE_ARRAY);
    __uint(map_flags, BPF_F_MMAPABLE);
    __uint(max_entries, 1);
    __type(key, uint32_t);
    __type(value, struct fast_host);
} hosts SEC(".maps");

struct {
    __uint(type, BPF_MAP_TYPE_ARRAY);
    __uint(map_flags, BPF_F_MMAPABLE);
    __uint(max_entries, PLACES);
    __type(key, uint32_t);
    __type(value, struct fast_place);
} places SEC(".maps");

static __always_inline bool read_octets(const struct frame *frame, uint64_t at, void *octets, uint32_t count) {
    return bpf_skb_load_bytes(frame->skb, (uint32_t)at, octets, count) == 0;
}

/* What is kept for the host, or NULL. */
static __always_inline struct fast_host *find_host(void) {
    const uint32_t key = 0;
    return bpf_map_lookup_elem(&hosts, &key);
}

/* What the tables have, read once: the daemon writes there, too. */
static __always_inline uint64_t now_in(const uint64_t *at) {
    return *(const volatile uint64_t *)at;
}

/* The compiler may not join two of these into one whose place it computes: without CAP_PERFMON the kernel takes no such program. */
static __always_inline void add_to(uint64_t *at, uint64_t more) {
    __sync_fetch_and_add(at, more);
    barrier();
}

/* The hash of a frame, as hash.c has it. A tag that the kernel keeps beside the frame is the first one. */
static __always_inline uint64_t hash_of(const struct frame *frame, const union header *ethernet) {
    const uint64_t start = HASH_START ^ hash_seed, type = number_at(ethernet->octets + 2 * ETH_ALEN);
    const bool beside = frame->skb->vlan_present;
    struct place place = {ETH_HLEN, type};
    uint8_t tag[2] = {0};
    if (way == HASH_VLAN_SRCMAC) {
        if (!beside && is_tag(type)) (void)read_octets(frame, ETH_HLEN, tag, sizeof tag);
        return add_vlan_and_source(ethernet, beside ? (uint16_t)frame->skb->vlan_tci : number_at(tag), start);
    }
    skip_tags(frame, &place, beside);
    return add_headers(frame, ethernet->words, &place, (enum hash)way, start);
}

static __always_inline uint32_t conversation_of(const struct frame *frame, const union header *ethernet) {
    if (way == HASH_LAYER2) return ethernet->octets[ETH_ALEN - 1] ^ ethernet->octets[2 * ETH_ALEN - 1];
    return conversation_in(hash_of(frame, ethernet));
}

/* Whether the frame, or with `how` a segment of it with its headers, is too long for an interface, or for that where it came in if this is
 * 0. A tag that stands in it, behind a type of it, does not count. */
static __always_inline bool is_too_long(struct __sk_buff *skb, uint32_t interface, uint16_t type, uint64_t how) {
    uint32_t mtu = 0;
    return bpf_check_mtu(skb, interface, &mtu, is_tag(type) ? -TAG_OCTETS : 0, how) != 0;
}

/* Whether the frame is of the slow protocols, or too long for a member, or one of its segments is; or the member is gone. */
static __always_inline bool is_unfit(struct __sk_buff *skb, uint32_t member, uint16_t type) {
    if (!skb->vlan_present && type == ETH_P_SLOW) return true;
    if (skb->gso_size != 0) return is_too_long(skb, member, 0, BPF_MTU_CHK_SEGS);
    return is_too_long(skb, member, type, 0);
}

/* Of a frame that is counted in its row: its segments, as the word has them, and whether nobody has counted them. */
struct counted {
    uint64_t segments;
    bool opaque;
};

/* Takes back what the row counted, where that names a member. */
static __always_inline void uncount(struct fast_row *row, const struct counted *counted) {
    add_to(&row->word, -counted->segments);
    if (counted->opaque) add_to(&row->opaque, -1ull);
}

/* The frame is left to the daemon, if that has room. */
static __always_inline int leave(struct fast_row *row, struct fast_host *host, const struct counted *counted) {
    if (__sync_fetch_and_add(&host->left, 1) < MOST_LEFT) return GO_ON;
    __sync_fetch_and_add(&host->left, -1);
    add_to(&host->overflowed, 1);
    add_to(&row->overflowed, counted->segments >> 32); /* the daemon subtracts it from the word */
    if (counted->opaque) add_to(&row->opaque, -1ull);
    return LOSE;
}

/* The queue of a conversation, as a mapping has it: n is queue n - 1. Where an interface has no such queue, the kernel begins again at the
 * first one. */
static __always_inline uint32_t queue_of(uint32_t conversation) {
    return (conversation & (MOST_QUEUES - 1)) + 1;
}

/* Where frames leave the TAP device: a frame of a conversation whose row names a member goes on there or is lost, any other one goes to the
 * daemon. What came from a virtual machine may have segments that nobody has counted: the row notes it before the frame counts. A frame that
 * is unfit for the member is lost: the daemon might find it fit, and would send it behind later ones. */
SEC("tc")
int sender(struct __sk_buff *skb) {
    const struct frame frame = {skb};
    struct fast_host *host = find_host();
    struct counted counted = {0, 0};
    union header ethernet;
    struct fast_row *row;
    uint32_t conversation, member;
    bool unfit;
    if (!host || bpf_ktime_get_ns() >= now_in(&host->open_until)) return LOSE;
    if (!read_octets(&frame, 0, &ethernet, ETH_HLEN)) return LOSE;
    conversation = conversation_of(&frame, &ethernet);
    row = bpf_map_lookup_elem(&rows, &conversation);
    if (!row) return LOSE;
    counted.segments = (uint64_t)(skb->gso_segs ? skb->gso_segs : 1) << 32;
    counted.opaque = skb->gso_segs == 0 && skb->gso_size != 0;
    if (counted.opaque) add_to(&row->opaque, 1);
    member = (uint32_t)__sync_fetch_and_add(&row->word, counted.segments);
    if (member == 0) return leave(row, host, &counted);
    unfit = is_unfit(skb, member, number_at(ethernet.octets + 2 * ETH_ALEN));
    uncount(row, &counted);
    if (unfit) {
        add_to(&host->unfit, 1);
        return LOSE;
    }
    add_to(&row->passed, 1);
    skb->priority = 0;
    if (all_queues) skb->queue_mapping = queue_of(conversation);
    return (int)bpf_redirect(member, 0);
}

/* Whether a frame is to a group of the link: it goes on to the stack of its member. */
static __always_inline bool is_local(struct __sk_buff *skb) {
    const struct frame frame = {skb};
    union header to;
    uint16_t group;
    if (skb->pkt_type != PACKET_MULTICAST || !read_octets(&frame, 0, &to, ETH_ALEN)) return false;
    group = number_at(to.octets + 4);
    return to.words[0] == bpf_htonl(LINK_GROUPS) && group <= MOST_LINK_GROUP && !(BRIDGE_GROUPS >> group & 1);
}

/* A frame of the slow protocols: a marker goes up behind the data, marked with the port, while data goes up. All else goes on. */
static __always_inline int take_control(struct __sk_buff *skb, const struct fast_member *member, uint32_t port) {
    const struct frame frame = {skb};
    uint8_t subtype;
    uint64_t up_to;
    if (!read_octets(&frame, SUBTYPE_AT, &subtype, sizeof subtype) || subtype != SUBTYPE_MARKER || !member) return GO_ON;
    up_to = now_in(&member->up_to);
    if (up_to == 0) return GO_ON;
    skb->mark = port;
    return (int)bpf_redirect((uint32_t)up_to, BPF_F_INGRESS);
}

/* The port of the member where a frame came in, or 0. */
static __always_inline uint32_t find_port(const struct __sk_buff *skb) {
    const uint32_t key = member_place(skb->ifindex);
    const struct fast_place *place = bpf_map_lookup_elem(&places, &key);
    const uint64_t word = place ? now_in(&place->word) : 0;
    return (uint32_t)(word >> 32) == skb->ifindex ? (uint32_t)word : 0;
}

/* Where frames come in at a member: a frame of data goes up, if it has a right length and its port collects. A tag of a VLAN stands beside
 * the frame there. */
SEC("tc")
int receiver(struct __sk_buff *skb) {
    const uint16_t type = bpf_ntohs((uint16_t)skb->protocol);
    const uint32_t port = find_port(skb), key = port - 1;
    struct fast_member *member = bpf_map_lookup_elem(&members, &key);
    uint64_t up_to;
    if (!skb->vlan_present && type == ETH_P_SLOW) return take_control(skb, member, port);
    if (is_local(skb)) return GO_ON;
    if (!member) return LOSE;
    if (skb->gso_size == 0 && is_too_long(skb, 0, type, 0)) {
        add_to(&member->wrong_length, 1);
        return LOSE;
    }
    up_to = now_in(&member->up_to);
    if (up_to == 0) {
        add_to(&member->uncollected, 1);
        return LOSE;
    }
    add_to(&member->passed_up, 1);
    return (int)bpf_redirect((uint32_t)up_to, BPF_F_INGRESS);
}

/* Where frames come in at a member whose data the daemon takes by a socket, which is before: its stack has those of the slow protocols and
 * those of its link alone, and so answers no ARP for our address. */
SEC("tc")
int dropper(struct __sk_buff *skb) {
    return skb->protocol == bpf_htons(ETH_P_SLOW) || is_local(skb) ? GO_ON : LOSE;
}

/* Where frames leave a member that keeps its queues: a frame of the daemon goes by the queue that its mark names. */
SEC("tc")
int chooser(struct __sk_buff *skb) {
    const uint32_t mark = skb->mark;
    if ((mark & ~QUEUE_BITS) != QUEUE_MARK) return GO_ON;
    skb->queue_mapping = mark & QUEUE_BITS;
    skb->mark = 0;
    return GO_ON;
}

/* Where what came up comes in at the TAP device: to whom it is addressed is seen anew, since a member has another address. A marker ends here: the
 * daemon has it already, and where nothing takes it the kernel counts it as a frame that was dropped. */
SEC("tc")
int handover(struct __sk_buff *skb) {
    const struct frame frame = {skb};
    struct fast_host *host = find_host();
    union {
        uint8_t octets[8];
        uint64_t mac;
    } to = {.mac = 0};
    uint32_t type;
    if (!skb->vlan_present && skb->protocol == bpf_htons(ETH_P_SLOW)) return LOSE;
    if (!host) return GO_ON;
    (void)read_octets(&frame, 0, &to, ETH_ALEN);
    if (to.mac == bpf_cpu_to_be64(0xffffffffffff0000))
        type = PACKET_BROADCAST;
    else if (to.octets[0] & 1)
        type = PACKET_MULTICAST;
    else
        type = to.mac == now_in(&host->mac) ? PACKET_HOST : PACKET_OTHERHOST;
    (void)bpf_skb_change_type(skb, type);
    return GO_ON;
}

char LICENSE[] SEC("license") = "GPL";
