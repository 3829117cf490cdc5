/* Tells neighbours where this host is, once data goes another way, so that bridges learn its MAC addresses there: gratuitous ARP, and
 * unsolicited neighbour advertisements (RFC 4861, 7.2.6), of the TAP device and of what stands above it. The kernel does not do so of itself
 * for such a device. */
#include "netlink.h"
#include "tap/tap.h"

#include <linux/if_packet.h>
#include <linux/netconf.h>
#include <linux/rtnetlink.h>
#include <netinet/in.h>

/* The most frames of an announcement: so many fit into what a socket may send at once. */
#define MOST_ANNOUNCED 256
/* How often it is announced, once a second: the peer may not collect yet. */
#define TIMES 3
#define ARP_OCTETS 28
/* Of a neighbour advertisement with one option, and its parts. */
enum { ADVERTISED_OCTETS = 32, HOP_LIMIT = 255, ADVERTISEMENT = 136, FROM_ROUTER = 0x80, OVERRIDES = 0x20, TARGET_LINK_ADDRESS = 2 };

/* How many of these stand one above the other at most. */
#define MOST_LEVELS 4

/* Sends a frame by an interface, as the host does: it comes from the device with the others. One that is not taken is lost, as on a wire. */
static void send_announcement(struct announce *own, const struct announced_place *place, const uint8_t *frame, size_t length) {
    struct sockaddr_ll to = {.sll_family = AF_PACKET, .sll_ifindex = place->index};
    if (own->announced++ < MOST_ANNOUNCED) (void)sendto(own->sender, frame, length, 0, (struct sockaddr *)&to, sizeof to);
}

static void begin_frame(uint8_t *frame, const uint8_t *to, const uint8_t *from, uint16_t type) {
    memcpy(frame, to, ETH_ALEN);
    memcpy(frame + ETH_ALEN, from, ETH_ALEN);
    frame[12] = (uint8_t)(type >> 8);
    frame[13] = (uint8_t)type;
}

/* A request for an address by who has it. */
static void announce_ipv4(struct announce *own, const struct announced_place *place, const uint8_t *address) {
    static const uint8_t all[ETH_ALEN] = {0xff, 0xff, 0xff, 0xff, 0xff, 0xff}, request[] = {0, 1, 8, 0, ETH_ALEN, 4, 0, 1};
    uint8_t frame[ETH_HLEN + ARP_OCTETS] = {0}, *at = frame + ETH_HLEN;
    begin_frame(frame, all, place->mac, ETH_P_ARP);
    memcpy(at, request, sizeof request);
    memcpy(at + 8, place->mac, ETH_ALEN);
    memcpy(at + 14, address, 4);
    memcpy(at + 24, address, 4);
    send_announcement(own, place, frame, sizeof frame);
}

/* An advertisement of an address to all nodes, which overrides what they know. */
static void announce_ipv6(struct announce *own, const struct announced_place *place, const uint8_t *address) {
    static const uint8_t all[ETH_ALEN] = {0x33, 0x33, 0, 0, 0, 1}, all_nodes[16] = {0xff, 2, [15] = 1};
    static const uint8_t head[] = {0x60, 0, 0, 0, 0, ADVERTISED_OCTETS, IPPROTO_ICMPV6, HOP_LIMIT};
    uint8_t frame[ETH_HLEN + IPV6_OCTETS + ADVERTISED_OCTETS] = {0}, *ip = frame + ETH_HLEN, *at = ip + IPV6_OCTETS;
    begin_frame(frame, all, place->mac, ETH_P_IPV6);
    memcpy(ip, head, sizeof head);
    memcpy(ip + IPV6_ADDRESSES, address, 16);
    memcpy(ip + IPV6_ADDRESSES + 16, all_nodes, 16);
    at[0] = ADVERTISEMENT;
    at[4] = (uint8_t)(OVERRIDES | (place->is_router ? FROM_ROUTER : 0));
    memcpy(at + 8, address, 16);
    at[24] = TARGET_LINK_ADDRESS;
    at[25] = 1; /* of 8 octets */
    memcpy(at + 26, place->mac, ETH_ALEN);
    uint16_t sum = fold_sum(add_to_sum(htons(ADVERTISED_OCTETS + IPPROTO_ICMPV6), ip + IPV6_ADDRESSES, 32));
    memcpy(at + 2, &sum, sizeof sum);
    put_sum(at, ADVERTISED_OCTETS, 2);
    send_announcement(own, place, frame, sizeof frame);
}

static struct announced_place *place_of(struct announce *own, int index) {
    for (unsigned i = 0; i < own->place_count; i++)
        if (own->places[i].index == index) return &own->places[i];
    return NULL;
}

/* Whether an interface stands on one that is announced: what it sends goes by that. One of another namespace does not count. */
static bool is_above(const struct announce *own, const struct interface *interface) {
    bool on_one = strcmp(interface->kind, "vlan") == 0 || strcmp(interface->kind, "macvlan") == 0, is_bridge = strcmp(interface->kind, "bridge") == 0;
    for (unsigned i = 0; i < own->place_count && !(on_one && interface->elsewhere); i++)
        if ((on_one && own->places[i].index == interface->below) || (is_bridge && own->places[i].bridge == interface->index)) return true;
    return false;
}

/* The kernel told of an interface, which may stand on those that are known. */
static void read_place(const struct nlmsghdr *message, void *announce) {
    struct announce *own = announce;
    struct interface interface = read_interface(message);
    struct announced_place *place = place_of(own, interface.index);
    if (!place && interface.has_mac && own->place_count < 1 + MOST_ABOVE && is_above(own, &interface)) {
        place = &own->places[own->place_count++];
        *place = (struct announced_place){.index = interface.index};
    }
    if (!place) return;
    place->bridge = interface.master;
    if (interface.has_mac) memcpy(place->mac, interface.mac, sizeof place->mac);
}

/* The kernel told whether an interface is one of a router: hosts forget a router whose advertisement says that it is none. */
static void read_forwarding(const struct nlmsghdr *message, void *announce) {
    struct announce *own = announce;
    const int *index = value_of(attribute_of(message, sizeof(struct netconfmsg), NETCONFA_IFINDEX), sizeof *index);
    const int *forwarding = value_of(attribute_of(message, sizeof(struct netconfmsg), NETCONFA_FORWARDING), sizeof *forwarding);
    struct announced_place *place = index && forwarding ? place_of(own, *index) : NULL;
    if (!place) return;
    place->is_known = true;
    place->is_router = *forwarding != 0;
}

/* The kernel told of an address: it is announced. One of IPv6 that may be another host's is not announced. */
static void announce_address(const struct nlmsghdr *message, void *announce) {
    struct announce *own = announce;
    const struct ifaddrmsg *about = mnl_nlmsg_get_payload(message);
    if (mnl_nlmsg_get_payload_len(message) < sizeof *about) return;
    size_t octets = about->ifa_family == AF_INET ? 4 : 16;
    const uint8_t *address = value_of(attribute_of(message, sizeof *about, IFA_LOCAL), octets);
    if (!address && about->ifa_family == AF_INET6) address = value_of(attribute_of(message, sizeof *about, IFA_ADDRESS), octets);
    const struct announced_place *place = place_of(own, (int)about->ifa_index);
    if (!address || !place) return;
    if (about->ifa_family == AF_INET) announce_ipv4(own, place, address);
    if (about->ifa_family == AF_INET6 && place->is_known && !(about->ifa_flags & (IFA_F_TENTATIVE | IFA_F_DADFAILED)))
        announce_ipv6(own, place, address);
}

/* Has the kernel tell all that it has of a kind; answers whether it did. The head of an interface is longer than what other kinds want. */
static bool ask_all(struct announce *own, uint16_t what, uint8_t family, message_reader read_one) {
    union message question = message_of(what, NLM_F_DUMP, &(struct ifinfomsg){.ifi_family = family}, sizeof(struct ifinfomsg));
    return ask_list(NETLINK_ROUTE, &question, read_one, own, 0);
}

/* Finds the device, and what stands above it, level by level. */
static void find_places(struct announce *own, const struct device *device) {
    unsigned before = 0;
    memset(own->places, 0, sizeof own->places);
    own->places[0].index = device->index;
    own->place_count = read_tap_mac(device, own->places[0].mac) ? 1 : 0;
    for (unsigned level = 0; level < MOST_LEVELS && before != own->place_count; level++) {
        before = level == 0 ? 0 : own->place_count; /* the first one tells the bridge of the device alone, where that has a lower number */
        (void)ask_all(own, RTM_GETLINK, AF_UNSPEC, read_place);
    }
}

/* Announces the addresses of the device, and of what stands above it. Where the kernel has no IPv6, it does not tell who is a router, and has
 * no address. */
static void announce(struct printer *printer, struct announce *own, const struct device *device) {
    bool done = false;
    own->sender = socket(AF_PACKET, SOCK_RAW | SOCK_NONBLOCK | SOCK_CLOEXEC, 0);
    own->announced = own->place_count = 0;
    if (own->sender >= 0) find_places(own, device);
    if (own->place_count > 0) {
        (void)ask_all(own, RTM_GETNETCONF, AF_INET6, read_forwarding);
        done = ask_all(own, RTM_GETADDR, AF_UNSPEC, announce_address);
    }
    if (!done)
        (void)say(printer, LOG_WARNING | ABOUT_CARRIER, "carry %s: its addresses were not announced: %s", printer->process->settings->carry,
            strerror(errno));
    if (own->sender >= 0) close(own->sender);
}

void announce_soon(struct announce *own) {
    own->times = TIMES;
    own->wait_ticks = 0;
}

/* 100 ms passed. While the device has no carrier, nothing that is sent there goes. */
void pass_announcing_tick(struct printer *printer, struct announce *own, const struct device *device) {
    if (own->times == 0 || !has_carrier(device)) return;
    if (own->wait_ticks > 0 && --own->wait_ticks > 0) return;
    announce(printer, own, device);
    own->times--;
    own->wait_ticks = SECOND;
}
