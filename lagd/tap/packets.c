/* Packets: a frame, and before it the virtio_net_hdr by which the kernel tells what was left to a card: how the frame is cut into
 * segments, and where its checksum is still to be put. */
#include "segments.h"

#include <sys/mman.h>

/* The octets of a packet of several segments, without its head: those of an IP packet, and of its header of Ethernet with two tags. */
#define LONGEST_SEGMENTED (65536 + ETH_HLEN + USUAL_TAGS * TAG_OCTETS)
/* The octets of most packets, and more. */
#define USUAL_OCTETS 2048
#define UDP_OCTETS 8

static const size_t head = sizeof(struct virtio_net_hdr);

size_t head_octets(void) {
    return head;
}

size_t packet_room(void) {
    return head + LONGEST_SEGMENTED;
}

/* How far rooms lie apart: no multiple of 64 KiB, or the beginnings of all packets would share a few lines of a cache. */
static size_t room_octets(void) {
    return packet_room() + TAG_OCTETS + USUAL_OCTETS;
}

/* Room for as many packets as are taken at once, each with TAG_OCTETS before it. The pages of it are in memory once they are used. */
uint8_t *make_rooms_or_stop(void) {
    size_t size = BATCH * room_octets();
    uint8_t *rooms = mmap(NULL, size, PROT_READ | PROT_WRITE, MAP_PRIVATE | MAP_ANONYMOUS, -1, 0);
    if (rooms == MAP_FAILED) stop(REFUSED, "no room for frames", strerror(errno));
    return rooms;
}

uint8_t *room_at(uint8_t *rooms, unsigned number) {
    return rooms + number * room_octets() + TAG_OCTETS;
}

bool has_segments(const uint8_t *packet) {
    return head_of(packet).gso_type != VIRTIO_NET_HDR_GSO_NONE;
}

/* The octets of a frame of several segments before their data: up to the checksum that is still to be made, which stands in the header of
 * TCP or UDP, and that header. (`hdr_len` of the kernel may have data, too.) */
static size_t octets_before(const uint8_t *packet, size_t length) {
    struct virtio_net_hdr told = head_of(packet);
    unsigned kind = told.gso_type & ~(unsigned)VIRTIO_NET_HDR_GSO_ECN;
    size_t at = head + told.csum_start;
    if (!(told.flags & VIRTIO_NET_HDR_F_NEEDS_CSUM) || at + TCP_OCTETS > length) return told.hdr_len;
    if (kind != VIRTIO_NET_HDR_GSO_TCPV4 && kind != VIRTIO_NET_HDR_GSO_TCPV6) return told.csum_start + UDP_OCTETS;
    return told.csum_start + 4 * ((size_t)packet[at + TCP_LENGTH] >> 4);
}

uint32_t count_segments(const uint8_t *packet, size_t length) {
    struct virtio_net_hdr told = head_of(packet);
    size_t before = head + octets_before(packet, length);
    if (told.gso_type == VIRTIO_NET_HDR_GSO_NONE || told.gso_size == 0 || length <= before) return 1;
    return (uint32_t)((length - before + told.gso_size - 1) / told.gso_size);
}

size_t tag_octets(const uint8_t *frame, size_t length, size_t most) {
    size_t octets = 0;
    while (octets / TAG_OCTETS < most && ETH_HLEN + octets + TAG_OCTETS <= length) {
        uint16_t type = read16(frame + 12 + octets);
        if (type != ETH_P_8021Q && type != ETH_P_8021AD) break;
        octets += TAG_OCTETS;
    }
    return octets;
}

/* Whether a frame has a header, and its payload behind tags, or that of each of its segments, has so many octets at most. A bridge before
 * the TAP device looks at no segment. */
bool has_right_length(const uint8_t *packet, size_t length, uint32_t mtu) {
    if (length < head + ETH_HLEN) return false;
    size_t octets = has_segments(packet) ? octets_before(packet, length) + head_of(packet).gso_size : length - head;
    return octets <= ETH_HLEN + tag_octets(packet + head, length - head, USUAL_TAGS) + (size_t)mtu;
}

/* Puts a tag back into the frame of a packet, which has TAG_OCTETS before it; answers where the packet begins then. */
uint8_t *put_tag(uint8_t *packet, uint16_t type, uint16_t tag) {
    struct virtio_net_hdr told = head_of(packet);
    uint8_t *at = packet - TAG_OCTETS, *frame = at + head;
    memmove(at, packet, head + 2 * ETH_ALEN);
    write16(frame + 12, type);
    write16(frame + 14, tag);
    if (told.hdr_len > 0) told.hdr_len = (uint16_t)(told.hdr_len + TAG_OCTETS);
    if (told.flags & VIRTIO_NET_HDR_F_NEEDS_CSUM) told.csum_start = (uint16_t)(told.csum_start + TAG_OCTETS);
    memcpy(at, &told, sizeof told);
    return at;
}
