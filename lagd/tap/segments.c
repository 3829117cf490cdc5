/* Segments of TCP. A frame of several segments that came from the host, where members get none, is cut as the kernel would cut it (generic
 * segmentation offload), which hands over fewer packets so. Frames of one stream that came in a row from a member go up as one of several
 * segments, as the kernel puts them together (generic receive offload): each packet that goes up costs a call. No frame overtakes another one,
 * and what cannot go up so goes up frame by frame. */
#include "segments.h"

#define MOST_HEADERS 256
#define LONGEST_IP 65535
/* Of the octets of IPV4_FRAGMENT: a packet that is no fragment, and becomes none. */
#define DONT_FRAGMENT 0x4000

/* The least octets of a segment with its options of TCP: Linux sends none that is shorter (TCP_MIN_SND_MSS), but for the last one. */
#define LEAST_SEGMENT 48

/* Writes into a packet the length that it has in its header of IP, and the checksum of that. */
static void write_length(uint8_t *packet, const struct tcp_packet *tcp) {
    uint8_t *ip = packet + tcp->network;
    if (has_ipv6(packet, tcp)) {
        write16(ip + IPV6_LENGTH, tcp->length - tcp->network - IPV6_OCTETS);
        return;
    }
    write16(ip + IPV4_LENGTH, tcp->length - tcp->network);
    write16(ip + IPV4_SUM, 0);
    put_sum(ip, 4 * (ip[0] & 15u), IPV4_SUM);
}

/* Reads how a packet of several segments is cut; answers whether it can be, and an honest host would send it. */
bool read_cut(const uint8_t *packet, size_t length, struct cut *cut) {
    size_t head = head_octets(), behind_ip;
    struct tcp_packet *whole = &cut->whole;
    if (length < head + ETH_HLEN) return false;
    struct virtio_net_hdr told = head_of(packet);
    *cut = (struct cut){packet, {.transport = head + told.csum_start, .length = length}, told.gso_size, 0};
    whole->network = head + ETH_HLEN + tag_octets(packet + head, length - head, ALL_TAGS);
    if (!(told.flags & VIRTIO_NET_HDR_F_NEEDS_CSUM) || told.csum_offset != TCP_SUM || cut->size == 0) return false;
    if (whole->network + IPV4_OCTETS > whole->transport || whole->transport + TCP_OCTETS > length) return false;
    unsigned version = packet[whole->network] >> 4, kind = told.gso_type & ~(unsigned)VIRTIO_NET_HDR_GSO_ECN;
    bool is_told = version == 4 ? kind == VIRTIO_NET_HDR_GSO_TCPV4 : version == 6 && kind == VIRTIO_NET_HDR_GSO_TCPV6;
    behind_ip = whole->network + (version == 4 ? 4 * (packet[whole->network] & 15u) : IPV6_OCTETS);
    whole->payload = whole->transport + 4 * ((size_t)packet[whole->transport + TCP_LENGTH] >> 4);
    if (!is_told || behind_ip < whole->network + IPV4_OCTETS
        || behind_ip > whole->transport || whole->payload < whole->transport + TCP_OCTETS || whole->payload >= length
        || cut->size + whole->payload - whole->transport < TCP_OCTETS + LEAST_SEGMENT)
        return false;
    cut->count = (uint32_t)((length - whole->payload + cut->size - 1) / cut->size);
    return true;
}

/* Writes what is of one segment into its header of TCP. The sum that stands there is that of the addresses, and of the length of all. */
static void write_tcp(const struct cut *cut, uint32_t number, uint8_t *packet, const struct tcp_packet *own) {
    uint8_t *tcp = packet + own->transport;
    uint16_t sum, length = htons((uint16_t)(own->length - own->transport)), of_all = htons((uint16_t)(cut->whole.length - own->transport));
    write32(tcp + TCP_SEQUENCE, read32(tcp + TCP_SEQUENCE) + number * (uint32_t)cut->size);
    if (number > 0) tcp[TCP_FLAGS] &= (uint8_t)~FLAG_CWR;
    if (number + 1 < cut->count) tcp[TCP_FLAGS] &= (uint8_t)~(FLAG_FIN | FLAG_PSH);
    memcpy(&sum, tcp + TCP_SUM, sizeof sum);
    sum = fold_sum((uint64_t)sum + length + (uint16_t)~of_all);
    memcpy(tcp + TCP_SUM, &sum, sizeof sum);
    put_sum(tcp, own->length - own->transport, TCP_SUM);
}

/* Makes the packet of a segment, from 0 on; answers its length. */
size_t put_segment(const struct cut *cut, uint32_t number, uint8_t *packet) {
    struct tcp_packet own = cut->whole;
    size_t head = head_octets(), from = own.payload + number * cut->size, octets = own.length - from;
    uint8_t *ip = packet + own.network;
    if (octets > cut->size) octets = cut->size;
    own.length = own.payload + octets;
    memset(packet, 0, head);
    memcpy(packet + head, cut->packet + head, own.payload - head);
    memcpy(packet + own.payload, cut->packet + from, octets);
    if (ip[0] >> 4 == 4) write16(ip + IPV4_ID, read16(ip + IPV4_ID) + (size_t)number);
    write_length(packet, &own);
    write_tcp(cut, number, packet, &own);
    return own.length;
}

/* Puts the checksum into the frame of a packet of one segment, if the host left it to a card. */
void finish_sum(uint8_t *packet, size_t length) {
    struct virtio_net_hdr told = head_of(packet);
    size_t start = head_octets() + told.csum_start, field = told.csum_offset;
    if (!(told.flags & VIRTIO_NET_HDR_F_NEEDS_CSUM) || start + field + sizeof(uint16_t) > length) return;
    put_sum(packet + start, length - start, field);
    memset(packet, 0, head_octets());
}

/* Whether a header of IP is usual, of a packet of TCP with so many octets behind it; answers the octets of the header, or 0. */
static size_t ip_octets(unsigned type, const uint8_t *ip, size_t length) {
    if (type == ETH_P_IP && length >= IPV4_OCTETS && ip[0] == 0x45 && read16(ip + IPV4_LENGTH) == length
        && read16(ip + IPV4_FRAGMENT) == DONT_FRAGMENT && ip[IPV4_PROTOCOL] == IPPROTO_TCP
        && fold_sum(add_to_sum(0, ip, IPV4_OCTETS)) == UINT16_MAX)
        return IPV4_OCTETS;
    if (type == ETH_P_IPV6 && length >= IPV6_OCTETS && ip[0] >> 4 == 6 && read16(ip + IPV6_LENGTH) == length - IPV6_OCTETS
        && ip[IPV6_NEXT] == IPPROTO_TCP)
        return IPV6_OCTETS;
    return 0;
}

/* Reads where a packet has its headers, if it may be one of several: of TCP, with a payload, and no flag that asks for something. */
static bool read_tcp(const uint8_t *packet, size_t length, struct tcp_packet *tcp) {
    size_t head = head_octets(), network = head + ETH_HLEN + tag_octets(packet + head, length - head, USUAL_TAGS), octets;
    if (has_segments(packet) || length < network) return false;
    octets = ip_octets(read16(packet + network - 2), packet + network, length - network);
    if (octets == 0 || network + octets + TCP_OCTETS > length) return false;
    *tcp = (struct tcp_packet){.network = network, .transport = network + octets, .length = length};
    tcp->payload = tcp->transport + 4 * ((size_t)packet[tcp->transport + TCP_LENGTH] >> 4);
    const uint8_t *flags = packet + tcp->transport + TCP_FLAGS;
    return tcp->payload >= tcp->transport + TCP_OCTETS && tcp->payload < length && tcp->payload <= MOST_HEADERS
        && (packet[tcp->transport + TCP_LENGTH] & 15) == 0 && (*flags & ~FLAG_PSH) == FLAG_ACK;
}

static uint64_t sum_of_pseudo_header(const uint8_t *packet, const struct tcp_packet *tcp) {
    bool six = has_ipv6(packet, tcp);
    uint64_t sum = (uint64_t)htons(IPPROTO_TCP) + htons((uint16_t)(tcp->length - tcp->transport));
    return add_to_sum(sum, packet + tcp->network + (six ? IPV6_ADDRESSES : IPV4_ADDRESSES), six ? 32 : 8);
}

/* Whether a packet is as it was sent, as the card says, or its checksum; or whether that is still to be made. */
static bool is_as_sent(const uint8_t *packet, const struct tcp_packet *tcp) {
    struct virtio_net_hdr told = head_of(packet);
    if (told.flags & VIRTIO_NET_HDR_F_NEEDS_CSUM) return told.csum_start + head_octets() == tcp->transport && told.csum_offset == TCP_SUM;
    if (told.flags & VIRTIO_NET_HDR_F_DATA_VALID) return true;
    return fold_sum(add_to_sum(sum_of_pseudo_header(packet, tcp), packet + tcp->transport, tcp->length - tcp->transport)) == UINT16_MAX;
}

static bool is_same(const uint8_t *one, const uint8_t *other, size_t from, size_t to) {
    return memcmp(one + from, other + from, to - from) == 0;
}

/* Whether the headers of two packets differ in nothing but what differs between segments. */
static bool has_same_headers(const uint8_t *one, const uint8_t *other, const struct tcp_packet *tcp) {
    size_t ip = tcp->network, at = tcp->transport;
    bool same = has_ipv6(one, tcp) ? is_same(one, other, ip, ip + IPV6_LENGTH) && is_same(one, other, ip + IPV6_NEXT, at)
        : is_same(one, other, ip, ip + IPV4_LENGTH) && is_same(one, other, ip + IPV4_FRAGMENT, ip + IPV4_SUM)
            && is_same(one, other, ip + IPV4_ADDRESSES, at);
    return same && is_same(one, other, head_octets(), ip) && is_same(one, other, at, at + TCP_SEQUENCE)
        && is_same(one, other, at + TCP_ACKNOWLEDGED, at + TCP_FLAGS) && is_same(one, other, at + TCP_WINDOW, at + TCP_SUM)
        && is_same(one, other, at + TCP_URGENT, tcp->payload);
}

static bool continues_stream(const struct gro *own, const uint8_t *packet, const struct tcp_packet *tcp) {
    const uint8_t *first = own->packets[0].iov_base;
    struct tcp_packet alone = own->all;
    alone.length = own->packets[0].iov_len;
    return own->open && own->count < BATCH && tcp->network == alone.network && tcp->transport == alone.transport && tcp->payload == alone.payload
        && read32(packet + tcp->transport + TCP_SEQUENCE) == own->next && tcp->length <= alone.length
        && own->all.length + tcp->length - tcp->payload - alone.network <= LONGEST_IP && has_same_headers(first, packet, tcp)
        && (own->count > 1 || is_as_sent(first, &alone)) && is_as_sent(packet, tcp);
}

/* Hands up as one what waits; answers whether the device took it. */
static bool give_all(const struct core *core, int fd, const struct gro *own) {
    const struct tcp_packet *all = &own->all;
    const uint8_t *first = own->packets[0].iov_base, *last = own->packets[own->count - 1].iov_base;
    bool six = has_ipv6(first, all);
    struct virtio_net_hdr told = {.flags = VIRTIO_NET_HDR_F_NEEDS_CSUM, .gso_type = six ? VIRTIO_NET_HDR_GSO_TCPV6 : VIRTIO_NET_HDR_GSO_TCPV4,
        .hdr_len = (uint16_t)(all->payload - head_octets()), .gso_size = (uint16_t)(own->packets[0].iov_len - all->payload),
        .csum_start = (uint16_t)(all->transport - head_octets()), .csum_offset = TCP_SUM};
    uint8_t headers[MOST_HEADERS];
    struct iovec parts[1 + BATCH] = {{headers, all->payload}};
    memcpy(headers, first, all->payload);
    memcpy(headers, &told, sizeof told);
    write_length(headers, all);
    uint16_t sum = fold_sum(sum_of_pseudo_header(headers, all));
    memcpy(headers + all->transport + TCP_SUM, &sum, sizeof sum);
    headers[all->transport + TCP_FLAGS] |= last[all->transport + TCP_FLAGS];
    for (unsigned i = 0; i < own->count; i++) {
        uint8_t *packet = own->packets[i].iov_base;
        parts[1 + i] = (struct iovec){packet + all->payload, own->packets[i].iov_len - all->payload};
    }
    return give_host(core, fd, parts, 1 + own->count, all->length);
}

void flush_host(struct tap_plane *tap) {
    struct gro *own = &tap->gro;
    unsigned given = own->count > 1 && give_all(tap->core, tap->host.tap, own) ? own->count : 0, first = given;
    for (unsigned i = first; i < own->count; i++) given += give_host(tap->core, tap->host.tap, &own->packets[i], 1, own->packets[i].iov_len);
    tap->carry->counts[HANDED_UP] += given;
    tap->carry->counts[HOST_UNTAKEN] += own->count - given;
    own->count = 0;
}

/* Puts a packet behind those that wait to go up. It stays where it is until flush_host. */
void put_host(struct tap_plane *tap, uint8_t *packet, size_t length) {
    struct gro *own = &tap->gro;
    struct tcp_packet tcp;
    bool joins = read_tcp(packet, length, &tcp);
    if (own->count > 0 && !(joins && continues_stream(own, packet, &tcp))) flush_host(tap);
    if (joins && own->count == 0) own->all = tcp;
    if (joins && own->count > 0) own->all.length += length - tcp.payload;
    own->packets[own->count++] = (struct iovec){packet, length};
    own->open = joins && length == own->packets[0].iov_len && !(packet[tcp.transport + TCP_FLAGS] & FLAG_PSH);
    if (joins) own->next = read32(packet + tcp.transport + TCP_SEQUENCE) + (uint32_t)(length - tcp.payload);
}
