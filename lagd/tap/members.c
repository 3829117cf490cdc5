/* Members: a packet socket of each for data and markers, and what is sent there many at a time. */
#include "control.h"

#include <linux/filter.h>
#include <linux/if_packet.h>
#include <linux/virtio_net.h>
#include <netinet/in.h>

/* Of the frames that wait in a socket. */
#define SOCKET_ROOM (8 << 20)
/* How many batches of a member are taken before its port is held. */
#define MOST_DRAINED 64

static const char *const SOCKET_NAMES[SOCKETS] = {"data", "markers", "direct"};

/* Whether the interface of a member is taken up. */
static bool is_open(const struct member *member) {
    return member->sockets[DATA] >= 0;
}

static struct member *member_of(struct tap_plane *tap, const struct link *link) {
    return &tap->members[link - tap->ports->links];
}

static bool attach_filter(int fd, struct sock_filter *code, unsigned short count) {
    struct sock_fprog wanted = {count, code};
    return setsockopt(fd, SOL_SOCKET, SO_ATTACH_FILTER, &wanted, sizeof wanted) == 0;
}

/* Lets a socket have data and markers, or all slow protocols but markers: so a marker comes in one row with the data before it, and no
 * flood of data costs an LACPDU. What concerns the member alone is no data. */
static bool filter_markers(int fd, bool with_data) {
    const uint32_t taken = with_data ? UINT32_MAX : 0;
    struct sock_filter code[] = {
        BPF_STMT(BPF_LD | BPF_H | BPF_ABS, 2 * ETH_ALEN),
        BPF_JUMP(BPF_JMP | BPF_JEQ | BPF_K, ETH_P_SLOW, 0, 3),
        BPF_STMT(BPF_LD | BPF_B | BPF_ABS, SUBTYPE_AT),
        BPF_JUMP(BPF_JMP | BPF_JEQ | BPF_K, SUBTYPE_MARKER, 0, 11),
        BPF_STMT(BPF_RET | BPF_K, taken), /* a marker */
        BPF_STMT(BPF_LD | BPF_W | BPF_ABS, 0),
        BPF_JUMP(BPF_JMP | BPF_JEQ | BPF_K, LINK_GROUPS, 0, 7),
        BPF_STMT(BPF_LD | BPF_H | BPF_ABS, 4),
        BPF_JUMP(BPF_JMP | BPF_JGT | BPF_K, MOST_LINK_GROUP, 5, 0),
        BPF_STMT(BPF_MISC | BPF_TAX, 0),
        BPF_STMT(BPF_LD | BPF_IMM, 1),
        BPF_STMT(BPF_ALU | BPF_LSH | BPF_X, 0),
        BPF_JUMP(BPF_JMP | BPF_JSET | BPF_K, BRIDGE_GROUPS, 1, 0),
        BPF_STMT(BPF_RET | BPF_K, 0), /* of the link */
        BPF_STMT(BPF_RET | BPF_K, taken), /* data */
        BPF_STMT(BPF_RET | BPF_K, ~taken), /* another of the slow protocols */
    };
    return attach_filter(fd, code, sizeof code / sizeof code[0]);
}

/* Lets a socket of the TAP device have the markers that a program marked with the number of a port; with 0, let a socket have nothing. */
static bool filter_by_mark(int fd, uint16_t port) {
    struct sock_filter code[] = {
        BPF_STMT(BPF_LD | BPF_W | BPF_ABS, (uint32_t)(SKF_AD_OFF + SKF_AD_MARK)),
        BPF_JUMP(BPF_JMP | BPF_JEQ | BPF_K, port, 0, 3),
        BPF_STMT(BPF_LD | BPF_W | BPF_ABS, (uint32_t)(SKF_AD_OFF + SKF_AD_PROTOCOL)),
        BPF_JUMP(BPF_JMP | BPF_JEQ | BPF_K, ETH_P_SLOW, 0, 1),
        BPF_STMT(BPF_RET | BPF_K, port > 0 ? UINT32_MAX : 0),
        BPF_STMT(BPF_RET | BPF_K, 0),
    };
    return attach_filter(fd, code, sizeof code / sizeof code[0]);
}

static void set_buffer(int fd, int forced, int plain) {
    if (setsockopt(fd, SOL_SOCKET, forced, &(int){SOCKET_ROOM}, sizeof(int)) < 0)
        (void)setsockopt(fd, SOL_SOCKET, plain, &(int){SOCKET_ROOM}, sizeof(int));
}

static bool set_packet(int fd, int what, int value) {
    return setsockopt(fd, SOL_PACKET, what, &value, sizeof value) == 0;
}

/* Has what is sent go round a queueing discipline that does not keep the order: fq_codel has a queue for each flow, and a marker would
 * overtake the data before it. */
static bool set_bypass(int fd, const struct guard *guard) {
    return set_packet(fd, PACKET_QDISC_BYPASS, !guard->in_order);
}

/* What the socket for data has more: room, frames to all addresses, and a head before each frame. */
static bool set_up_promiscuous_socket(int fd, int index, const struct guard *guard) {
    struct packet_mreq all = {index, PACKET_MR_PROMISC, 0, {0}};
    set_buffer(fd, SO_RCVBUFFORCE, SO_RCVBUF);
    set_buffer(fd, SO_SNDBUFFORCE, SO_SNDBUF);
    return set_bypass(fd, guard) && set_packet(fd, PACKET_VNET_HDR, 1) && setsockopt(fd, SOL_PACKET, PACKET_ADD_MEMBERSHIP, &all, sizeof all) == 0;
}

/* Opens a socket of a member; answers it, or -errno. One for all protocols has markers before the filters and bridges of an administrator,
 * which may take frames away there. Where the kernel hands up what comes, nothing comes by that for data. */
static int open_promiscuous_or_marker_socket(struct store *store, const struct inherited *inherited, int epoll_file, int device_index,
    const struct link *link, const struct guard *guard, enum socket_kind kind) {
    int index = kind == MARKERS ? device_index : link->index;
    struct sockaddr_ll address = {.sll_family = AF_PACKET, .sll_protocol = htons(kind == DIRECT ? ETH_P_SLOW : ETH_P_ALL), .sll_ifindex = index};
    int fd = packet_socket(store, inherited, SOCKET_NAMES[kind], link->index, index, SOCK_RAW);
    bool only_sends = kind == DATA && guard->fast, filtered;
    if (fd < 0) return fd;
    (void)set_packet(fd, PACKET_IGNORE_OUTGOING, 1);
    if (only_sends || kind == MARKERS)
        filtered = filter_by_mark(fd, only_sends ? 0 : link->settings.number);
    else
        filtered = filter_markers(fd, true);
    if (filtered && (kind != DATA || set_up_promiscuous_socket(fd, index, guard)) && set_packet(fd, PACKET_AUXDATA, 1)
        && bind(fd, (struct sockaddr *)&address, sizeof address) == 0
        && (only_sends || await_input(epoll_file, fd, MEMBERS + link->settings.number - 1u))) {
        put_stored(store, SOCKET_NAMES[kind], link->index, fd);
        return fd;
    }
    close_stored(store, SOCKET_NAMES[kind], link->index, fd);
    return last_fault();
}

static void close_all_sockets(struct store *store, const struct link *link, struct member *member) {
    for (enum socket_kind kind = DATA; kind < SOCKETS; kind++) {
        if (member->sockets[kind] >= 0) close_stored(store, SOCKET_NAMES[kind], link->index, member->sockets[kind]);
        member->sockets[kind] = -1;
    }
}

/* An interface is no member any more, and has what it had before. */
static void release_member(struct store *store, int folder, struct fast_programs *fast, const struct link *link, struct member *member) {
    close_all_sockets(store, link, member);
    close_guard(store, folder, fast, link, &member->guard);
}

/* Opens the sockets of a member whose programs run; answers 0, or -errno, and then it is no member any more. */
static int open_sockets_or_release(struct tap_plane *tap, const struct link *link, struct member *member) {
    for (enum socket_kind kind = DATA; kind < (member->guard.fast ? SOCKETS : MARKERS); kind++) {
        int opened = member->sockets[kind] = open_promiscuous_or_marker_socket(&tap->process->store, tap->process->inherited,
            tap->process->epoll_file, tap->device->index, link, &member->guard, kind);
        if (opened >= 0) continue;
        release_member(&tap->process->store, tap->process->folder, &tap->fast, link, member);
        return opened;
    }
    begin_queues(&tap->queues[link->settings.number - 1], member->guard.queues);
    return 0;
}

static int open_member(struct plane *plane, struct link *link) {
    struct tap_plane *tap = plane->tap;
    struct member *member = member_of(tap, link);
    if (!filter_markers(link->socket, false)) return last_fault();
    open_guard(tap, link, &member->guard);
    member->has_marker = false;
    return open_sockets_or_release(tap, link, member);
}

/* Frames that came while the socket was full. */
static void count_socket_losses(struct member *member) {
    struct tpacket_stats stats = {0};
    socklen_t length = sizeof stats;
    if (is_open(member) && getsockopt(member->sockets[DATA], SOL_PACKET, PACKET_STATISTICS, &stats, &length) == 0)
        member->counts[SOCKET_FULL] += stats.tp_drops;
}

/* The programs and sockets of a member are chosen anew; answers whether it is still taken up. */
static bool withdraw_and_renew_member_or_end(struct tap_plane *tap, struct link *link) {
    struct member *member = member_of(tap, link);
    CALL(tap->plane->passing->withdraw_port_or_end, tap, link->settings.number);
    count_socket_losses(member);
    close_all_sockets(&tap->process->store, link, member);
    renew_guard(tap, link, &member->guard);
    tap->plane->changed = true;
    return open_sockets_or_release(tap, link, member) == 0;
}

static bool tell_and_renew_or_end(struct tap_plane *tap, struct link *link) {
    (void)say(tap->core->printer, LOG_NOTICE | ABOUT_DATA, "port %u %s: its queues were changed", link->settings.number, link->name);
    return withdraw_and_renew_member_or_end(tap, link);
}

/* The interface has another queueing discipline: how data is sent is seen anew. Answers whether the member is still taken up. */
bool read_discipline_and_renew_or_end(struct plane *plane, struct link *link) {
    char before[DISCIPLINE_ROOM];
    memcpy(before, link->discipline, sizeof before);
    if (!read_discipline(link->index, link->discipline) || strcmp(before, link->discipline) == 0) return true;
    return ASK(plane->carrying->renew, true, plane, link);
}

static bool renew_for_discipline_or_end(struct plane *plane, struct link *link) {
    struct tap_plane *tap = plane->tap;
    struct member *member = member_of(tap, link);
    if (!is_open(member)) return true;
    if (plane->renews) return withdraw_and_renew_member_or_end(tap, link);
    give_fifos_and_note_order(tap->core->printer, plane, link, &member->guard);
    return set_bypass(member->sockets[DATA], &member->guard);
}

void set_mac_and_move_kept(struct plane *plane, struct link *link, const uint8_t *mac) {
    if (memcmp(link->mac, mac, sizeof link->mac) == 0) return;
    CALL(plane->carrying->move, plane, link, mac);
    memcpy(link->mac, mac, sizeof link->mac);
}

/* What a member had before it was one stays known by its new MAC address, also where this daemon is killed. */
static void move_kept_of_member(struct plane *plane, struct link *link, const uint8_t *mac) {
    const struct member *member = member_of(plane->tap, link);
    if (!is_open(member)) return;
    move_kept_queues(plane->tap->core->printer, plane->tap->process->folder, link, mac);
    write_kept_member(plane->tap->core->printer, plane->tap->process->folder, link, &member->guard.before);
}

/* A queueing discipline of an interface changed: where each queue has one of the daemon, others may have put another one there, or taken theirs. */
static bool read_queues_and_renew_member_or_end(struct tap_plane *tap, struct link *link) {
    struct member *member = member_of(tap, link);
    bool kept = link->has_fifos ? all_queues_keep_order(link->index) : member->guard.in_order || !may_all_queues_keep_order(link->index);
    if (!is_open(member) || kept) return true;
    return tell_and_renew_or_end(tap, link);
}

/* Each second a member is taken up anew whose queues others changed, or that has the number of queues of the others by now. */
static void watch_queues_renew_or_lose_or_end(struct tap_plane *tap) {
    if (tap->protocol->ticks % SECOND != 0) return;
    EACH_LINK(link, tap->ports) {
        const struct member *member = member_of(tap, link);
        if (!is_open(member)) continue;
        bool changed = is_changed_by_others(seconds_since(tap->protocol->began), link, &member->guard);
        if (!changed && !(member->guard.unusual && choose_usual_queues(&tap->usual_queues, tap->members, tap->ports->count, member->guard.queues))) continue;
        if (!(changed ? tell_and_renew_or_end(tap, link) : withdraw_and_renew_member_or_end(tap, link))) lose_link_and_ask_again(tap->protocol, link);
    }
}

unsigned member_queues(const struct member *member) {
    return is_open(member) ? member->guard.queues : 0;
}

bool is_fast(const struct member *member) {
    return is_open(member) && member->guard.fast;
}

void count_full_sockets(struct member *members, uint16_t count) {
    for (uint16_t i = 0; i < count; i++) count_socket_losses(&members[i]);
}

static void withdraw_and_release_member_or_end(struct plane *plane, const struct link *link) {
    struct tap_plane *tap = plane->tap;
    struct member *member = member_of(tap, link);
    if (!is_open(member)) return;
    withdraw_and_drop_answers(plane, link);
    count_socket_losses(member);
    release_member(&tap->process->store, tap->process->folder, &tap->fast, link, member);
}

static void clear_counts_mtu_and_speed(struct plane *plane, const struct link *link) {
    struct member *member = member_of(plane->tap, link);
    memset(member->counts, 0, sizeof member->counts);
    member->mtu = member->megabits = 0;
    member->has_marker = false;
}

/* The program ends, by whatever it is refused, and no other one goes on: its members get what they had. */
void put_back_members(int status UNUSED, void *given) {
    struct tap_plane *tap = given;
    EACH_LINK(link, tap->ports) {
        struct member *member = member_of(tap, link);
        if (!tap->process->has_left && is_open(member)) release_member(&tap->process->store, tap->process->folder, &tap->fast, link, member);
    }
}

/* The TAP device takes what each member takes; 0: there is no such member any more. */
static void follow_member_mtu(struct plane *plane, const struct link *link, uint32_t mtu) {
    struct tap_plane *tap = plane->tap;
    uint32_t least = UINT32_MAX;
    if (member_of(tap, link)->mtu == mtu) return;
    member_of(tap, link)->mtu = mtu;
    for (uint16_t i = 0; i < tap->ports->count; i++) {
        uint32_t most = tap->members[i].mtu;
        if (most > 0 && most < least) least = most;
    }
    if (least != UINT32_MAX) limit_and_settle_tap_mtu(tap->device, least);
}

static void read_member_speed(struct plane *plane, const struct link *link) {
    uint32_t now = read_speed(link->socket, link->index).megabits;
    member_of(plane->tap, link)->megabits = now == (uint32_t)SPEED_UNKNOWN ? 0 : now;
    plane->changed = true;
}

/* How fast the ports that carry are together, in Mb/s. One whose speed is not known counts nothing; where none is, that is SPEED_UNKNOWN. */
uint32_t sum_speeds(const struct carry *carry, const struct member *members) {
    uint64_t sum = 0;
    for (uint16_t i = 0; i < carry->active_count; i++) sum += members[carry->active_ports[i] - 1].megabits;
    if (sum == 0) return (uint32_t)SPEED_UNKNOWN;
    return sum < INT32_MAX ? (uint32_t)sum : INT32_MAX;
}

/* Sends what waits for a member. A frame that the kernel does not take is lost, as on a wire. */
static void flush_member(bool *carrier_suspected, struct member *member) {
    for (unsigned at = 0; at < member->out;) {
        int sent = is_open(member) ? sendmmsg(member->sockets[DATA], member->messages + at, member->out - at, 0) : -1;
        if (sent < 0 && is_open(member) && errno == EINTR) continue;
        if (sent < 0) *carrier_suspected = true;
        member->counts[sent > 0 ? DATA_SENT : DATA_UNSENT] += sent > 0 ? (unsigned)sent : 1;
        at += sent > 0 ? (unsigned)sent : 1;
    }
    member->out = 0;
}

void flush_data(struct tap_plane *tap) {
    EACH_LINK(link, tap->ports) flush_member(&tap->protocol->changes.suspected, member_of(tap, link));
    free_left(&tap->held);
}

/* Puts a packet of a conversation behind those that wait for a port. It stays where it is until flush_data. */
void put_data(struct tap_plane *tap, uint16_t port, uint16_t number, uint8_t *packet, size_t length) {
    struct member *member = &tap->members[port - 1];
    if (member->out == BATCH) flush_member(&tap->protocol->changes.suspected, member);
    member->parts[member->out] = (struct iovec){packet, length};
    member->messages[member->out].msg_hdr = (struct msghdr){.msg_iov = &member->parts[member->out], .msg_iovlen = 1};
    CALL(tap->plane->queueing->mark, &tap->queues[port - 1], number, &member->messages[member->out].msg_hdr);
    member->out++;
}

/* Gives the kernel a marker for a member, as the message has it beside the frame; answers whether it took it. */
bool give_marker(struct core *core, const struct member *member, struct link *link, const uint8_t *marker, struct msghdr *message) {
    uint8_t sent[sizeof(struct virtio_net_hdr) + NIW_FRAME] = {0};
    struct iovec part = {sent, head_octets() + NIW_FRAME};
    message->msg_iov = &part;
    message->msg_iovlen = 1;
    memcpy(sent + head_octets(), marker, NIW_FRAME);
    memcpy(sent + head_octets() + ETH_ALEN, link->mac, ETH_ALEN);
    if (!is_open(member) || sendmsg(member->sockets[DATA], message, 0) != (ssize_t)part.iov_len) return false;
    return is_done(core, niw_count_sent(&link->counters, marker, NIW_FRAME), "niw_count_sent");
}

static bool send_by_one_queue(struct tap_plane *tap, struct link *link, const uint8_t *marker, bool again UNUSED) {
    struct msghdr message = {0};
    return give_marker(tap->core, member_of(tap, link), link, marker, &message);
}

/* Sends a marker behind the data of its port, by the same socket: by another one, of another priority, it would overtake them. What the
 * kernel passes on and no longer may is taken back before. */
static bool flush_withdraw_and_send(struct tap_plane *tap, struct link *link, const uint8_t *marker, bool again) {
    flush_member(&tap->protocol->changes.suspected, member_of(tap, link));
    CALL(tap->plane->passing->withdraw, tap);
    return tap->plane->queueing->send_marker(tap, link, marker, again);
}

void withdraw_and_send_new_marker(struct plane *plane, struct link *link, const uint8_t *frame) {
    struct tap_plane *tap = plane->tap;
    struct member *member = member_of(tap, link);
    memcpy(member->marker, frame, sizeof member->marker);
    member->has_marker = true;
    tap->carry->counts[MARKERS_SENT]++;
    (void)flush_withdraw_and_send(tap, link, member->marker, false);
}

/* Sends the last marker of a port again: a cable may repeat control frames, and may lose one. Answers whether it went. */
bool withdraw_and_repeat_marker(struct tap_plane *tap, uint16_t port) {
    const struct member *member = &tap->members[port - 1];
    return member->has_marker && flush_withdraw_and_send(tap, &tap->ports->links[port - 1], member->marker, true);
}

static void accept_only_response(struct tap_plane *tap, struct link *link, const struct arrival *arrival, uint32_t id UNUSED) {
    accept_response(tap->protocol, link, arrival);
}

/* Accepts a response to a marker of one queue: the library has the last one that was missing. */
static void accept_response_of_queue(struct tap_plane *tap, struct link *link, const struct arrival *arrival, uint32_t id) {
    uint8_t frame[NIW_FRAME];
    struct arrival last = {frame, sizeof frame, arrival->packet_type, arrival->index, arrival->tagged};
    if (!note_queue_response(&tap->queues[link->settings.number - 1], &id)) {
        uint32_t status = niw_count_received(&link->counters, arrival->frame, arrival->length, NIW_RECEIVED_RELEASED);
        (void)!is_done(tap->core, status, "niw_count_received");
        return;
    }
    memcpy(frame, arrival->frame, sizeof frame);
    set_identifier(frame, id);
    accept_response(tap->protocol, link, &last);
}

static void accept_data(struct tap_plane *tap, const struct link *link, uint8_t *packet, size_t length) {
    const uint8_t *frame = packet + head_octets();
    uint8_t response[NIW_FRAME];
    size_t shown = length - head_octets() < LONGEST_SHOWN ? length - head_octets() : LONGEST_SHOWN;
    struct niw_received received = niw_receive(&tap->core->system, link->settings.number, frame, shown, response, sizeof response);
    if (is_done(tap->core, received.status, "niw_receive") && received.what == NIW_RECEIVED_HANDED_UP)
        hand_up_or_follow_peer_and_tell(tap, received.number, packet, length);
    else
        member_of(tap, link)->counts[UNCOLLECTED]++;
}

/* Takes a packet that came: a marker alone, without a head, where the kernel hands up the data (`handed_up`). A marker goes the way of all slow
 * protocols. One that the kernel handed up to the TAP device came by its member. */
static void accept_packet(struct tap_plane *tap, struct link *link, struct mmsghdr *message, bool handed_up) {
    struct member *member = member_of(tap, link);
    const struct sockaddr_ll *from = message->msg_hdr.msg_name;
    struct tpacket_auxdata aux = aux_of(&message->msg_hdr);
    size_t head = handed_up ? 0 : head_octets(), length = message->msg_len;
    uint8_t *packet = message->msg_hdr.msg_iov->iov_base;
    bool tagged = (aux.tp_status & TP_STATUS_VLAN_VALID) != 0;
    bool slow = !tagged && length >= head + ETH_HLEN && ((unsigned)packet[head + 12] << 8 | packet[head + 13]) == ETH_P_SLOW;
    if (from->sll_pkttype == PACKET_OUTGOING) return; /* an old kernel shows what was sent */
    if (slow) {
        int index = handed_up ? link->index : from->sll_ifindex;
        flush_host(tap); /* what came before it */
        accept_frame(tap->protocol, link, &(struct arrival){packet + head, length - head, from->sll_pkttype, index, false});
        tap->plane->changed = true;
    }
    if (slow || handed_up) return;
    member->counts[DATA_RECEIVED]++;
    if (tagged) {
        packet = put_tag(packet, aux.tp_status & TP_STATUS_VLAN_TPID_VALID ? aux.tp_vlan_tpid : ETH_P_8021Q, aux.tp_vlan_tci);
        length += TAG_OCTETS;
        member->counts[RETAGGED]++;
    }
    if (aux.tp_status & TP_STATUS_CSUMNOTREADY) member->counts[WITHOUT_SUMS]++;
    if (message->msg_hdr.msg_flags & MSG_TRUNC || !has_right_length(packet, length, member->mtu != 0 ? member->mtu : ETH_DATA_LEN))
        member->counts[WRONG_LENGTH]++;
    else
        accept_data(tap, link, packet, length);
}

/* Takes the packets that wait in a socket of a member, some at most. What the kernel tells of links comes before them: what was sent after
 * a link went is not handed up before it. */
static void receive_packets_and_changes(struct tap_plane *tap, struct link *link, enum socket_kind kind) {
    struct member *member = member_of(tap, link);
    struct mmsghdr messages[BATCH];
    struct iovec parts[BATCH];
    struct sockaddr_ll from[BATCH];
    _Alignas(struct cmsghdr) uint8_t controls[BATCH][CMSG_SPACE(sizeof(struct tpacket_auxdata))];
    for (unsigned i = 0; i < BATCH; i++) {
        parts[i] = (struct iovec){room_at(tap->rooms, i), packet_room()};
        messages[i].msg_hdr = (struct msghdr){.msg_name = &from[i], .msg_namelen = sizeof from[i],
            .msg_iov = &parts[i], .msg_iovlen = 1, .msg_control = controls[i], .msg_controllen = sizeof controls[i]};
    }
    int got = recvmmsg(member->sockets[kind], messages, BATCH, MSG_DONTWAIT, NULL);
    if (kind == DATA)
        note_unread(&tap->answers[link - tap->ports->links], got > 0 ? (unsigned)got : 0, got >= 0 ? got < BATCH : errno == EAGAIN);
    if (got < 0 && errno == EINVAL) { /* the kernel has a frame of segments that it cannot describe: it is lost */
        member->counts[DATA_RECEIVED]++;
        member->counts[WRONG_LENGTH]++;
    }
    if (got <= 0) return;
    receive_changes_or_stop(tap->protocol);
    tap->carry->taken += (unsigned)got;
    if (got == BATCH) tap->carry->more_waits = true;
    for (int i = 0; i < got; i++) accept_packet(tap, link, &messages[i], kind != DATA);
    flush_host(tap);
}

/* Takes all that waits at a member, but for a flood, before its port is held: what came before that is collected. */
static void drain_data_and_changes(struct plane *plane, struct link *link) {
    struct tap_plane *tap = plane->tap;
    bool more = is_open(member_of(tap, link));
    for (unsigned turn = 0; more && turn < MOST_DRAINED && !tap->core->broken; turn++) {
        tap->carry->more_waits = false;
        receive_data_and_changes(tap, link);
        more = tap->carry->more_waits;
    }
}

void receive_data_and_changes(struct tap_plane *tap, struct link *link) {
    const struct member *member = member_of(tap, link);
    for (enum socket_kind kind = member->sockets[MARKERS] < 0 ? DATA : MARKERS; kind < SOCKETS; kind++)
        if (member->sockets[kind] >= 0) receive_packets_and_changes(tap, link, kind);
}

static int check_tap(struct printer *printer, struct plane *plane UNUSED, const struct options *options) {
    return access("/dev/net/tun", F_OK) == 0 ? DONE : tell_lack(printer, options, "carry", "there is no /dev/net/tun", REFUSED);
}

const struct carrying TAP_DEVICE = {
    .open = open_tap_plane_or_stop, .end = end_tap_plane, .lose_device = lose_device_and_end, .keep_device = set_tap_persistence,
    .leave = drop_persistence_of_former_tap, .give_carrier = give_tap_carrier, .settle_mtu = settle_tap_mtu, .add = open_member,
    .remove = withdraw_and_release_member_or_end, .renew = renew_for_discipline_or_end, .move = move_kept_of_member, .follow_mtu = follow_member_mtu,
    .follow_speed = read_member_speed, .can_empty = can_empty, .empty = empty_port_and_send, .drain = drain_data_and_changes,
    .lose = withdraw_and_drop_answers, .forget = clear_counts_mtu_and_speed, .send_marker = withdraw_and_send_new_marker,
    .note_response = note_response, .settle = choose_move_and_send, .tick = pass_data_tick_and_wake_ports, .keeps_aggregator = heard_peer_lately,
    .frames_heard = sum_frames_heard_and_follow_peer, .tell_host = set_speed_and_carrier, .resume = resume_conversations_or_end,
    .go_on = settle_carry_or_lose_member, .member_of = fast_member_of, .end_resuming = release_former_members, .frames_waiting = count_frames_waiting,
    .check = check_tap, .show = show_carry, .show_member = show_member, .show_markers = show_markers, .show_waiting = show_frames_waiting,
    .end_count = CARRY_COUNTS, .member_counts = MEMBER_COUNTS, .keeps_members = true, .administers = true, .nameless = "",
};

const struct queueing ONE_QUEUE = {
    .set = set_one_queue, .send_marker = send_by_one_queue, .accept_response = accept_only_response, .answer = answer_at_once, .text = "",
    .markers_at_once = 1,
};

static int check_all_queues_or_stop(struct printer *printer, struct plane *plane UNUSED, const struct options *options) {
    return check_programs_or_stop(printer, options, "queues", false);
}

const struct queueing ALL_QUEUES = {
    .check = check_all_queues_or_stop, .start = start_all_queues_or_stop, .fifos_of = count_sending_queues, .set = set_all_queues,
    .follow = read_queues_and_renew_member_or_end, .watch = watch_queues_renew_or_lose_or_end, .mark = mark_conversation,
    .send_marker = send_by_queues, .accept_response = accept_response_of_queue, .answer = answer_later, .show = show_queues, .text = ", all queues",
    .markers_at_once = MARKERS_AT_ONCE,
};
