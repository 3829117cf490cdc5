/* The host's end of data: the TAP device, whose frames are read and written here. */
#include "tap.h"

/* The most segments of a packet that is cut at once: more than one of a usual stream has. */
#define MOST_AT_ONCE 128
/* How many segments of the others are taken in a turn, so that data of other conversations and LACP go on meanwhile. */
#define MOST_CUT 256
/* How many packets of one conversation may wait to be cut, or behind such a one. */
#define MOST_OF_ONE 16

/* The device is gone, or it is in another namespace, where interfaces of others have the numbers of our members: first of all nothing
 * is passed on any more. Then the peers are told, and the daemon ends, so that whoever started it starts it again, with a new device. */
void lose_device_and_end(struct plane *plane) {
    struct tap_plane *tap = plane->tap;
    struct host *own = &tap->host;
    if (tap->core->broken) return;
    tap->core->broken = true;
    CALL(plane->passing->end, tap);
    tap->device->index = 0;
    tap->device->carrier = false;
    drop_stored_without_closing(&tap->process->store, "tap", 0);
    if (own->tap >= 0) await_no_more(tap->process->epoll_file, own->tap);
    (void)say(tap->core->printer, LOG_ERR | ABOUT_CARRIER, "carry %s: the device was deleted, or moved to another namespace; "
        "the peers are told, and the daemon ends", tap->settings->carry);
}

bool is_cutting(const struct core *core, const struct host *own) {
    return own->count > 0 && !core->broken;
}

/* Takes up to `most` segments of a packet from this one on; answers how many. */
static unsigned cut_and_send_segments(struct tap_plane *tap, const struct cut *cut, uint32_t from, unsigned most) {
    struct host *own = &tap->host;
    unsigned taken = 0;
    for (; taken < most && from + taken < cut->count && !tap->core->broken; taken++) {
        uint8_t *packet = room_at(own->segments, taken % BATCH);
        if (taken > 0 && taken % BATCH == 0) flush_data(tap);
        accept_from_host(tap, packet, put_segment(cut, from + taken, packet));
    }
    flush_data(tap);
    return taken;
}

/* Has a packet wait behind those that do. Where there is no room for it, it is lost. */
static void wait_uncut(uint64_t counts[static CARRY_COUNTS], struct host *own, const uint8_t *packet, size_t length, uint16_t number) {
    unsigned place = (own->first + own->count) % BATCH;
    struct uncut *uncut = &own->waiting[place];
    uint8_t *room = room_at(own->rooms, place);
    if (own->count == BATCH || own->of_one[number] == MOST_OF_ONE) {
        counts[FROM_HOST]++;
        counts[QUEUE_FULL]++;
        return;
    }
    memcpy(room, packet, length);
    *uncut = (struct uncut){.number = number, .length = length};
    if (has_segments(room) && !read_cut(room, length, &uncut->cut)) uncut->cut.count = 0;
    own->of_one[number]++;
    own->count++;
}

/* Takes a packet whose segments and checksum the host left to a card, but one of more segments than are cut at once; answers how many frames it
 * has. A packet that cannot be cut has no octets. */
static unsigned cut_or_accept_packet(struct tap_plane *tap, uint8_t *packet, size_t length) {
    struct cut cut;
    if (has_segments(packet)) {
        tap->carry->counts[SEGMENTED]++;
        if (read_cut(packet, length, &cut)) return cut_and_send_segments(tap, &cut, 0, cut.count);
        length = 0;
    }
    finish_sum(packet, length);
    accept_from_host(tap, packet, length);
    return 1;
}

/* Takes of the packets that wait, the oldest ones first, so many segments at most. */
static void cut_and_send_waiting(struct tap_plane *tap, unsigned most) {
    struct host *own = &tap->host;
    for (unsigned taken = 0; taken < most && is_cutting(tap->core, &tap->host);) {
        struct uncut *uncut = &own->waiting[own->first];
        if (uncut->cut.count > 0 && uncut->next == 0) tap->carry->counts[SEGMENTED]++;
        unsigned now = uncut->cut.count > 0 ? cut_and_send_segments(tap, &uncut->cut, uncut->next, most - taken)
                                   : cut_or_accept_packet(tap, room_at(own->rooms, own->first), uncut->length);
        uncut->next += now;
        taken += now;
        if (uncut->next < uncut->cut.count) continue;
        own->of_one[uncut->number]--;
        own->first = (own->first + 1) % BATCH;
        own->count--;
    }
}

/* Takes a packet of a host that leaves segments and checksums to a card: one of more segments than are cut at once waits, and those of its
 * conversation behind it; answers how many frames it has. */
static unsigned accept_in_turn(struct tap_plane *tap, uint8_t *packet, size_t length) {
    struct cut cut;
    size_t head = head_octets();
    if (length < head + ETH_HLEN) return cut_or_accept_packet(tap, packet, length);
    bool is_long = has_segments(packet) && read_cut(packet, length, &cut) && cut.count > MOST_AT_ONCE;
    if (!is_long && !is_cutting(tap->core, &tap->host)) return cut_or_accept_packet(tap, packet, length);
    struct niw_number told = conversation_of(tap->core, packet + head, length - head);
    uint16_t number = (uint16_t)(told.number % CONVERSATIONS);
    if (told.status != NIW_OK || (!is_long && tap->host.of_one[number] == 0)) return cut_or_accept_packet(tap, packet, length);
    wait_uncut(tap->carry->counts, &tap->host, packet, length, number);
    return 1;
}

/* Takes one packet of the TAP device; answers how many frames it has, or 0 where there is none. */
static unsigned read_and_send_next(struct tap_plane *tap, uint8_t *packet) {
    if (tap->core->broken) return 0;
    ssize_t length = read(tap->host.tap, packet, packet_room());
    if (length < 0 && (errno == EBADFD || errno == EIO || errno == ENODEV)) lose_device_and_end(tap->plane);
    if (length < 0 && (tap->core->broken || errno == EAGAIN || errno == EINTR)) return 0;
    if (length >= (ssize_t)head_octets() && !tap->plane->segments) return accept_in_turn(tap, packet, (size_t)length);
    accept_from_host(tap, packet, length < 0 ? 0 : (size_t)length); /* one that cannot be read has no octets */
    return 1;
}

/* Takes the packets that wait in the TAP device, some at most, and then of those that wait to be cut. */
void read_host_and_send(struct tap_plane *tap) {
    unsigned got = 0, left = BATCH;
    for (; left > 0; got++) {
        unsigned frames = read_and_send_next(tap, room_at(tap->host.packets, got));
        if (frames == 0) break;
        tap->carry->taken += frames;
        left -= frames < left ? frames : left;
    }
    flush_data(tap);
    cut_and_send_waiting(tap, MOST_CUT);
    flush_data(tap);
    if (left == 0 || is_cutting(tap->core, &tap->host)) tap->carry->more_waits = true;
    CALL(tap->plane->passing->note_read, tap, got, left > 0);
    CALL(tap->plane->passing->pass_on, tap);
}

/* Hands a packet up, which lies in parts; answers whether the device took it. */
bool give_host(const struct core *core, int fd, const struct iovec *parts, unsigned count, size_t length) {
    return !core->broken && writev(fd, parts, (int)count) == (ssize_t)length;
}

/* Serves what is ready: a member, or the TAP device, whose frames come after what was released. */
void serve_settle_and_send(struct tap_plane *tap, uint32_t tag) {
    if (tap->core->broken) return;
    if (tag == RESPONSES) serve_answer_timer_data_and_changes(tap);
    if (tag >= MEMBERS && tag < RESPONSES) {
        receive_data_and_changes(tap, &tap->ports->links[tag - MEMBERS]);
        if (tap->plane->changed) send_due(tap->protocol);
    }
    settle_carry_or_lose_member(tap->plane);
    if (tag == HOST) read_host_and_send(tap);
}

void withdraw_and_drop_answers(struct plane *plane, const struct link *link) {
    struct tap_plane *tap = plane->tap;
    CALL(plane->passing->withdraw_port_or_end, tap, link->settings.number);
    tap->answers[link - tap->ports->links].count = 0; /* whoever asked there asks again */
}

void open_tap_plane_or_stop(struct plane *plane) {
    struct tap_plane *tap = plane->tap;
    struct host *own = &tap->host;
    own->packets = make_rooms_or_stop();
    own->segments = make_rooms_or_stop();
    own->rooms = make_rooms_or_stop();
    start_held_or_stop(tap->core, &tap->held);
    tap->rooms = make_rooms_or_stop();
    tap->dropper = load_program_or_stop(tap->settings, "dropper", NULL, NULL);
    CALL(plane->queueing->start, tap);
    need(on_exit(put_back_members, tap) == 0, "on_exit");
    own->tap = open_tap_and_drop_old_frames_or_stop(tap->device, tap->settings->carry, tap->settings->config.mac);
    stop_device_rps(tap->core->printer, tap->device->index);
    CALL(plane->passing->start, tap);
    if (!await_input(tap->process->epoll_file, own->tap, HOST)) stop(REFUSED, "epoll", strerror(errno));
}

void end_tap_plane(struct plane *plane) {
    struct tap_plane *tap = plane->tap;
    await_no_more(tap->process->epoll_file, tap->host.tap);
    CALL(plane->passing->open_host, tap, false);
    set_carrier(tap->device, false);
    remove_all_members(plane, tap->ports);
    CALL(plane->passing->end, tap);
    end_held(tap->core, &tap->held);
}

void remove_all_members(struct plane *plane, const struct ports *ports) {
    EACH_LINK_AS_IS(link, ports)
        if (link->socket >= 0) CALL(plane->carrying->remove, plane, link);
}

/* The daemon ends, or the library refused a call: no data goes or comes from here on. */
void end_carry(struct plane *plane) {
    CALL(plane->carrying->end, plane);
    choose_no_plane(plane);
}
