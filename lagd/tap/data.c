/* Data: on which port each frame of the host goes, which frames wait, and what is handed up. */
#include "tap.h"

/* Has a frame wait until its conversation goes on. Where there is no room the oldest one of it is lost, or else this one. */
static void hold_frame(struct carry *carry, struct held *held, uint16_t number, const uint8_t *packet, size_t length) {
    bool kept = put_held(carry->core, held, number, carry->time, packet, length);
    uint64_t waiting;
    if (!kept && !carry->core->broken && drop_held(carry->core, held, number)) {
        carry->counts[QUEUE_FULL]++;
        kept = put_held(carry->core, held, number, carry->time, packet, length);
    }
    carry->counts[kept ? HELD_FRAMES : QUEUE_FULL]++;
    if (count_held(carry->core, held, number, &waiting) && waiting > carry->counts[LONGEST_QUEUE]) carry->counts[LONGEST_QUEUE] = waiting;
}

/* What becomes of the next frame of a conversation: it waits, there is no port for it, or it goes on the port of the conversation. */
enum offered { WAITS, LOST, GOES };

static enum offered offer_and_write_port(struct core *core, struct state *state, const struct carry *carry, struct conversation *conversation,
    uint16_t number) {
    if (carry->time < conversation->fast.not_before) return WAITS;
    struct niw_number answer = niw_offer_conversation_in_active_aggregator(&core->system, carry->active, number);
    if (answer.status == NIW_HELD) return WAITS;
    if (answer.status == NIW_NONE_DISTRIBUTING) return LOST;
    if (!is_done(core, answer.status, "niw_offer_conversation_in_active_aggregator")) return WAITS;
    conversation->home = carry->active;
    conversation->since = 0;
    if (awaits_collecting(carry, (uint16_t)answer.number)) return WAITS;
    conversation->port = (uint16_t)answer.number;
    write_port_of_conversation(state, number, conversation->port);
    return GOES;
}

static void send_by_port(struct tap_plane *tap, const struct conversation *conversation, uint8_t *packet, size_t length) {
    tap->silent_since[conversation->port - 1] = 0;
    put_data(tap, conversation->port, (uint16_t)(conversation - tap->carry->conversations), packet, length);
}

/* A frame of the host goes, if each member takes its length, it is none of the slow protocols, and none of its conversation waits. */
void accept_from_host(struct tap_plane *tap, uint8_t *packet, size_t length) {
    const uint8_t *frame = packet + head_octets();
    enum offered offered = LOST;
    uint64_t number;
    tap->carry->counts[FROM_HOST]++;
    if (length < head_octets() + ETH_HLEN
        || !is_told(tap->core, conversation_of(tap->core, frame, length - head_octets()), "niw_conversation", &number)) {
        tap->carry->counts[UNFIT]++;
        return;
    }
    struct conversation *conversation = &tap->carry->conversations[number % CONVERSATIONS];
    conversation->fast.touched = true;
    conversation->fast.taken += count_segments(packet, length);
    if (has_segments(packet)) tap->carry->counts[SEGMENTED]++;
    if (!has_right_length(packet, length, tap->device->most_mtu) || ((unsigned)frame[12] << 8 | frame[13]) == ETH_P_SLOW) {
        tap->carry->counts[UNFIT]++;
        return;
    }
    if (tap->carry->active != 0) {
        conversation->used = true;
        offered = none_held(tap->core, &tap->held, (uint16_t)number)
            ? offer_and_write_port(tap->core, tap->carry->state, tap->carry, conversation, (uint16_t)number) : WAITS;
    }
    if (offered == WAITS) hold_frame(tap->carry, &tap->held, (uint16_t)number, packet, length);
    if (offered == GOES) send_by_port(tap, conversation, packet, length);
    if (offered == LOST) tap->carry->counts[NONE_CARRIES]++;
}

/* How many frames of the peer came in an aggregator that was active, of those that come here, or by the kernel. */
uint64_t sum_frames_heard_and_follow_peer(struct plane *plane, bool counts_now) {
    struct carry *carry = plane->carry;
    if (counts_now) CALL(plane->passing->count, plane->tap);
    return carry->counts[HANDED_UP] + carry->counts[HOST_UNTAKEN];
}

void hand_up_or_follow_peer_and_tell(struct tap_plane *tap, uint32_t aggregator, uint8_t *packet, size_t length) {
    if (aggregator == tap->carry->active) {
        put_host(tap, packet, length);
        return;
    }
    tap->carry->counts[OTHER_AGGREGATOR]++;
    doubt_active_or_follow_peer(tap->carry, aggregator);
}

/* Offers the oldest frame of a conversation again, of which one waits; answers whether it left. */
static bool send_or_drop_oldest(struct tap_plane *tap, struct conversation *conversation, uint16_t number) {
    enum offered offered = tap->carry->active == 0 ? WAITS : offer_and_write_port(tap->core, tap->carry->state, tap->carry, conversation, number);
    size_t length;
    if (offered == WAITS) return false;
    conversation->fast.touched = true;
    if (offered == LOST) {
        bool dropped = drop_held(tap->core, &tap->held, number);
        tap->carry->counts[NONE_CARRIES] += dropped;
        return dropped;
    }
    uint8_t *packet = remove_held(tap->core, &tap->held, number, &length);
    if (!packet) return false;
    conversation->used = true; /* from now on it is on its way */
    send_by_port(tap, conversation, packet, length);
    return true;
}

/* Offers again what waits, of each conversation until one is held. */
static void send_held_and_pass_on(struct tap_plane *tap) {
    uint64_t unseen; /* the frames of the conversations that were not looked at yet */
    bool any_left = false;
    if (!count_all_held(tap->core, &tap->held, &unseen)) return;
    for (uint16_t number = 0; unseen > 0 && number < CONVERSATIONS; number++) {
        uint64_t left;
        any_left = !count_held(tap->core, &tap->held, number, &left) || any_left;
        unseen -= left;
        while (left > 0 && send_or_drop_oldest(tap, &tap->carry->conversations[number], number)) left--;
        if (left > 0) any_left = true;
    }
    tap->held.any_waits = any_left;
    flush_data(tap);
    CALL(tap->plane->passing->pass_on, tap);
}

void set_speed_and_carrier(struct plane *plane) {
    struct tap_plane *tap = plane->tap;
    set_speed(tap->device, sum_speeds(tap->carry, tap->members));
    if (tap->carry->active == 0 && tap->device->carrier) CALL(plane->passing->open_host, tap, false);
    set_carrier(tap->device, tap->carry->active != 0);
}

/* What goes on of the frames that come here, and the next moves. */
void choose_move_and_send(struct plane *plane) {
    struct tap_plane *tap = plane->tap;
    choose_ports_and_tell_host(plane);
    CALL(plane->passing->withdraw, tap);
    if (leave_previous(tap->carry)) send_due(tap->protocol);
    CALL(plane->passing->set_collecting, tap);
    reset_if_other_partner(&tap->carry->probe, tap->carry);
    if (tap->held.any_waits) send_held_and_pass_on(tap);
    if (tap->carry->to_balance) balance_and_send(tap->carry);
    if (tap->carry->to_balance) CALL(plane->passing->read_host, tap);
    tap->carry->to_balance = false;
}

void pass_data_tick_and_wake_ports(struct plane *plane) {
    struct tap_plane *tap = plane->tap;
    begin_carry_tick_and_announce(tap->core->printer, &tap->carry->time, &tap->device->carrier_ticks, &tap->carry->announce, tap->device);
    CALL(plane->passing->tick, tap);
    note_heard(tap->carry);
    pass_flight_tick_and_send_markers(tap);
    count_full_sockets(tap->members, tap->ports->count);
    CALL(plane->queueing->watch, tap);
    end_carry_tick_and_wake_ports(tap->carry);
}
