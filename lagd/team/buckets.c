/* The buckets of the team device: each has the frames of one conversation, and a port by which they go. The driver holds no frame. So a
 * bucket goes to another port when it was still for a flight, or at once where its port carries no more. */
#include "team.h"
#include "netlink.h"

#include <net/if.h>

/* How often all is looked at, in milliseconds: while a bucket waits for its stillness, at ticks that are not made up, and else. */
#define LOOKED_WAITING 50
#define LOOKED_EVERY 1000
/* How long the driver may take to count, in milliseconds: what no bucket has then went without one, by the queue that a frame asks for. */
#define MOST_UNCOUNTED 2000
/* How often in turn the driver may have no memory for what it is told, at each tick, and tell nothing, at each look. */
#define MOST_SHORTAGES 10
#define MOST_UNSEEN 5

int bucket_member_of(const struct plane *plane, uint16_t number) {
    return plane->team->members_at_start[number];
}

void forget_port(struct team_plane *team, uint16_t port) {
    team->passes[port - 1] = UNKNOWN;
    for (uint16_t number = 0; number < CONVERSATIONS; number++)
        if (team->buckets[number].port == port) team->buckets[number].port = 0;
    team->plane->changed = true;
}

/* A bucket that has sent is not still. What others than the daemon set is set again. */
static void note_driver(struct team_plane *team, const struct team_now *now) {
    for (uint16_t i = 0; i < team->ports->count; i++)
        for (unsigned at = 0; at < now->port_count; at++)
            if (now->ports[at] == team->ports->links[i].index && now->enabled[at] != (team->passes[i] == PASSES)) team->passes[i] = UNKNOWN;
    for (uint16_t number = 0; number < CONVERSATIONS; number++) {
        struct bucket *bucket = &team->buckets[number];
        if (bucket->port != 0 && now->members[number] != team->ports->links[bucket->port - 1].index) bucket->port = 0;
        if (bucket->octets == now->octets[number]) continue;
        bucket->octets = now->octets[number];
        bucket->moved_at = team->carry->conversations[number].last = team->carry->time;
    }
}

/* Until when all that was sent is counted. */
static void note_counted(struct team_plane *team, uint64_t sent) {
    uint64_t counted = 0;
    for (uint16_t number = 0; number < CONVERSATIONS; number++) counted += team->buckets[number].octets;
    if (counted + team->without_bucket < team->to_count) {
        if (team->carry->time - team->to_count_at < MOST_UNCOUNTED) return;
        team->without_bucket = team->to_count - counted;
    }
    team->counted_until = team->to_count_at;
    team->to_count = sent;
    team->to_count_at = team->carry->time;
}

/* Looks at what the driver has: at the device before its buckets. Where the device is gone, the kernel tells, too. */
static void look_at_driver(struct team_plane *team) {
    struct interface device;
    struct team_now now;
    team->looked_at = team->carry->time;
    if (!ask_interface(team->device->index, NULL, &device) || !read_team(team->family, team->device->index, &now)) {
        if (++team->unseen == MOST_UNSEEN)
            (void)say(team->core->printer, LOG_WARNING | ABOUT_DATA,
                "carry %s: the team driver does not tell what it has, so no bucket goes back to its own port: %s", team->settings->carry,
                strerror(errno));
        return;
    }
    team->unseen = 0;
    team->frames_received = device.frames_received;
    note_driver(team, &now);
    note_counted(team, device.octets_sent);
}

uint64_t read_frames_received_and_buckets(struct plane *plane, bool looks) {
    if (looks) look_at_driver(plane->team);
    return plane->team->frames_received;
}

void start_buckets(struct team_plane *team) {
    struct team_now now;
    team->carry->time = milliseconds();
    if (!read_team(team->family, team->device->index, &now)) return;
    memcpy(team->members_at_start, now.members, sizeof team->members_at_start);
    note_driver(team, &now);
    for (uint16_t number = 0; number < CONVERSATIONS; number++) team->buckets[number].moved_at = team->carry->time;
    team->to_count_at = team->carry->time;
}

/* The conversation leaves its port at once: its frames cannot be held. */
static bool force_free(struct core *core, uint64_t *forced, uint16_t aggregator, uint16_t number) {
    if (!is_done(core, niw_force(&core->system, aggregator, number), "niw_force")) return false;
    (*forced)++;
    return true;
}

/* The port by which the frames of a conversation go from now on; 0 where the library tells none. */
static uint16_t place_conversation(struct carry *carry, uint16_t number) {
    struct niw_number answer = niw_offer_conversation(&carry->core->system, carry->active, number);
    if (answer.status == NIW_HELD && force_free(carry->core, &carry->counts[FORCED], carry->active, number))
        answer = niw_offer_conversation(&carry->core->system, carry->active, number);
    if (answer.status == NIW_NONE_DISTRIBUTING || !is_done(carry->core, answer.status, "niw_offer_conversation")) return 0;
    carry->conversations[number].home = carry->active;
    carry->conversations[number].port = (uint16_t)answer.number;
    return (uint16_t)answer.number;
}

/* Another aggregator is active, or none: no conversation is on a port of the last one. */
static void leave_last_aggregator(struct core *core, uint16_t active, uint16_t *last, uint64_t *forced) {
    uint16_t left = *last;
    if (left == active) return;
    for (uint16_t number = 0; left != 0 && number < CONVERSATIONS; number++) {
        struct niw_assignment state;
        if (!ask_state(core, left, number, &state)) return;
        if (is_held(&state) && !force_free(core, forced, left, number)) return;
        if (state.what == NIW_CONVERSATION_ON && !is_done(core, niw_rest(&core->system, left, number), "niw_rest")) return;
    }
    *last = active;
}

/* The driver refused what it was told of a port, which is taken up anew. Where the kernel has no memory, the next tick tells it again. */
static void lose_member_if_refused(struct team_plane *team, uint16_t port, int fault) {
    struct link *link = &team->ports->links[port - 1];
    bool is_short = fault == ENOBUFS || fault == ENOMEM;
    char name[IF_NAMESIZE];
    team->shortages = is_short ? team->shortages + 1 : 0;
    if (is_short && team->shortages < MOST_SHORTAGES) return;
    team->shortages = 0;
    if (if_indextoname((unsigned)link->index, name)) /* of one that is gone the kernel tells, too */
        (void)say(team->core->printer, LOG_WARNING | ABOUT_DATA, "port %u %s: the team driver refuses it: %s", port, link->name, strerror(fault));
    lose_link_and_ask_again(team->protocol, link);
}

static bool set_passing_or_lose_member(struct team_plane *team, uint16_t port, bool wanted) {
    if (team->passes[port - 1] == (wanted ? PASSES : PASSES_NOT)) return true;
    if (!set_port_enabled(team->family, team->device->index, team->ports->links[port - 1].index, wanted)) {
        lose_member_if_refused(team, port, errno);
        return false;
    }
    team->passes[port - 1] = wanted ? PASSES : PASSES_NOT;
    return true;
}

/* Has the frames of each bucket go by the port that the library tells; answers whether all do. */
static bool place_buckets_or_lose_member(struct team_plane *team) {
    for (uint16_t number = 0; number < CONVERSATIONS; number++) {
        uint16_t port = place_conversation(team->carry, number);
        if (port == 0 || port == team->buckets[number].port) continue;
        if (!set_bucket(team->family, team->device->index, number, team->ports->links[port - 1].index)) {
            lose_member_if_refused(team, port, errno);
            return false;
        }
        if (team->buckets[number].port != 0) team->carry->counts[MOVES]++;
        team->buckets[number].port = port;
    }
    return true;
}

/* Ports pass data before buckets go there, and until none is left on them. A bucket that has no port goes by the choice of the driver, which is
 * another one for another number of ports. */
static void place_and_set_carrier_or_lose_member(struct team_plane *team) {
    const struct carry *carry = team->carry;
    bool is_active[NIW_MOST_PORTS] = {false};
    if (carry->active == 0) set_carrier(team->device, false);
    leave_last_aggregator(team->core, carry->active, &team->previous, &team->carry->counts[FORCED]);
    for (uint16_t i = 0; i < carry->active_count; i++) {
        is_active[carry->active_ports[i] - 1] = true;
        if (!set_passing_or_lose_member(team, carry->active_ports[i], true)) return;
    }
    if (carry->active != 0 && !place_buckets_or_lose_member(team)) return;
    for (uint16_t i = 0; i < team->ports->count; i++)
        if (team->taken[i] && !is_active[i] && !set_passing_or_lose_member(team, (uint16_t)(i + 1), false)) return;
    team->shortages = 0;
    for (uint16_t number = 0; carry->active == 0 && number < CONVERSATIONS; number++) team->buckets[number].port = 0;
    if (carry->active != 0) set_carrier(team->device, true);
}

void settle_team_or_lose_member(struct plane *plane) {
    struct carry *carry = plane->carry;
    uint16_t before = carry->active;
    choose_ports_and_tell_host(plane);
    place_and_set_carrier_or_lose_member(plane->team);
    if (carry->active != before) count_and_forget_heard(carry); /* until now frames came by the ports of the last one */
}

/* Whether a bucket is to go to the port of its number, once it is still. */
static bool has_to_move(const struct team_plane *team, uint16_t number) {
    const struct carry *carry = team->carry;
    uint16_t port = team->buckets[number].port;
    return carry->active_count > 0 && port != 0 && port != carry->active_ports[number % carry->active_count];
}

/* Frees the conversations of buckets that wait and were still for a flight. */
static void rest_silent_conversations(struct core *core, const struct team_plane *team, uint64_t *rested) {
    for (uint16_t number = 0; number < CONVERSATIONS; number++) {
        struct niw_assignment state;
        if (!has_to_move(team, number) || team->counted_until < team->buckets[number].moved_at + team->settings->flight) continue;
        if (!ask_state(core, team->carry->active, number, &state)) return;
        if (state.what != NIW_CONVERSATION_ON) continue;
        if (!is_done(core, niw_rest(&core->system, team->carry->active, number), "niw_rest")) return;
        (*rested)++;
    }
}

unsigned count_waiting_buckets(const struct team_plane *team) {
    unsigned count = 0;
    for (uint16_t number = 0; number < CONVERSATIONS; number++) count += has_to_move(team, number);
    return count;
}

void pass_tick_of_team(struct plane *plane) {
    struct team_plane *team = plane->team;
    begin_carry_tick_and_announce(team->core->printer, &team->carry->time, &team->device->carrier_ticks, &team->carry->announce, team->device);
    unsigned waiting = count_waiting_buckets(team);
    if (team->carry->time - team->looked_at >= (waiting > 0 ? LOOKED_WAITING : LOOKED_EVERY)) look_at_driver(team);
    if (waiting > 0) rest_silent_conversations(team->core, team, &team->carry->counts[RESTED]);
    if (team->protocol->ticks % SECOND == 0) give_addresses_or_lose_members(team);
    note_heard(team->carry);
    end_carry_tick_and_wake_ports(team->carry);
}
