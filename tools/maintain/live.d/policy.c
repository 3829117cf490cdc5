/* Two ends of a bundle in memory: what the daemon decides of data (lagd/carry.c, probe.c, bundle.c, select.c, lagd/tap/data.c, moves.c, flight.c, held.c, and what it
 * takes of Marker PDUs: frames.c, markers.c), over the library, with a clock and cables of its own. Random events come: frames of the hosts,
 * links that go and come, ticks that are late, peers that answer no markers, or late, or by the wrong link, and sends that fail. After each
 * one no frame goes on a port while one of its conversation can still come by another one, none comes twice or behind a later one, each is
 * sent, waits or is counted as lost, the carrier is on only where a port distributes, and no frame waits for longer than it may. Now and
 * then all calms down: then what is sent comes.
 *
 *     policy EVENTS SEED
 *
 * It prints a line for each kind of check that fails, and then 'policy: N passed, M failed'; status 1 if one failed. */
#define _GNU_SOURCE
#include <linux/if_packet.h>
#include <stdio.h>
#include <stdlib.h>
#include <string.h>

#include "alone.h"
#include "checks.h"
#include "daemon.h"
#include "device.h"

#define PORTS 4
#define KEYS 2 /* so many aggregators, with as many ports each */
#define TICK 100u
#define FLIGHT 500u
/* A frame is on a cable for so many milliseconds at most, and then waits for a daemon that stalls for so long: less than a flight. */
#define SLOWEST 240u
#define STALL 240u
#define BUSY_ONES 48 /* conversations of which frames come */
#define OCTETS 64
#define ON_WIRE 4096 /* frames at most, on a cable one way; what comes then is lost */
#define LATE 900u    /* milliseconds for which ticks are late at most, while frames are taken */
/* Where a frame has its conversation, and its number in that. */
#define CONVERSATION_AT 14
#define NUMBER_AT 16
#define CALM_EACH 20000 /* events */

const char *const program = "policy";

/* A frame that is on its way. */
struct flying {
    uint64_t at; /* when it comes */
    size_t length;
    uint8_t octets[NIW_FRAME];
};

/* A cable, one way. */
struct wire {
    struct flying ring[ON_WIRE];
    unsigned first, count;
    uint64_t last; /* when the last one comes */
    unsigned delay;
};

struct waiting_packet {
    uint16_t port;
    uint8_t *packet;
};

/* One end, and what is known of its frames. */
struct end {
    struct lagd lagd;
    struct wire wires[PORTS + 1]; /* what it sent */
    struct waiting_packet out[BATCH * PORTS];
    unsigned out_count;
    uint8_t marker[PORTS + 1][NIW_FRAME];
    uint8_t response[NIW_FRAME]; /* one that goes later, on a port */
    uint16_t response_port;
    uint64_t response_at;
    uint64_t next_tick, mute_until, short_until, stalled_until, late_until;
    uint64_t notices[PORTS + 1]; /* when it sees how a link is now, or 0 */
    uint64_t made[CONVERSATIONS], put[CONVERSATIONS], got[CONVERSATIONS]; /* numbers of the last frames: of the host, sent, and of the other end */
    unsigned flying[CONVERSATIONS];
    uint16_t flies_on[CONVERSATIONS];
    uint64_t given, arrived;
    bool carrier;
};

/* What is likely until all calms down next. */
struct weather {
    bool mute, slow;   /* neither peer answers markers; frames are long on their way */
    unsigned burst;    /* of so many thousand events those that are frames of the host, */
    unsigned changes;  /* and those that are changes of links */
    unsigned busy;     /* of so many conversations they are */
};

static struct end ends[2];
static struct weather weather = {.burst = 700, .changes = 2, .busy = BUSY_ONES};
static bool cable_up[PORTS + 1];
static uint64_t now = 100000, events, most_waited;
static uint64_t random_state;

static uint64_t random_number(void) {
    random_state ^= random_state << 13;
    random_state ^= random_state >> 7;
    random_state ^= random_state << 17;
    return random_state;
}

static unsigned below(unsigned bound) {
    return (unsigned)(random_number() % bound);
}

/* The end that a part of a daemon is of. */
static struct end *end_of(const void *part) {
    return (const struct end *)part < &ends[1] ? &ends[0] : &ends[1];
}

static struct end *other_of(struct end *end) {
    return end == &ends[0] ? &ends[1] : &ends[0];
}

static uint16_t conversation_at(const uint8_t *frame) {
    uint16_t number;
    memcpy(&number, frame + CONVERSATION_AT, sizeof number);
    return number;
}

static uint64_t number_at(const uint8_t *frame) {
    uint64_t number;
    memcpy(&number, frame + NUMBER_AT, sizeof number);
    return number;
}

static bool is_slow(const uint8_t *frame) {
    return ((unsigned)frame[12] << 8 | frame[13]) == ETH_P_SLOW;
}

/* A frame is on its way no more. */
static void land(struct end *from, const uint8_t *frame) {
    if (!is_slow(frame)) from->flying[conversation_at(frame)]--;
}

/* Puts a frame on a cable; answers whether it is on its way. */
static bool put_on_wire(struct end *end, uint16_t port, const uint8_t *frame, size_t length) {
    struct wire *wire = &end->wires[port];
    struct flying *next = &wire->ring[(wire->first + wire->count) % ON_WIRE];
    if (now < end->short_until && below(2) == 0) return false;
    if (!cable_up[port] || wire->count == ON_WIRE) return true; /* lost on its way */
    next->at = now + 1 + below(wire->delay);
    if (next->at < wire->last) next->at = wire->last;
    wire->last = next->at;
    next->length = length;
    memcpy(next->octets, frame, length);
    wire->count++;
    if (is_slow(frame)) return true;
    CHECK(end->flying[conversation_at(frame)] == 0 || end->flies_on[conversation_at(frame)] == port);
    end->flying[conversation_at(frame)]++;
    end->flies_on[conversation_at(frame)] = port;
    return true;
}

static void put_slow(struct end *end, uint16_t port, uint8_t *frame) {
    memcpy(frame + ETH_ALEN, end->lagd.ports.links[port - 1].mac, ETH_ALEN);
    (void)put_on_wire(end, port, frame, NIW_FRAME);
}

/* What the policy asks of the rest of the daemon: the clock, */
ANSWERS(uint64_t milliseconds, now, void)
ANSWERS(uint64_t boottime, now, void)
/* data and markers, */
void put_data(struct tap_plane *tap, uint16_t port, uint16_t number, uint8_t *packet, size_t length) {
    struct end *end = end_of(tap);
    CHECK(number == conversation_at(packet) && length == OCTETS && port >= 1 && port <= PORTS && number_at(packet) > end->put[number]);
    end->put[number] = number_at(packet);
    end->given++;
    if (end->out_count == sizeof end->out / sizeof *end->out) flush_data(tap);
    end->out[end->out_count++] = (struct waiting_packet){port, packet};
}
void flush_data(struct tap_plane *tap) {
    struct end *end = end_of(tap);
    for (unsigned i = 0; i < end->out_count; i++) (void)put_on_wire(end, end->out[i].port, end->out[i].packet, OCTETS);
    end->out_count = 0;
    free_left(&tap->held);
}
void withdraw_and_send_new_marker(struct plane *plane, struct link *link, const uint8_t *frame) {
    struct end *end = end_of(plane);
    flush_data(plane->tap);
    memcpy(end->marker[link->settings.number], frame, NIW_FRAME);
    put_slow(end, link->settings.number, end->marker[link->settings.number]);
}
bool withdraw_and_repeat_marker(struct tap_plane *tap, uint16_t port) {
    struct end *end = end_of(tap);
    flush_data(tap);
    put_slow(end, port, end->marker[port]);
    return true;
}
void send_frame(struct core *core, bool *carrier_suspected, struct link *link, const uint8_t *frame) {
    struct end *end = end_of(core);
    uint8_t sent[NIW_FRAME];
    memcpy(sent, frame, sizeof sent);
    if (sent[SUBTYPE_AT] == SUBTYPE_MARKER && (weather.mute || now < end->mute_until)) return;
    if (sent[SUBTYPE_AT] == SUBTYPE_MARKER && below(4) == 0) { /* it goes later, or by another link, too */
        memcpy(end->response, frame, sizeof sent);
        end->response_port = below(2) == 0 ? link->settings.number : (uint16_t)(1 + below(PORTS));
        end->response_at = now + below(2500);
        if (below(3) > 0) return;
    }
    put_slow(end, link->settings.number, sent);
}
void put_host(struct tap_plane *tap, uint8_t *packet, size_t length) {
    struct end *end = end_of(tap);
    uint16_t number = conversation_at(packet);
    CHECK(length == OCTETS && number_at(packet) > end->got[number]);
    end->got[number] = number_at(packet);
    end->arrived++;
    tap->carry->counts[HANDED_UP]++;
}

/* lines, and the carrier of the device, */
ANSWERS(bool say, true, struct printer *printer, int level, const char *format, ...)
const char *const SELECTIONS[] = {"", "", "", ""};
static bool any_distributes(struct lagd *lagd) {
    for (uint16_t port = 1; port <= PORTS; port++)
        if (niw_distributes(&lagd->core.system, port).is) return true;
    return false;
}
void set_carrier(struct device *device, bool on) {
    CHECK(!on || (end_of(device)->lagd.carry.active_count > 0 && any_distributes(&end_of(device)->lagd)));
    end_of(device)->carrier = on;
}
void notify_bundle(const struct bundle *bundle, const char *what) {
    CHECK(bundle->state == BUNDLE_DOWN || any_distributes(&end_of(bundle)->lagd));
}

NOTHING(write_port_of_conversation, struct state *state, uint16_t number, uint16_t port)
/* the library, */
ANSWERS(bool carries, link->view.port_status == NIW_PORT_STATUS_DISTRIBUTING, const struct protocol *protocol, const struct link *link)
void read_views_and_count(struct core *core, struct ports *ports) {
    struct niw_view views[NIW_MOST_PORTS];
    uint64_t changed;
    if (!is_told(core, niw_views(&core->system, views, NIW_MOST_PORTS), "niw_views", &changed)) return;
    for (uint16_t i = 0; i < PORTS; i++)
        if (changed >> i & 1) ports->links[i].view = views[i];
}
void send_due(struct protocol *protocol) {
    uint8_t frame[NIW_FRAME];
    for (uint16_t port = 1; port <= PORTS; port++) {
        for (;;) {
            struct niw_sent due = niw_transmit(&protocol->core->system, port, frame, sizeof frame);
            if (!is_done(protocol->core, due.status, "niw_transmit") || !due.is) break;
            if (due.what == NIW_SENT_MARKER)
                withdraw_and_send_new_marker(protocol->plane, &protocol->ports->links[port - 1], frame);
            else
                put_slow(end_of(protocol), port, frame);
        }
    }
}

/* packets, of which each is a frame without a head, */
ANSWERS(size_t head_octets, 0, void)
ANSWERS(size_t packet_room, 2048, void)
ANSWERS(bool has_segments, false, const uint8_t *packet)
ANSWERS(uint32_t count_segments, 1, const uint8_t *packet, size_t length)
bool has_right_length(const uint8_t *packet, size_t length, uint32_t mtu) {
    return length <= mtu + ETH_HLEN;
}
struct niw_number conversation_of(struct core *core, const uint8_t *frame, size_t length) {
    return (struct niw_number){.status = NIW_OK, .number = conversation_at(frame)};
}

/* and what is of members with several queues, of which there are none here; */
static bool answer(struct tap_plane *tap, struct link *link, const uint8_t *response) {
    send_frame(tap->core, &tap->protocol->changes.suspected, link, response);
    return true;
}
static void accept_any(struct tap_plane *tap, struct link *link, const struct arrival *arrival, uint32_t id) {
    accept_response(tap->protocol, link, arrival);
}

/* and what is not here: the settings of the device. */
NOTHING(count_full_sockets, struct member *members, uint16_t count)
NOTHING(pass_announcing_tick, struct printer *printer, struct announce *own, const struct device *device)
NOTHING(pass_tap_tick, struct printer *printer, unsigned *carrier_ticks, const struct device *device)
NOTHING(announce_soon, struct announce *own)
ANSWERS(uint32_t sum_speeds, 1000, const struct carry *carry, const struct member *members)
NOTHING(set_speed, struct device *device, uint32_t megabits)
/* The device is up here, and no port comes or goes. */
ANSWERS(uint16_t count_links, PORTS, const struct ports *ports)
NOTHING(write_report_and_tell_watchers, struct core *core, const struct control *control, const struct link *link)
/* The plane: frames come here alone, and members have one queue. */
static const struct carrying FRAMES = {.settle = choose_move_and_send, .tick = pass_data_tick_and_wake_ports, .keeps_aggregator = heard_peer_lately,
    .frames_heard = sum_frames_heard_and_follow_peer, .tell_host = set_speed_and_carrier, .go_on = settle_carry_or_lose_member,
    .note_response = note_response};
static const struct passing BY_DAEMON = {0};
static const struct queueing OF_ONE_QUEUE = {.accept_response = accept_any, .answer = answer, .markers_at_once = 1};

/* The link of a port is up or down for an end. */
static void set_link_of(struct end *end, uint16_t port, bool up) {
    struct link *link = &end->lagd.ports.links[port - 1];
    if (link->up == up) return;
    link->up = up;
    if (!up) forget_partner(&end->lagd.settings, link);
    if (!is_done(&end->lagd.core, niw_set_link(&end->lagd.core.system, port, up), "niw_set_link")) return;
    end->lagd.plane.changed = true;
    send_due(&end->lagd.protocol);
    read_views_and_count(&end->lagd.core, &end->lagd.ports);
    settle_carry_or_lose_member(&end->lagd.plane);
}

static void make_end(struct end *end, uint8_t which) {
    struct lagd *lagd = &end->lagd;
    struct niw_port ports[PORTS];
    const uint16_t keys[KEYS] = {1, 2};
    join_parts(lagd);
    lagd->plane.carrying = &FRAMES;
    lagd->plane.passing = &BY_DAEMON;
    lagd->plane.queueing = &OF_ONE_QUEUE;
    lagd->plane.changed = lagd->process.has_started = true;
    lagd->ports.count = lagd->settings.port_count = PORTS;
    lagd->settings.flight = FLIGHT;
    lagd->settings.min_links = 1;
    lagd->settings.marker_responses = 50;
    lagd->settings.config = (struct niw_config){.priority = 1, .mac = {2, which}, .first_marker = 1, .conversations = CONVERSATIONS};
    for (uint16_t i = 0; i < PORTS; i++) {
        ports[i] = (struct niw_port){.number = (uint16_t)(i + 1), .priority = (uint16_t)(1 + below(3)), .mac = {2, which, (uint8_t)i},
            .key = keys[i * KEYS / PORTS], .aggregatable = true, .active = true, .short_timeout = true};
        lagd->ports.links[i].settings = ports[i];
        memcpy(lagd->ports.links[i].mac, ports[i].mac, sizeof ports[i].mac);
        end->wires[i + 1].delay = 20;
    }
    CHECK(niw_new(&lagd->core.system, &lagd->settings.config, keys, KEYS, ports, PORTS).status == NIW_OK);
    start_held_or_stop(&lagd->core, &lagd->tap.held);
    end->next_tick = now + below(TICK);
}

/* Each frame of the host was sent, waits, or is lost for a reason that is counted. */
static void check_counts(struct end *end) {
    const uint64_t *counts = end->lagd.carry.counts;
    uint64_t waiting = 0;
    CHECK(count_all_held(&end->lagd.core, &end->lagd.tap.held, &waiting));
    CHECK(counts[FROM_HOST] == counts[UNFIT] + counts[NONE_CARRIES] + counts[QUEUE_FULL] + counts[HELD_TOO_LONG] + waiting + end->given);
    CHECK(end->out_count == 0 && counts[UNFIT] == 0);
    if (waiting > most_waited) most_waited = waiting;
}

/* No frame waits for longer than a flight and a second. */
static void check_waiting(struct end *end) {
    uint64_t came;
    for (uint16_t number = 0; number < CONVERSATIONS; number++)
        if (oldest_held(&end->lagd.core, &end->lagd.tap.held, number, &came)) CHECK(now - came < FLIGHT + 1000);
}

/* Frames of the host come. */
static void send_burst(struct end *end, unsigned most) {
    static uint8_t packets[BATCH][OCTETS];
    unsigned count = 1 + below(most);
    uint16_t number = (uint16_t)below(weather.busy);
    for (unsigned i = 0; i < count; i++) {
        uint8_t *packet = packets[i];
        memset(packet, 0, OCTETS);
        packet[0] = packet[6] = 2;
        packet[12] = 8;
        if (below(3) == 0) number = (uint16_t)below(weather.busy);
        end->made[number]++;
        memcpy(packet + CONVERSATION_AT, &number, sizeof number);
        memcpy(packet + NUMBER_AT, &end->made[number], sizeof end->made[number]);
        accept_from_host(&end->lagd.tap, packet, OCTETS);
        events++;
    }
    flush_data(&end->lagd.tap);
}

/* A frame comes to an end. */
static void take(struct end *end, uint16_t port, uint8_t *frame, size_t length) {
    struct lagd *lagd = &end->lagd;
    struct link *link = &lagd->ports.links[port - 1];
    struct arrival arrival = {frame, length, PACKET_MULTICAST, link->index, false};
    struct niw_received received;
    uint8_t response[NIW_FRAME];
    events++;
    if (is_slow(frame)) {
        accept_frame(&lagd->protocol, link, &arrival);
        lagd->plane.changed = true;
        send_due(&lagd->protocol);
    } else {
        received = niw_receive(&lagd->core.system, port, frame, length, response, sizeof response);
        if (is_done(&lagd->core, received.status, "niw_receive") && received.what == NIW_RECEIVED_HANDED_UP)
            hand_up_or_follow_peer_and_tell(&lagd->tap, received.number, frame, length);
    }
    settle_carry_or_lose_member(&lagd->plane);
}

/* Takes what has come by a cable. */
static void take_wire(struct end *from, uint16_t port) {
    struct wire *wire = &from->wires[port];
    while (wire->count > 0 && wire->ring[wire->first].at <= now) {
        struct flying frame = wire->ring[wire->first];
        wire->first = (wire->first + 1) % ON_WIRE;
        wire->count--;
        land(from, frame.octets);
        take(other_of(from), port, frame.octets, frame.length);
    }
}

/* A cable goes, and with it what is on its way. */
static void cut(uint16_t port) {
    cable_up[port] = false;
    for (unsigned which = 0; which < 2; which++) {
        struct wire *wire = &ends[which].wires[port];
        for (; wire->count > 0; wire->count--) {
            land(&ends[which], wire->ring[wire->first].octets);
            wire->first = (wire->first + 1) % ON_WIRE;
        }
        wire->last = now;
    }
}

/* How a link is now is seen later, but before it is another way. */
static void change_cable(uint16_t port) {
    if (ends[0].notices[port] != 0 || ends[1].notices[port] != 0) return;
    if (cable_up[port])
        cut(port);
    else
        cable_up[port] = true;
    ends[0].notices[port] = now + 1 + below(weather.slow ? 700 : 60);
    ends[1].notices[port] = now + 1 + below(weather.slow ? 700 : 60);
    events++;
}

/* A port is held, or let go, by the host. */
static void hold(struct end *end, uint16_t port, bool held) {
    struct link *link = &end->lagd.ports.links[port - 1];
    link->emptying = false;
    CHECK(niw_hold(&end->lagd.core.system, port, held) == NIW_OK);
    read_views_and_count(&end->lagd.core, &end->lagd.ports);
    end->lagd.plane.changed = true;
    send_due(&end->lagd.protocol);
    settle_carry_or_lose_member(&end->lagd.plane);
    events++;
}

/* A port is to be held: it is emptied first, where that can be, as lagd/membership.c does. */
static void begin_to_hold(struct end *end, uint16_t port) {
    struct link *link = &end->lagd.ports.links[port - 1];
    link->emptying = can_empty(&end->lagd.plane, link);
    end->lagd.plane.changed = true;
    if (!link->emptying) hold(end, port, true);
}

/* The ports that are emptied are held then. */
static void end_emptying(struct end *end) {
    for (uint16_t port = 1; port <= PORTS; port++)
        if (end->lagd.ports.links[port - 1].emptying && empty_port_and_send(&end->lagd.plane, &end->lagd.ports.links[port - 1])) hold(end, port, true);
}

/* Some ticks passed, and are made up, as lagd/main.c does. */
static void pass_time(struct end *end, unsigned ticks) {
    struct lagd *lagd = &end->lagd;
    for (; ticks > 0; ticks--) {
        CHECK(niw_tick(&lagd->core.system) == NIW_OK);
        lagd->protocol.ticks++;
        read_views_and_count(&lagd->core, &lagd->ports);
        if (!lagd->core.broken) CALL(lagd->plane.carrying->tick, &lagd->plane);
        end_emptying(end);
        if (now / 1000 != (now - TICK) / 1000 && lagd->protocol.bundle.lines_left < MOST_LINES) lagd->protocol.bundle.lines_left++;
        events++;
    }
    check_waiting(end);
    send_due(&lagd->protocol);
    read_views_and_count(&lagd->core, &lagd->ports);
    choose_and_tell_bundle(&lagd->protocol);
    settle_carry_or_lose_member(&lagd->plane);
    CHECK(!end->carrier || any_distributes(lagd));
}

/* What is due at an end. */
static void serve(struct end *end) {
    if (now < end->stalled_until) return;
    for (uint16_t port = 1; port <= PORTS; port++) take_wire(other_of(end), port);
    for (uint16_t port = 1; port <= PORTS; port++) {
        if (end->notices[port] == 0 || end->notices[port] > now) continue;
        end->notices[port] = 0;
        set_link_of(end, port, cable_up[port]);
    }
    if (end->response_at != 0 && end->response_at <= now) {
        end->response_at = 0;
        put_slow(end, end->response_port, end->response);
    }
    if (end->next_tick > now || now < end->late_until) return;
    pass_time(end, 1 + (unsigned)(now - end->next_tick) / TICK); /* fewer than lagd/main.c makes up at most */
    end->next_tick += TICK * (1 + (now - end->next_tick) / TICK);
}

/* Something happens. */
static void happen(struct end *end) {
    unsigned what = below(1000);
    uint16_t port = (uint16_t)(1 + below(PORTS));
    if (what < weather.burst) send_burst(end, what < 20 ? BATCH : 6);
    for (bool more = below(1000) < weather.changes; more; more = below(2) == 0) change_cable((uint16_t)(1 + below(PORTS)));
    if (what >= 710 && what < 713) mark_busy_to_move(&end->lagd.carry);
    if (what == 720) end->mute_until = now + below(20000);
    if (what == 721) end->mute_until = 0;
    if (what == 722) end->short_until = now + below(300);
    if (what >= 730 && what < 733) end->wires[port].delay = 1 + below(weather.slow || below(3) == 0 ? SLOWEST : 20);
    if (what == 750) begin_to_hold(end, port);
    if (what == 751 || what == 752) hold(end, port, false);
    if (what == 740) end->stalled_until = now + below(STALL);
    if (what == 741) end->late_until = now + below(LATE);
    if (what >= 700) events++;
}

static void step(bool calm) {
    unsigned which;
    now += below(3);
    for (which = 0; which < 2; which++) serve(&ends[which]);
    if (calm) return;
    which = below(2);
    if (now >= ends[which].stalled_until) happen(&ends[which]);
    for (which = 0; which < 2; which++) check_counts(&ends[which]);
}

/* Until now all was calm. */
static void change_weather(void) {
    const unsigned bursts[] = {700, 200, 20}, changes[] = {2, 10, 1}, busy[] = {BUSY_ONES, 8, 2};
    weather = (struct weather){below(2) == 0, below(2) == 0, bursts[below(3)], changes[below(3)], busy[below(3)]};
    for (unsigned which = 0; which < 2; which++) ends[which].lagd.settings.select = (enum selection)below(SELECT_PRIORITY_STABLE + 1);
}

/* Ends that prefer another aggregator, or that each keep one, are in the same one once both have sent for a while. */
static void come_together(void) {
    if (ends[0].lagd.settings.select == SELECT_COUNT && ends[1].lagd.settings.select == SELECT_COUNT) return;
    for (uint64_t until = now + 15000, next = now; now < until; step(true)) {
        if (now < next) continue;
        next = now + TICK / 2;
        for (unsigned which = 0; which < 2; which++) send_burst(&ends[which], 1);
    }
    for (uint64_t until = now + 2000; now < until;) step(true);
}

/* Nothing is in the way of data any more: what is sent comes, and nothing waits. */
static void calm_down(void) {
    uint64_t until, arrived[2];
    for (uint16_t port = 1; port <= PORTS; port++) {
        for (until = now + 1000; now < until;) step(true);
        if (!cable_up[port]) change_cable(port);
        ends[0].wires[port].delay = ends[1].wires[port].delay = 5;
    }
    for (unsigned which = 0; which < 2; which++) ends[which].mute_until = ends[which].short_until = 0;
    for (unsigned which = 0; which < 2; which++)
        for (uint16_t port = 1; port <= PORTS; port++) hold(&ends[which], port, false);
    weather.mute = false;
    for (until = now + 12000; now < until;) step(true);
    come_together();
    for (unsigned which = 0; which < 2; which++) {
        arrived[which] = ends[which].arrived;
        CHECK(ends[which].carrier && ends[which].lagd.protocol.bundle.state != BUNDLE_DOWN && !ends[which].lagd.tap.held.any_waits);
        send_burst(&ends[which], 1);
    }
    for (until = now + 2000; now < until;) step(true);
    CHECK(ends[0].arrived == arrived[0] + 1 && ends[1].arrived == arrived[1] + 1);
    change_weather(); /* and another select, as by a reload */
}

int main(int argc, char **argv) {
    uint64_t most = argc > 1 ? strtoull(argv[1], NULL, 10) : 1000000, seed = argc > 2 ? strtoull(argv[2], NULL, 10) : 1;
    random_state = seed * 0x9e3779b97f4a7c15u + 1;
    for (unsigned which = 0; which < 2; which++) make_end(&ends[which], (uint8_t)(which + 1));
    for (uint16_t port = 1; port <= PORTS; port++) change_cable(port);
    calm_down();
    for (uint64_t next = CALM_EACH; events < most;) {
        step(false);
        if (events < next) continue;
        calm_down();
        next = events + CALM_EACH;
    }
    for (unsigned which = 0; which < 2; which++) {
        const uint64_t *counts = ends[which].lagd.carry.counts;
        printf("end %u: %llu from the host, %llu sent, %llu came, %llu moves, %llu rested, %llu forced, %llu held, %llu switches\n", which,
            (unsigned long long)counts[FROM_HOST], (unsigned long long)ends[which].given, (unsigned long long)ends[which].arrived,
            (unsigned long long)counts[MOVES], (unsigned long long)counts[RESTED], (unsigned long long)counts[FORCED],
            (unsigned long long)counts[HELD_FRAMES], (unsigned long long)counts[SWITCHES]);
    }
    printf("seed %llu: %llu events in %llu s of its clock, %llu frames waited at most\n", (unsigned long long)seed,
        (unsigned long long)events, (unsigned long long)(now - 100000) / 1000, (unsigned long long)most_waited);
    return tell_checks();
}
