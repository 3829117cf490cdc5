/* A trunk of a switch chip whose ports may be in several aggregators: one runs on defaults, since its peer is silent, others have a partner.
 * The active aggregator fills the rows of the chip; a new link gets its share, if the peer answers markers; a link that dies silently is left;
 * and a new control plane takes the trunk over. The chip is an array here, and the peer a second system at the other ends of the cables. */
#include <stdio.h>
#include <stdlib.h>

#include "lag.h"

#define PORTS 4
#define ROWS NIW_FEW_CONVERSATIONS
#define WORST_DELAY 50 /* ticks that a frame can be on its way at most */

static struct niw_system here, peer;
static bool silent[PORTS + 1];            /* the cables that carry nothing, though their links are up */
static bool deaf;                         /* whether the peer answers no markers */
static uint16_t row[ROWS];                /* of the chip: the port of each conversation, or 0, with which it drops the frames */
static uint16_t active;                   /* the aggregator that is the trunk, or 0 */
static bool suspended;                    /* whether the trunk passes no data, since it runs on defaults */
static unsigned stopped[PORTS + 1];       /* for how many ticks the port has not distributed with a partner */
static struct niw_saved saved[PORTS + 1]; /* the last LACPDU of each port, and how old it is */
static unsigned flushes;

static void must(uint32_t status, const char *what) {
    if (status == NIW_OK) return;
    printf("%s: %s\n", what, niw_status_text(status));
    exit(1);
}

/* A key has as many aggregators as ports. */
static void make(struct niw_system *end, uint8_t number, uint32_t first_marker, const struct niw_saved *from, size_t count) {
    const uint16_t keys[PORTS] = {7, 7, 7, 7};
    struct niw_config config = {.priority = 32768, .mac = {2, 0, 0, 0, 0, number}, .first_marker = first_marker, .conversations = ROWS};
    struct niw_port ports[PORTS];
    struct niw_made made;
    for (uint16_t i = 0; i < PORTS; i++)
        ports[i] = (struct niw_port){(uint16_t)(i + 1), 128, {2, 0, 0, 0, (uint8_t)(i + 1), number}, 7, true, true, true};
    *end = (struct niw_system)NIW_EMPTY;
    made = from ? niw_resume(end, &config, keys, PORTS, ports, PORTS, from, count) : niw_new(end, &config, keys, PORTS, ports, PORTS);
    must(made.status, from ? "resume" : "new");
}

/* Clears each row whose conversation is no longer On its port, before anything is sent. */
static void clear_rows(void) {
    uint16_t ports[ROWS] = {0};
    bool changed[ROWS];
    if (active != 0 && !suspended) niw_conversation_ports(&here, active, ports, ROWS, changed, ROWS);
    for (unsigned i = 0; i < ROWS; i++)
        if (ports[i] != row[i]) row[i] = 0;
}

/* Which aggregator is the trunk. One that runs on defaults is suspended here: nothing is offered there, so that nothing waits for a marker
 * that a silent peer will not answer. One that carried is left behind markers. */
static void choose_trunk(void) {
    uint16_t before = active, ports[NIW_MOST_PORTS];
    bool was_suspended = suspended;
    active = (uint16_t)niw_active_aggregator(&here, before).number;
    suspended = active != 0 && niw_distributing(&here, active, ports, NIW_MOST_PORTS).number > 0 && niw_defaulted(&here, ports[0]).is;
    if (before == 0 || was_suspended || (before == active && !suspended)) return;
    for (uint16_t i = 0; i < ROWS; i++) niw_leave_conversation(&here, before, i);
}

/* Offers each conversation whose row is clear. */
static void fill_rows(void) {
    if (active == 0 || suspended) return;
    for (uint16_t i = 0; i < ROWS; i++) {
        struct niw_number port;
        if (row[i] != 0) continue;
        port = niw_offer_conversation_in_active_aggregator(&here, active, i);
        if (port.status == NIW_OK) row[i] = (uint16_t)port.number;
    }
}

/* The cable: what is sent is taken at the other end, and what that answers comes back. */
static void carry(struct niw_system *from, struct niw_system *to, uint16_t port, const uint8_t *frame) {
    uint8_t response[NIW_FRAME], unused[NIW_FRAME];
    struct niw_received received;
    if (silent[port]) return;
    received = niw_receive(to, port, frame, NIW_FRAME, response, sizeof response);
    if (received.what == NIW_RECEIVED_RESPOND && !deaf) niw_receive(from, port, response, NIW_FRAME, unused, sizeof unused);
    if (received.what != NIW_RECEIVED_TOOK_LACPDU || to != &here) return;
    saved[port] = (struct niw_saved){.port = port};
    memcpy(saved[port].frame, frame, NIW_FRAME);
}

static void send_due(struct niw_system *from, struct niw_system *to) {
    uint8_t frame[NIW_FRAME];
    for (uint16_t port = 1; port <= PORTS; port++)
        for (struct niw_sent due = niw_transmit(from, port, frame, sizeof frame); due.is; due = niw_transmit(from, port, frame, sizeof frame)) {
            flushes += from == &here && due.what == NIW_SENT_MARKER; /* the chip flushes the port before a marker */
            carry(from, to, port, frame);
        }
}

/* The steps behind each call of the own system. */
static void settle(void) {
    choose_trunk();
    clear_rows();
    send_due(&here, &peer);
    clear_rows();
    fill_rows();
}

/* A port that has not distributed with a partner for longer than frames can be on their way holds nothing any more. On defaults it
 * distributes again, but has no rows here. */
static void leave_silent_ports(void) {
    for (uint16_t port = 1; port <= PORTS; port++) {
        bool carries = niw_distributes(&here, port).is && !niw_defaulted(&here, port).is;
        stopped[port] = carries ? 0 : stopped[port] + 1;
        if (stopped[port] > WORST_DELAY && niw_load(&here, port).number > 0) niw_force_port(&here, port);
    }
}

static void pass(unsigned ticks) {
    while (ticks-- > 0) {
        for (uint16_t port = 1; port <= PORTS; port++) saved[port].age++;
        niw_tick(&here);
        leave_silent_ports();
        settle();
        niw_tick(&peer);
        send_due(&peer, &here);
        settle();
    }
}

/* Whether the peer of a port answers markers. These cables have no delay: a chip waits for the response. */
static bool answers(uint16_t port) {
    uint8_t frame[NIW_FRAME];
    if (niw_probe(&here, port, frame, sizeof frame).is) carry(&here, &peer, port, frame);
    return niw_answers(&here, port).number == NIW_ANSWERS_ANSWERED;
}

/* Moves conversations until each link has its share: a link that came up gets rows no other way. Where no marker is answered, a row that
 * is moved would stay clear. */
static void balance(void) {
    struct niw_carried carried[ROWS];
    uint16_t ports[NIW_MOST_PORTS];
    size_t count = niw_distributing(&here, active, ports, NIW_MOST_PORTS).number;
    for (size_t i = 0; i < count; i++)
        if (!answers(ports[i])) return;
    for (unsigned i = 0; i < ROWS; i++) carried[i] = (struct niw_carried){.port = row[i], .load = 1};
    for (;;) {
        struct niw_move move = niw_next_move(ports, count, carried, ROWS);
        if (move.status != NIW_OK) printf("not balanced: %s\n", niw_status_text(move.status)); /* no memory, on a big-endian processor alone: try again later */
        if (!move.is || niw_move_conversation(&here, active, move.conversation, move.port) != NIW_OK) break;
        carried[move.conversation].port = move.port;
    }
    settle();
}

static void show(const char *what) {
    unsigned counts[PORTS + 1] = {0};
    for (unsigned i = 0; i < ROWS; i++) counts[row[i]]++;
    printf("%s: aggregator %u%s; rows of ports 1 to 4: %u %u %u %u; clear: %u\n", what, active, suspended ? ", suspended" : "", counts[1], counts[2],
           counts[3], counts[4], counts[0]);
}

/* The control plane ends, and the chip goes on. Saved is each port that distributes with a partner: a port on defaults has no LACPDU. */
static size_t stop(struct niw_saved *kept, uint32_t *next_marker) {
    size_t count = 0;
    for (uint16_t port = 1; port <= PORTS; port++) {
        if (!niw_distributes(&here, port).is || niw_defaulted(&here, port).is) continue;
        kept[count] = saved[port];
        kept[count++].aggregator = (uint16_t)niw_choice(&here, port).number;
    }
    *next_marker = niw_next_marker(&here).id;
    niw_free(&here);
    return count;
}

/* The next one: ports that were saved go on in the aggregators that they were in, and each row is adopted there. */
static void start_again(const struct niw_saved *kept, size_t count, uint32_t next_marker) {
    static struct niw_view seen[NIW_MOST_PORTS];
    unsigned adopted = 0;
    niw_views(&peer, seen, NIW_MOST_PORTS);
    make(&here, 1, next_marker, kept, count);
    for (uint16_t i = 0; i < ROWS; i++)
        if (row[i] != 0 && niw_adopt(&here, active, i, row[i]) == NIW_OK) adopted++;
    niw_set_link(&here, 1, true);
    pass(50);
    printf("taken over: %u rows adopted; the peer noticed %s\n", adopted, niw_views(&peer, seen, NIW_MOST_PORTS).number == 0 ? "nothing" : "a change");
}

int main(void) {
    struct niw_saved kept[PORTS];
    uint32_t next_marker;
    size_t count;
    make(&here, 1, 1, NULL, 0);
    make(&peer, 2, 1, NULL, 0);
    silent[1] = true;
    niw_set_link(&here, 1, true);
    pass(80);
    show("port 1 hears nobody");
    for (uint16_t port = 3; port <= 4; port++) {
        niw_set_link(&here, port, true);
        niw_set_link(&peer, port, true);
        pass(50);
        show(port == 3 ? "port 3 carries" : "port 4 carries, too");
    }
    deaf = true;
    balance();
    pass(5);
    show("the peer answers no markers");
    deaf = false;
    balance();
    pass(5);
    show("balanced");
    printf("flushes before a marker: %u\n", flushes);
    count = stop(kept, &next_marker);
    start_again(kept, count, next_marker);
    show("the trunk as before");
    silent[3] = true;
    pass(100);
    show("port 3 died silently");
    niw_free(&here);
    niw_free(&peer);
    return 0;
}
