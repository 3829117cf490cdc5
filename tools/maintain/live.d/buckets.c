/* The buckets of the team driver (lagd/team/buckets.c) over a driver in memory, and a library of four calls: links come and go, frames are sent,
 * the driver counts late, others change what it has, and it refuses. After each turn buckets are on ports that carry, and those alone are
 * enabled. A bucket leaves a port that carries only if the driver counted no frame of it for `flight`.
 *
 * It prints a line for each check that fails, and then 'buckets: N passed, M failed'; status 1 if one failed. */
#define _GNU_SOURCE
#include <errno.h>
#include <stdlib.h>
#include <string.h>

#include "alone.h"
#include "checks.h"
#include "daemon.h"
#include "netlink.h"
#include "team/team.h"

#define PORTS 3
#define INDEX 10 /* of the interface of a port: so much above its number */
#define DEVICE 7
#define TURNS 20000
#define FLIGHT 300
#define TICK 100
/* After so many ticks in which nothing happens each bucket is on its own port. */
#define CALM 30

/* The daemon, as far as it is here. */
static struct lagd tested, *lagd = &tested;

const char *const program = "buckets";

/* The driver. */
static bool enabled[PORTS + 1];
static int member_of[CONVERSATIONS];
/* the last: the time of the last frame that is counted */
static uint64_t sent[CONVERSATIONS], counted[CONVERSATIONS], last_counted[CONVERSATIONS];
static uint64_t last_sent[CONVERSATIONS], all_sent, counted_at;
static uint16_t placed_in; /* the aggregator that was active last */
static unsigned refusals, shortages; /* how many orders are refused from now on, and for how many the kernel has no memory */
static unsigned unread;              /* how often what the driver has cannot be read from now on */

/* The library: which ports distribute, in which of two aggregators, and the port of each conversation in either. */
static bool distributes[PORTS + 1];
static uint16_t aggregator = 1, on[3][CONVERSATIONS];
static bool carrier;
static unsigned lost, unread_told; /* how many links were lost, and how often it was told that nothing can be read */
static bool early, stranded; /* whether a bucket left a port too early, or was left on one that is disabled */

static unsigned random_below(unsigned bound) {
    return (unsigned)random() % bound;
}

/* Whether a conversation is on a port that distributes. */
static bool is_on(uint16_t agg, uint16_t conv) {
    return on[agg][conv] != 0 && distributes[on[agg][conv]];
}

struct niw_number lagffi_offer_conversation(struct niw_system *handle, uint16_t agg, uint16_t conv) {
    struct niw_number answer = {.status = NIW_OK};
    if (on[agg][conv] != 0 && !is_on(agg, conv)) answer.status = NIW_HELD;
    if (on[agg][conv] == 0 && lagd->carry.active_count == 0) answer.status = NIW_NONE_DISTRIBUTING;
    if (answer.status == NIW_OK && on[agg][conv] == 0) on[agg][conv] = lagd->carry.active_ports[conv % lagd->carry.active_count];
    answer.number = on[agg][conv];
    return answer;
}

uint32_t lagffi_force(struct niw_system *handle, uint16_t agg, uint16_t conv) {
    bool held = on[agg][conv] != 0 && !is_on(agg, conv);
    if (held) on[agg][conv] = 0;
    return held ? NIW_OK : NIW_NOT_ASSIGNED;
}

uint32_t lagffi_rest(struct niw_system *handle, uint16_t agg, uint16_t conv) {
    bool has = is_on(agg, conv);
    if (has) on[agg][conv] = 0;
    return has ? NIW_OK : NIW_NOT_ASSIGNED;
}

bool ask_state(struct core *core, uint16_t agg, uint16_t number, struct niw_assignment *state) {
    *state = (struct niw_assignment){.port = on[agg][number], .what = NIW_CONVERSATION_FREE};
    if (on[agg][number] != 0) state->what = is_on(agg, number) ? NIW_CONVERSATION_ON : NIW_CONVERSATION_WANTED;
    return true;
}

bool is_held(const struct niw_assignment *state) {
    return state->what == NIW_CONVERSATION_WANTED;
}

static bool refuses(void) {
    errno = ENOBUFS;
    if (shortages > 0 && shortages-- > 0) return true;
    errno = ENODEV;
    return refusals > 0 && refusals-- > 0;
}

bool set_port_enabled(uint16_t family, int index, int port, bool wanted) {
    uint16_t number = (uint16_t)(port - INDEX);
    if (!lagd->team.taken[number - 1] || refuses()) return false;
    for (uint16_t bucket = 0; !wanted && bucket < CONVERSATIONS; bucket++) {
        if (member_of[bucket] != port) continue;
        stranded = stranded || lagd->carry.active_count > 0;
        member_of[bucket] = 0;
    }
    enabled[number] = wanted;
    return true;
}

bool set_bucket(uint16_t family, int index, uint16_t bucket, int port) {
    uint16_t before = member_of[bucket] == 0 ? 0 : (uint16_t)(member_of[bucket] - INDEX);
    bool leaves = before != 0 && before != port - INDEX && distributes[before] && placed_in == aggregator;
    if (!enabled[port - INDEX] || refuses()) return false;
    if (leaves && last_counted[bucket] + FLIGHT > counted_at) early = true;
    member_of[bucket] = port;
    return true;
}

bool ask_interface(int index, const char *name, struct interface *device) {
    *device = (struct interface){.index = index, .octets_sent = all_sent};
    return true;
}

bool read_team(uint16_t family, int index, struct team_now *now) {
    *now = (struct team_now){0};
    errno = ENOBUFS;
    if (unread > 0 && unread-- > 0) return false;
    memcpy(now->members, member_of, sizeof now->members);
    memcpy(now->octets, counted, sizeof now->octets);
    for (uint16_t port = 1; port <= PORTS; port++) {
        if (!lagd->team.taken[port - 1]) continue;
        now->ports[now->port_count] = port + INDEX;
        now->enabled[now->port_count++] = enabled[port];
    }
    return index == DEVICE;
}

/* What the daemon has beside. */
ANSWERS(uint64_t milliseconds, lagd->carry.time, void)
NOTHING(give_addresses_or_lose_members, struct team_plane *team)
NOTHING(begin_carry_tick_and_announce, struct printer *printer, uint64_t *time, unsigned *carrier_ticks, struct announce *announce,
    const struct device *device)
NOTHING(note_heard, struct carry *carry)
NOTHING(end_carry_tick_and_wake_ports, struct carry *carry)
NOTHING(count_and_forget_heard, struct carry *carry)
void set_carrier(struct device *device, bool on) {
    carrier = on;
}
bool say(struct printer *printer, int level, const char *format, ...) {
    unread_told += strstr(format, "does not tell") != NULL;
    return true;
}

void choose_ports_and_tell_host(struct plane *plane) {
    lagd->carry.active_count = 0;
    for (uint16_t port = 1; port <= PORTS; port++)
        if (distributes[port]) lagd->carry.active_ports[lagd->carry.active_count++] = port;
    lagd->carry.active = lagd->carry.active_count > 0 ? aggregator : 0;
}

/* The driver refused something of a port: its link is lost, and so is its place. */
void lose_link_and_ask_again(struct protocol *protocol, struct link *link) {
    uint16_t port = (uint16_t)(link - protocol->ports->links + 1);
    lost++;
    distributes[port] = lagd->team.taken[port - 1] = enabled[port] = false;
    for (uint16_t bucket = 0; bucket < CONVERSATIONS; bucket++)
        if (member_of[bucket] == port + INDEX) member_of[bucket] = 0;
    forget_port(&lagd->team, port);
}

/* An interface becomes a port again: the driver enables it. */
static void take_port(uint16_t port) {
    if (lagd->team.taken[port - 1]) return;
    lagd->team.taken[port - 1] = enabled[port] = true;
    forget_port(&lagd->team, port);
}

/* The driver counts what was sent. */
static void count(void) {
    memcpy(counted, sent, sizeof counted);
    memcpy(last_counted, last_sent, sizeof last_counted);
    counted_at = lagd->carry.time;
}

/* Some conversations send for a while, and are still for a while. */
static void send_some(void) {
    static bool sends[CONVERSATIONS];
    for (uint16_t number = 0; number < CONVERSATIONS; number++) {
        if (random_below(8) == 0) sends[number] = random_below(3) == 0;
        if (random_below(1000) == 0) all_sent += 60; /* by the queue that the frame asks for, and so by no bucket */
        if (!sends[number] || lagd->carry.active_count == 0) continue;
        sent[number] += 60;
        all_sent += 60;
        last_sent[number] = lagd->carry.time;
    }
}

static void happen(void) {
    uint16_t port = (uint16_t)(1 + random_below(PORTS)), bucket = (uint16_t)random_below(CONVERSATIONS);
    if (random_below(20) == 0 && lagd->team.taken[port - 1]) distributes[port] = !distributes[port];
    if (random_below(10) == 0) take_port(port);
    if (random_below(100) == 0) aggregator = 3 - aggregator;
    if (random_below(200) == 0) refusals = 1 + random_below(2);
    if (random_below(50) == 0 && lagd->team.taken[port - 1] && !distributes[port]) enabled[port] = true;
    if (random_below(50) == 0 && enabled[port] && lagd->carry.active_count > 0 && !distributes[port]) member_of[bucket] = port + INDEX;
}

static void settle(void) {
    for (unsigned turn = 0; turn < 8; turn++) {
        lagd->plane.changed = false;
        settle_team_or_lose_member(&lagd->plane);
        if (!lagd->plane.changed) break;
    }
    if (lagd->carry.active != 0) placed_in = aggregator;
}

/* 100 ms pass. */
static void pass(bool eventful) {
    lagd->carry.time += TICK;
    if (eventful) happen();
    if (eventful) send_some();
    if (!eventful || random_below(4) > 0) count();
    choose_ports_and_tell_host(&lagd->plane);
    pass_tick_of_team(&lagd->plane);
    settle();
}

static bool are_placed(void) {
    bool right = carrier == (lagd->carry.active_count > 0);
    for (uint16_t bucket = 0; bucket < CONVERSATIONS; bucket++) {
        uint16_t port = on[aggregator][bucket];
        right = right && on[3 - aggregator][bucket] == 0;
        right = right && (lagd->carry.active_count == 0 || (port != 0 && member_of[bucket] == port + INDEX && distributes[port]));
    }
    for (uint16_t port = 1; port <= PORTS; port++) right = right && (!lagd->team.taken[port - 1] || enabled[port] == distributes[port]);
    return right;
}

/* Whether each bucket is on the port of its number. */
static bool are_spread(void) {
    for (uint16_t bucket = 0; lagd->carry.active_count > 0 && bucket < CONVERSATIONS; bucket++)
        if (member_of[bucket] != lagd->carry.active_ports[bucket % lagd->carry.active_count] + INDEX) return false;
    return true;
}

/* The kernel has no memory for a while: no link is lost, and all is told again. One that never has any loses a link. */
static void check_shortages(void) {
    unsigned before = lost;
    for (uint16_t port = 1; port <= PORTS; port++) {
        take_port(port);
        distributes[port] = true;
    }
    for (unsigned turn = 0; turn < CALM; turn++) pass(false);
    distributes[1] = false;
    shortages = 4;
    pass(false);
    CHECK(!are_placed() && lost == before);
    for (unsigned turn = 0; turn < 5; turn++) pass(false);
    CHECK(are_placed() && lost == before);
    distributes[1] = true;
    shortages = 1000;
    for (unsigned turn = 0; turn < CALM; turn++) pass(false);
    CHECK(lost > before);
    shortages = 0;
}

/* What the driver has cannot be read: that has one line, and goes on once it can. */
static void check_unread(void) {
    unsigned before = unread_told;
    unread = 1000;
    for (unsigned turn = 0; turn < 10 * CALM; turn++) pass(false);
    CHECK(unread_told == before + 1);
    unread = 0;
    for (uint16_t port = 1; port <= PORTS; port++) {
        take_port(port);
        distributes[port] = true;
    }
    for (unsigned turn = 0; turn < 2 * CALM; turn++) pass(false);
    CHECK(are_placed() && are_spread());
}

int main(void) {
    unsigned wrong = 0, unspread = 0, calms = 0;
    join_parts(lagd);
    lagd->device.index = DEVICE;
    lagd->settings.flight = FLIGHT;
    lagd->ports.count = PORTS;
    srandom(1);
    lagd->carry.time = 1000;
    for (uint16_t i = 0; i < PORTS; i++) lagd->ports.links[i] = (struct link){.name = "port", .index = i + 1 + INDEX};
    for (uint16_t port = 1; port <= PORTS; port++) take_port(port);
    start_buckets(&lagd->team);
    for (unsigned turn = 0; turn < TURNS; turn++) {
        bool calm = turn % 200 >= 200 - 2 * CALM;
        for (uint16_t port = 1; calm && port <= PORTS; port++) take_port(port);
        for (uint16_t port = 1; turn % 200 == 200 - 2 * CALM && port <= PORTS; port++)
            distributes[port] = turn % 600 > 200 && (port == 1 || random_below(2) == 0);
        if (calm) refusals = 0;
        pass(!calm);
        if (turn % 200 >= 200 - CALM) wrong += !are_placed(); /* what others set is set back within a second */
        if (turn % 200 == 199) {
            calms++;
            unspread += !are_spread();
        }
    }
    CHECK(wrong == 0 && !stranded);
    CHECK(!early);
    CHECK(calms == TURNS / 200 && unspread == 0);
    CHECK(lagd->carry.counts[MOVES] > 1000 && lagd->carry.counts[RESTED] > 1000 && lagd->carry.counts[FORCED] > 1000);
    check_shortages();
    check_unread();
    return tell_checks();
}
