/* A switch with one chip of 128 ports in 64 LAGs: a handle for each LAG, by hosts/shared/lag_end.h, and one buffer for all of them. A port moves from one
 * handle to another, no call is made for a LAG in which nothing is due, and all LAGs start warm while the chip forwards. Two such switches are joined by a cable
 * at each port, and their chips are played here.
 *
 * The chip spreads frames over a trunk by a hash of its own, and has no rows. So no conversation is offered, no marker is sent, and order is not promised
 * when the ports of a trunk change. For a chip with rows each LAG takes the steps of trunk.c. One task makes all calls: the handles share their memory.
 *
 * cc -O2 -DNIW_POOL -Icrates/lagffi/include -o large_chip examples/c/large_chip.c c/lag.c && ./large_chip */
#include <stdio.h>

#include "../../hosts/shared/lag_end.h"

#define PORTS 128
#define LAGS 64
#define MOST 8 /* ports of a LAG; a handle has 64 at most */
#define ROWS NIW_FEW_CONVERSATIONS
#define HASHES 16

/* A LAG has as many aggregators as ports. So the handles of a switch take the same, however its ports are spread over them; a move makes two before it frees
 * two. */
#define MEMORY ((LAGS - 1) * NIW_MEMORY(0, 0, ROWS) + NIW_MEMORY(PORTS, PORTS, ROWS) + 2 * NIW_MEMORY(MOST, MOST, ROWS))

/* Each port is in one trunk, or in none. One that is blocked passes control frames alone. */
struct chip {
    struct { uint16_t ports[MOST]; size_t count; } trunks[LAGS + 1];
    uint16_t trunk_of[PORTS + 1];
    bool up[PORTS + 1], blocked[PORTS + 1];
    unsigned blocks, flushes;
};

/* What outlives the program that runs LACP: in memory, or in a file, as lag_state.h writes one. No marker is sent, so no number of one is kept. */
struct kept {
    uint16_t lag_of[PORTS + 1];  /* whose handle has the port, or 0 */
    uint16_t carried[PORTS + 1]; /* the aggregator in which it distributes with a partner, or 0 */
    struct lag_heard heard[PORTS + 1];
};

struct lag {
    struct lag_end ends[2]; /* the one in use, and the next */
    unsigned used;
    int64_t due; /* when it wants a turn */
};

struct box {
    uint8_t number; /* that of the MAC address */
    struct chip chip;
    struct kept kept;
    struct lag lags[LAGS + 1]; /* 0 has no handle: it is that of ports in no LAG */
    struct lag_limit limits[PORTS + 1];
    struct { uint16_t port; size_t length; uint8_t octets[NIW_FRAME]; } trapped[8 * PORTS];
    size_t waiting;
    unsigned turns, sent;
};

static _Alignas(16) uint8_t room[2 * MEMORY];
static struct box one = {.number = 1}, two = {.number = 2};
static int64_t now; /* in ms */
static bool away;   /* whether the program of the first one does not run */
static unsigned lost, strayed;

static void must(uint32_t status, const char *what) {
    if (status == NIW_OK) return;
    printf("%s: %s\n", what, niw_status_text(status));
    exit(1);
}

static void chip_block(struct chip *chip, uint16_t port, bool blocked) {
    chip->blocked[port] = blocked;
    chip->blocks += blocked;
}

static void chip_set_trunk(struct chip *chip, uint16_t lag, const uint16_t *ports, size_t count) {
    for (size_t i = 0; i < chip->trunks[lag].count; i++) chip->trunk_of[chip->trunks[lag].ports[i]] = 0;
    for (size_t i = 0; i < count; i++) chip->trunk_of[ports[i]] = lag;
    memcpy(chip->trunks[lag].ports, ports, count * sizeof *ports);
    chip->trunks[lag].count = count;
}

/* Forgets what was learned on a LAG. This chip learns nothing. */
static void chip_flush(struct chip *chip, uint16_t lag) {
    (void)lag;
    chip->flushes++;
}

static void chip_send(struct box *box, uint16_t port, const uint8_t *frame, size_t length) {
    struct box *to = box == &one ? &two : &one;
    if (!box->chip.up[port] || to->waiting == sizeof to->trapped / sizeof *to->trapped) return;
    to->trapped[to->waiting].port = port, to->trapped[to->waiting].length = length;
    memcpy(to->trapped[to->waiting++].octets, frame, length);
}

/* By itself the chip sends a frame of each hash on each trunk. */
static void forward(const struct box *from, const struct box *to) {
    for (uint16_t lag = 1; lag <= LAGS; lag++)
        for (size_t hash = 0; hash < HASHES && from->chip.trunks[lag].count > 0; hash++) {
            uint16_t port = from->chip.trunks[lag].ports[hash % from->chip.trunks[lag].count];
            if (!from->chip.up[port] || to->chip.blocked[port]) lost++;
            else strayed += to->chip.trunk_of[port] != lag;
        }
}

static struct lag_end *end_of(struct box *box, uint16_t lag) {
    return &box->lags[lag].ends[box->lags[lag].used];
}

static struct lag_end *next_of(struct box *box, uint16_t lag) {
    return &box->lags[lag].ends[!box->lags[lag].used];
}

/* A port is blocked before it leaves its trunk, and passes data once it is in one. A trunk that stays as it is is not written. */
static void tell_chip(struct chip *chip, uint16_t lag, const uint16_t *ports, size_t count) {
    bool stays[PORTS + 1] = {false};
    if (count == chip->trunks[lag].count && memcmp(ports, chip->trunks[lag].ports, count * sizeof *ports) == 0) return;
    for (size_t i = 0; i < count; i++) stays[ports[i]] = true;
    for (size_t i = 0; i < chip->trunks[lag].count; i++)
        if (!stays[chip->trunks[lag].ports[i]]) chip_block(chip, chip->trunks[lag].ports[i], true);
    chip_set_trunk(chip, lag, ports, count);
    chip_flush(chip, lag);
    for (size_t i = 0; i < count; i++)
        if (chip->blocked[ports[i]]) chip_block(chip, ports[i], false);
}

/* Behind calls of a LAG, once for all that came together: the chip, then the LACPDUs that say so. The trunk has the ports of the active aggregator that have a
 * partner; none where the LAG has no ports, and so no handle. */
static void settle(struct box *box, uint16_t lag) {
    struct niw_system *system = &end_of(box, lag)->system;
    struct niw_view views[NIW_MOST_PORTS];
    uint16_t trunk[MOST], before = 0;
    size_t ports = 0, count = 0;
    uint8_t frame[NIW_FRAME];
    for (lag_end_views(end_of(box, lag), views); ports < MOST && views[ports].port != 0; ports++) {
        const struct niw_view *it = &views[ports];
        box->kept.carried[it->port] = it->port_status == NIW_PORT_STATUS_DISTRIBUTING && !it->defaulted ? it->aggregator : 0;
        if (box->chip.trunk_of[it->port] == lag && box->kept.carried[it->port] != 0) before = it->aggregator;
    }
    uint64_t active = niw_active_aggregator(system, before).number;
    for (size_t i = 0; i < ports; i++)
        if (box->kept.carried[views[i].port] != 0 && views[i].aggregator == active) trunk[count++] = views[i].port;
    tell_chip(&box->chip, lag, trunk, count);
    for (size_t i = 0; i < ports; i++)
        for (; niw_transmit(system, views[i].port, frame, sizeof frame).is; box->sent++) chip_send(box, views[i].port, frame, sizeof frame);
    box->lags[lag].due = lag_end_due(end_of(box, lag));
}

/* The chip trapped a frame to 01-80-C2-00-00-02. The ticks that passed are made up before it. */
static void take(struct box *box, uint16_t port, const uint8_t *frame, size_t length) {
    uint8_t response[NIW_FRAME];
    uint16_t lag = box->kept.lag_of[port];
    lag_end_advance(end_of(box, lag), now);
    struct niw_received received = niw_receive(&end_of(box, lag)->system, port, frame, length, response, sizeof response);
    if (received.status == NIW_NO_SYSTEM) return; /* the port is in no LAG */
    must(received.status, "niw_receive");
    if (received.what == NIW_RECEIVED_TOOK_LACPDU) lag_hear(&box->kept.heard[port], frame, now);
    if (received.what == NIW_RECEIVED_RESPOND && lag_may_respond(&box->limits[port], now)) chip_send(box, port, response, received.number);
    box->lags[lag].due = now;
}

/* What the task does each 100 ms, and when frames wait. A LAG settles once for all its frames. One in which nothing is due waits: its ticks are made up before
 * its next call. */
static void turn(struct box *box) {
    for (size_t i = 0; i < box->waiting; i++) take(box, box->trapped[i].port, box->trapped[i].octets, box->trapped[i].length);
    box->waiting = 0;
    for (uint16_t lag = 1; lag <= LAGS; lag++) {
        if (box->lags[lag].due > now) continue;
        lag_end_advance(end_of(box, lag), now);
        settle(box, lag);
        box->turns++;
    }
}

/* Makes the next handle of a LAG, of the ports that are its own now. Those that carried go on in it; lag_end_remake tells of one that begins anew, and why. */
static uint32_t make_next(struct box *box, uint16_t lag) {
    struct niw_config config = {.priority = 32768, .mac = {2, 0, 0, 0, 0, box->number}, .conversations = ROWS};
    struct lag_port ports[MOST] = {0};
    size_t count = 0;
    for (uint16_t port = 1; port <= PORTS; port++) {
        if (lag == 0 || box->kept.lag_of[port] != lag) continue;
        if (count == MOST) return NIW_OVER_LIMIT;
        struct lag_port *it = &ports[count++];
        it->port = (struct niw_port){port, 128, {2, 0, 0, 1, (uint8_t)port, box->number}, lag, true, true, false};
        it->up = box->chip.up[port], it->heard = &box->kept.heard[port];
        it->carried = box->kept.carried[port] != 0, it->aggregator = box->kept.carried[port];
    }
    uint32_t status = lag_end_remake(next_of(box, lag), &config, ports, count, now).status;
    for (size_t i = 0; status == NIW_OK && i < count; i++)
        if (ports[i].begins) printf("port %u begins anew: %s\n", ports[i].port.number, lag_why_text(ports[i].why));
    return status;
}

static void use_next(struct box *box, uint16_t lag) {
    lag_end_free(end_of(box, lag));
    box->lags[lag].used ^= 1;
    settle(box, lag);
}

/* The user moves a port to another LAG; 0 is none, where it is blocked until the program lets it pass data by itself, as `part` of loop.h does. Both next
 * handles are made first: where one is refused, nothing has changed. */
static uint32_t move(struct box *box, uint16_t port, uint16_t to) {
    uint16_t from = box->kept.lag_of[port], carried = box->kept.carried[port];
    if (from == to) return NIW_OK;
    lag_end_advance(end_of(box, from), now);
    lag_end_advance(end_of(box, to), now);
    box->kept.lag_of[port] = to, box->kept.carried[port] = 0;
    uint32_t status = make_next(box, to);
    if (status == NIW_OK) status = make_next(box, from);
    if (status != NIW_OK) {
        lag_end_free(next_of(box, to));
        box->kept.lag_of[port] = from, box->kept.carried[port] = carried;
        return status;
    }
    if (from != 0) must(niw_hold(&end_of(box, from)->system, port, true), "niw_hold");
    settle(box, from); /* the chip blocks the port, and its peer hears that it leaves */
    box->kept.heard[port].is = false;
    use_next(box, from);
    use_next(box, to);
    return NIW_OK;
}

static void set_link(struct box *box, uint16_t port, bool up) {
    uint16_t lag = box->kept.lag_of[port];
    box->chip.up[port] = up;
    if (!up) box->kept.heard[port].is = false;
    if (lag == 0) return;
    lag_end_advance(end_of(box, lag), now);
    must(niw_set_link(&end_of(box, lag)->system, port, up), "niw_set_link");
    settle(box, lag);
}

/* At the first start the chip blocks each port. At a warm one the ports that carried go on, and the chip is not written. `stop` and `start` also make a buffer
 * whole again in which handles of unlike size left holes. */
static void start(struct box *box) {
    for (uint16_t lag = 1; lag <= LAGS; lag++) {
        must(make_next(box, lag), "a LAG");
        use_next(box, lag);
    }
}

static void stop(struct box *box) {
    for (uint16_t lag = 1; lag <= LAGS; lag++) lag_end_free(end_of(box, lag));
    memset(box->lags, 0, sizeof box->lags);
}

static void tick(void) {
    now += NIW_TICK_MILLISECONDS;
    forward(&one, &two);
    forward(&two, &one);
    do {
        if (away) one.waiting = 0;
        else turn(&one);
        turn(&two);
    } while (one.waiting + two.waiting > 0);
}

/* Ticks until both chips have so many ports in each of these trunks. */
static unsigned until(uint16_t first, uint16_t last, size_t count) {
    for (unsigned ticks = 1; ticks < 1000; ticks++) {
        uint16_t lag = first;
        tick();
        while (lag <= last && one.chip.trunks[lag].count == count && two.chip.trunks[lag].count == count) lag++;
        if (lag > last) return ticks;
    }
    return 0;
}

static void run(unsigned ticks) {
    while (ticks-- > 0) tick();
}

/* What both chips have, and what was done to each since the last line. */
static void show(const char *what) {
    printf("%s:", what);
    for (uint16_t lag = 1; lag <= 2; lag++) {
        printf(" LAG %u has", lag);
        for (size_t i = 0; i < one.chip.trunks[lag].count; i++) printf(" %u", one.chip.trunks[lag].ports[i]);
        printf(one.chip.trunks[lag].count == two.chip.trunks[lag].count ? "," : " at one end,");
    }
    printf(" blocked %u and %u, flushed %u and %u, frames lost %u\n", one.chip.blocks, two.chip.blocks, one.chip.flushes, two.chip.flushes, lost);
    one.chip.blocks = two.chip.blocks = one.chip.flushes = two.chip.flushes = lost = 0;
}

/* Another user of the buffer takes what is left of it, and gives it back. */
static void show_refusal(void) {
    static struct niw_system others[64];
    struct niw_config config = {.conversations = ROWS};
    struct niw_port port = {.number = 1};
    uint16_t keys[NIW_MOST_PORTS] = {0};
    size_t count = 0;
    for (size_t size = NIW_MOST_PORTS; size > 0; size /= 2)
        while (count < sizeof others / sizeof *others && niw_new(&others[count], &config, keys, size, &port, 1).status == NIW_OK) count++;
    printf("no memory is left, port 2 moves back at one end: %s\n", niw_status_text(move(&one, 2, 1)));
    run(100);
    while (count > 0) niw_free(&others[--count]);
    show("10 s later");
}

int main(void) {
    niw_give_memory(room, sizeof room);
    for (uint16_t port = 1; port <= PORTS; port++) {
        one.kept.lag_of[port] = two.kept.lag_of[port] = (uint16_t)((port + 1) / 2);
        one.chip.up[port] = two.chip.up[port] = one.chip.blocked[port] = two.chip.blocked[port] = true;
    }
    start(&one);
    start(&two);
    printf("all ports of %u LAGs carry after %u ticks\n", LAGS, until(1, LAGS, 2));
    show("two ports each");
    run(100);
    one.turns = one.sent = 0;
    run(3000);
    printf("3000 ticks in which nothing changes: %u LACPDUs of %u ports, %u turns of a LAG in place of %u\n", one.sent, PORTS, one.turns, 3000 * LAGS);
    set_link(&one, 1, false);
    set_link(&two, 1, false);
    run(20);
    show("cable 1 is pulled");
    set_link(&one, 1, true);
    set_link(&two, 1, true);
    printf("it is put in again: all after %u ticks\n", until(1, 1, 2));
    show("two ports each");
    must(move(&one, 2, 2), "move");
    run(50);
    show("port 2 moves at one end");
    must(move(&two, 2, 2), "move");
    printf("at the other end, too: all after %u ticks\n", until(2, 2, 3));
    show("all as configured");
    stop(&one);
    away = true;
    run(10);
    away = false;
    start(&one);
    run(1000);
    show("a warm start of all LAGs of one end, 1 s long");
    show_refusal();
    must(move(&one, 2, 0), "move");
    run(50);
    show("port 2 leaves at one end");
    must(move(&one, 2, 1), "move");
    must(move(&two, 2, 1), "move");
    printf("it joins LAG 1 at both ends: all after %u ticks\n", until(1, 1, 2));
    show("two ports each");
    printf("frames in another LAG than they were sent in: %u\n", strayed);
    stop(&one);
    stop(&two);
    return strayed > 0;
}
