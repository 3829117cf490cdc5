/* A chip that spreads frames over 256 or ROWS hash buckets, each with a row that names a port, by rows.h: one aggregator for the LAG, in which a port that hears
 * nobody is held. A port leaves, a cable is pulled, and one falls silent; each comes back, and gets its share of the rows. A chip is reset, writes to both
 * fail, and the firmware of one starts again, warm, while rows move. Two such switches are joined by a cable at each port, and their chips are played here.
 * Each row sends a frame a tick, on cables of unlike delay: none of a bucket may come late or twice. */
#include <stdio.h>

#define PORTS 4
#define LAGS 1
#define DEPTH 2048 /* frames on a cable */
#define TRAPPED 64

#include "rows.h"

_Static_assert(sizeof(struct rows) == 264 + (ROWS > 64 ? 8 * ROWS : 512) + (4 + 4 * ROWS) * LAGS + 4 * PORTS, "docs/FIRMWARE.md tells this size");

struct packet {
    uint32_t arrives;
    bool is_data;
    uint16_t row; /* of data, and its number */
    uint32_t serial;
    size_t length;
    uint8_t octets[NIW_FRAME];
};

/* A switch, and the cables that lead to it. */
struct box {
    struct loop loop;
    struct kept kept;
    struct rows rows; /* which a reset of the processor leaves alone, as `kept` */
    uint8_t number;
    uint32_t trunk, blocked;
    uint16_t row[ROWS]; /* of the chip */
    uint32_t sent[ROWS], collected[ROWS];
    struct packet cables[PORTS][DEPTH];
    unsigned first[PORTS], count[PORTS];
    struct { uint16_t port; struct packet packet; } trapped[TRAPPED];
    unsigned next, waiting;
};

static struct box one = {.number = 1}, two = {.number = 2};
static const uint32_t DELAYS[PORTS] = {1, 3, 1, 4};
static uint32_t now, silent, chance = 1;
static unsigned late, twice, markers, fails; /* `fails`: of 1,000 writes to a chip */

static struct box *box_of(const struct loop *loop) {
    return loop == &one.loop ? &one : &two;
}

static struct rows *rows_of(struct loop *here) {
    return &box_of(here)->rows;
}

/* A number below 1,000, the same on each processor. */
static unsigned drawn(void) {
    chance = chance * UINT32_C(1664525) + UINT32_C(1013904223);
    return (chance >> 16) % 1000;
}

/* Whether a write reaches the chip. */
static bool writes(struct box *box) {
    box->loop.failed = box->loop.failed || drawn() < fails;
    return !box->loop.failed;
}

/* Puts a packet on the cable of a port; data and control frames take one queue, so a marker is behind the data. */
static void put(struct box *from, uint16_t port, struct packet packet) {
    struct box *to = from == &one ? &two : &one;
    unsigned at = port - 1u;
    packet.arrives = now + DELAYS[at];
    if (silent & bit_of(port) || to->count[at] == DEPTH) return;
    to->cables[at][(to->first[at] + to->count[at]++) % DEPTH] = packet;
}

static const uint8_t *chip_next(struct loop *here, uint16_t *port, size_t *length) {
    struct box *box = box_of(here);
    if (box->next == box->waiting) box->next = box->waiting = 0;
    if (box->waiting == 0) return NULL;
    *port = box->trapped[box->next].port, *length = box->trapped[box->next].packet.length;
    return box->trapped[box->next++].packet.octets;
}

static void chip_send(struct loop *here, uint16_t port, const uint8_t *frame, size_t length) {
    struct packet packet = {.length = length};
    memcpy(packet.octets, frame, length);
    markers += here == &one.loop && frame[14] == NIW_SUBTYPE_MARKER && frame[16] == NIW_MARKER_INFORMATION;
    put(box_of(here), port, packet);
}

static void chip_block(struct loop *here, uint32_t ports, bool blocked) {
    struct box *box = box_of(here);
    if (writes(box)) box->blocked = blocked ? box->blocked | ports : box->blocked & ~ports;
}

static void chip_set_trunk(struct loop *here, uint16_t lag, uint32_t ports) {
    (void)lag;
    if (writes(box_of(here))) box_of(here)->trunk = ports;
}

static void chip_set_row(struct loop *here, uint16_t lag, uint16_t row, uint16_t port) {
    (void)lag;
    if (writes(box_of(here))) box_of(here)->row[row] = port;
}

static void chip_flush(struct loop *here, uint16_t lag) {
    (void)here, (void)lag; /* this chip learns nothing */
}

static void heard(struct loop *here, uint16_t port, const uint8_t *frame, size_t length, uint32_t what) {
    keep_lacpdu(&box_of(here)->kept, here, port, frame, length, what);
}

/* The chip collects data of the ports of the trunk. */
static void collect(struct box *box, uint16_t port, const struct packet *packet) {
    uint32_t *last = &box->collected[packet->row];
    if (!(box->trunk & ~box->blocked & bit_of(port))) return;
    late += packet->serial < *last;
    twice += packet->serial == *last;
    *last = packet->serial;
}

static void arrive(struct box *box) {
    for (uint16_t port = 1; port <= PORTS; port++)
        for (unsigned at = port - 1u; box->count[at] > 0 && box->cables[at][box->first[at]].arrives <= now; box->count[at]--) {
            const struct packet *packet = &box->cables[at][box->first[at]];
            box->first[at] = (box->first[at] + 1) % DEPTH;
            if (packet->is_data) collect(box, port, packet);
            else if (box->waiting < TRAPPED) box->trapped[box->waiting].port = port, box->trapped[box->waiting++].packet = *packet;
        }
}

static void forward(struct box *box) {
    for (uint16_t row = 0; row < ROWS; row++)
        if (box->row[row] != 0 && !(box->blocked & bit_of(box->row[row]))) put(box, box->row[row], (struct packet){.is_data = true, .row = row, .serial = ++box->sent[row]});
}

static void run(unsigned ticks) {
    struct box *boxes[] = {&one, &two};
    for (; ticks > 0; ticks--) {
        now++;
        for (unsigned i = 0; i < 2; i++) {
            arrive(boxes[i]);
            if (boxes[i]->loop.system.live) turn(&boxes[i]->loop, 1);
            forward(boxes[i]);
        }
    }
}

static struct niw_config config_of(const struct box *box) {
    return (struct niw_config){.priority = 32768, .mac = {2, 0, 0, 0, 0, box->number}, .first_marker = 1, .conversations = NIW_FEW_CONVERSATIONS};
}

static bool make(struct box *box) {
    struct niw_config config = config_of(box);
    for (uint16_t port = 1; port <= PORTS; port++)
        box->kept.ports[port - 1] = (struct niw_port){port, 128, {2, 0, 0, 0, (uint8_t)port, box->number}, 0, true, true, true};
    if (begin(&box->loop, &config, box->kept.ports) != NIW_OK) return false;
    for (uint16_t port = 1; port <= PORTS; port++) {
        join(&box->loop, port, 1);
        set_link(&box->loop, port, true);
    }
    return true;
}

static void set_links(uint16_t port, bool up) {
    one.count[port - 1] = two.count[port - 1] = 0; /* what is on a cable that is pulled is lost */
    set_link(&one.loop, port, up);
    set_link(&two.loop, port, up);
}

static void show(const char *what) {
    unsigned counts[PORTS + 1] = {0};
    for (unsigned row = 0; row < ROWS; row++) counts[one.row[row]]++;
    printf("%s: rows of ports 1 to 4: %u %u %u %u; clear: %u\n", what, counts[1], counts[2], counts[3], counts[4], counts[0]);
}

/* The chip of the first one loses all that it was told. */
static void reset(void) {
    one.trunk = one.blocked = 0;
    memset(one.row, 0, sizeof one.row);
    chip_again(&one.loop);
}

/* A port of the first one leaves or joins, or a cable is pulled, or put in. */
static void change(void) {
    uint16_t port = (uint16_t)(1 + drawn() % PORTS);
    unsigned what = drawn() % 4;
    if (what < 2) set_links(port, what == 1);
    else if (what == 2) leave(&one.loop, port);
    else join(&one.loop, port, 1);
}

static void put_back(void) {
    for (uint16_t port = 1; port <= PORTS; port++) {
        set_links(port, true);
        join(&one.loop, port, 1);
    }
    run(300);
}

static void show_failing(void) {
    for (unsigned times = 0; times < 1000; times++) {
        fails = times % 20;
        change();
        run(drawn() % 50);
        if (one.loop.failed && strcmp(why_out(&one.loop, 1), "a write to the chip failed") != 0) puts("why_out tells of no write that failed");
    }
    fails = 0;
    put_back();
    show("up to 19 of 1,000 writes failed at both ends, in 1,000 changes");
}

static bool is_moving(void) {
    bool is = false;
    for (unsigned row = 0; row < ROWS; row++) is = is || one.row[row] == 0;
    return is;
}

/* The firmware of the first one starts again while its chip forwards, behind each change: at once, or when rows move. */
static void show_restarts(void) {
    unsigned went = 0, moving = 0;
    for (unsigned times = 0; times < 1000; times++) {
        change();
        for (unsigned ticks = drawn() % 100; ticks > 0 && !is_moving(); ticks--) run(1);
        moving += is_moving();
        keep(&one.kept, &one.loop);
        niw_free(&one.loop.system);
        uint32_t away = 1 + drawn() % 3;
        run(away);
        went += resume(&one.loop, &one.kept, away, config_of(&one)) == NIW_OK;
        if (!one.loop.system.live) make(&one);
        run(drawn() % 100);
    }
    put_back();
    printf("%u of 1,000 warm starts went well, %u of them while rows moved\n", went, moving);
    show("all ports join");
}

int main(void) {
#ifdef NIW_POOL
    static _Alignas(16) uint8_t room[2 * NIW_MEMORY(PORTS, LAGS, NIW_FEW_CONVERSATIONS)];
    niw_give_memory(room, sizeof room);
#endif
    silent = bit_of(4);
    if (!make(&one) || !make(&two)) return 1;
    run(100);
    show("port 4 hears nobody");
    silent = 0;
    run(350);
    show("it is heard");
    leave(&one.loop, 1);
    show("port 1 leaves");
    run(20);
    show("2 s later");
    join(&one.loop, 1, 1);
    run(350);
    show("it joins again");
    set_links(2, false);
    run(20);
    show("cable 2 is pulled");
    set_links(2, true);
    run(60);
    show("it is put in again");
    silent = bit_of(3);
    run(31);
    show("cable 3 carries nothing for 3 s");
    run(60);
    show("for 9 s");
    silent = 0;
    run(350);
    show("it carries again");
    reset();
    show("the chip is reset");
    show_failing();
    show_restarts();
    printf("markers: %u; frames of a bucket that came late: %u, twice: %u\n", markers, late, twice);
    niw_free(&one.loop.system);
    niw_free(&two.loop.system);
    return late + twice > 0;
}
