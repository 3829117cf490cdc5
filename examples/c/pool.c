/* The LACP of a switch without a heap, by loop.h: by -DNIW_POOL the library of c/lag.c takes its memory from one buffer of the program, which all handles
 * share. Two such switches are joined by a cable at each port, and their chips are played here; some cables are silent: they carry nothing, though their
 * links are up. It prints the same with 8 ports in 4 LAGs, by -DPORTS=8 -DLAGS=4, as with 4 in 2.
 *
 * cc -O2 -DNIW_POOL -Icrates/lagffi/include -o pool examples/c/pool.c c/lag.c && ./pool
 * This program prints by printf. The library itself calls memcpy, memmove and memset alone; by -ffreestanding these are the program's own. */
#include <stdio.h>

#ifndef PORTS
#define PORTS 4
#define LAGS 2
#endif
#define CONVERSATIONS NIW_ONE_CONVERSATION
#define ALL ((UINT32_C(1) << PORTS) - 1)

#include "loop.h"

_Static_assert(sizeof(void *) != 4 || sizeof(struct loop) == 36 + 8 * LAGS + 48 * (PORTS + 1), "docs/FIRMWARE.md tells this size");

static _Alignas(16) uint8_t room[2 * NIW_MEMORY(PORTS, LAGS, CONVERSATIONS)];

struct trapped { uint16_t port; size_t length; uint8_t octets[NIW_FRAME]; };

/* A switch: its loop, and its chip, which stays as it is when the loop begins anew. */
struct box {
    struct loop loop;
    uint32_t trunk[LAGS];
    uint32_t blocked;
    struct trapped wait[48]; /* a ring of the frames that the chip trapped */
    unsigned first, waiting, lent; /* `lent`: 1: the loop reads the first one */
};

static struct box one, two;
static uint32_t silent; /* bit 0: that of port 1 */
static bool strayed;

static struct box *box_of(const struct loop *loop) {
    return loop == &one.loop ? &one : &two;
}

/* Notes a port that passes data though it is neither in a trunk nor alone, or which the chip has in two trunks. */
static void look(const struct loop *here) {
    const struct box *box = box_of(here);
    uint32_t passes = here->alone;
    for (unsigned lag = 0; lag < LAGS; lag++) {
        if (passes & box->trunk[lag]) strayed = true;
        passes |= box->trunk[lag];
    }
    if (ALL & ~box->blocked & ~passes) strayed = true;
}

static const uint8_t *chip_next(struct loop *here, uint16_t *port, size_t *length) {
    struct box *box = box_of(here);
    box->first = (box->first + box->lent) % (unsigned)(sizeof box->wait / sizeof *box->wait);
    box->waiting -= box->lent;
    box->lent = box->waiting > 0;
    if (!box->lent) return NULL;
    const struct trapped *oldest = &box->wait[box->first];
    *port = oldest->port, *length = oldest->length;
    return oldest->octets;
}

static void chip_send(struct loop *here, uint16_t port, const uint8_t *frame, size_t length) {
    struct box *to = box_of(here) == &one ? &two : &one;
    unsigned most = sizeof to->wait / sizeof *to->wait;
    if (to->waiting == most || silent & bit_of(port)) return;
    struct trapped *last = &to->wait[(to->first + to->waiting++) % most];
    last->port = port, last->length = length;
    for (size_t i = 0; i < length; i++) last->octets[i] = frame[i];
}

static void chip_block(struct loop *here, uint32_t ports, bool blocked) {
    struct box *box = box_of(here);
    box->blocked = blocked ? box->blocked | ports : box->blocked & ~ports;
    look(here);
}

static void chip_set_trunk(struct loop *here, uint16_t lag, uint32_t ports) {
    box_of(here)->trunk[lag - 1] = ports;
    look(here);
}

static void chip_flush(struct loop *here, uint16_t lag) {
    (void)here, (void)lag; /* this chip learns nothing */
}

static void heard(struct loop *here, uint16_t port, const uint8_t *frame, size_t length, uint32_t what) {
    (void)here, (void)port, (void)frame, (void)length, (void)what; /* it counts nothing */
}

static uint32_t make(struct box *box, uint8_t number, uint16_t conversations) {
    struct niw_config config = {.priority = 32768, .mac = {2, 0, 0, 0, 0, number}, .first_marker = 1, .conversations = conversations};
    struct niw_port ports[PORTS];
    for (uint16_t i = 0; i < PORTS; i++)
        ports[i] = (struct niw_port){(uint16_t)(i + 1), 128, {2, 0, 0, 0, (uint8_t)(i + 1), number}, 0, true, true, true};
    return begin(&box->loop, &config, ports);
}

static void join_all(struct box *box, uint16_t lag) {
    for (uint16_t port = 1; port <= PORTS; port++) join(&box->loop, port, lag);
}

static void leave_from(struct box *box, uint16_t first) {
    for (uint16_t port = first; port <= PORTS; port++) leave(&box->loop, port);
}

static void deliver(void) {
    while (one.waiting || two.waiting) {
        turn(&one.loop, 0);
        turn(&two.loop, 0);
    }
}

/* Whether the chip has these ports in the first trunk; and in the next ones a pair of ports each, or none. */
static bool carries(const struct box *box, uint32_t wanted, bool pairs) {
    bool has = box->trunk[0] == wanted;
    for (unsigned lag = 1; lag < LAGS; lag++) has = has && box->trunk[lag] == (pairs ? UINT32_C(3) << 2 * lag : 0);
    return has;
}

/* So many ticks of 100 ms; answers after how many both chips have these trunks, and no others from then on; else 0. */
static unsigned run_both(unsigned ticks, uint32_t wanted, bool pairs) {
    unsigned first = 0;
    for (unsigned passed = 1; passed <= ticks; passed++) {
        turn(&one.loop, 1);
        turn(&two.loop, 1);
        deliver();
        if (!carries(&one, wanted, pairs) || !carries(&two, wanted, pairs)) first = 0;
        else if (!first) first = passed;
    }
    return first;
}

static unsigned run(unsigned ticks, uint32_t wanted) {
    return run_both(ticks, wanted, false);
}

static void set_links(uint16_t from, uint16_t to, bool up) {
    for (uint16_t port = from; port <= to; port++) {
        set_link(&one.loop, port, up);
        set_link(&two.loop, port, up);
    }
}

static void set_timeouts(bool are_short) {
    for (uint16_t port = 1; port <= PORTS; port++) {
        niw_set_mode(&one.loop.system, port, true, are_short);
        niw_set_mode(&two.loop.system, port, true, are_short);
    }
}

/* So many markers of the peer come at once on a port; answers how many responses go out. */
static unsigned burst(unsigned markers, uint16_t port) {
    uint8_t frame[NIW_FRAME];
    for (unsigned i = 0; i < markers; i++)
        if (niw_probe(&two.loop.system, port, frame, sizeof frame).is) chip_send(&two.loop, port, frame, sizeof frame);
    while (one.waiting) turn(&one.loop, 0);
    return two.waiting;
}

static void show_silent_ports(void) {
    silent = 1;
    set_links(1, 1, true);
    run(100, 0);
    set_links(2, PORTS, true);
    printf("port 1 hears nobody: both trunks have the others after %u ticks\n", run(100, ALL & ~UINT32_C(1)));
    silent = 3;
    printf("port 2 goes silent: the others after %u ticks\n", run(200, ALL & ~UINT32_C(3)));
    silent = 1;
    printf("it is heard again: all but port 1 after %u ticks\n", run(400, ALL & ~UINT32_C(1)));
    silent = 0;
    printf("port 1 is heard: all after %u ticks\n", run(400, ALL));
}

static void show_markers(void) {
    printf("40 markers at once: %u responses", burst(40, 2));
    run(SECOND - 1, ALL);
    printf(", %u within a second", burst(40, 2));
    run(1, ALL);
    printf(", %u behind it\n", burst(40, 2));
}

/* One task stands still, as during an erase of flash, and makes the ticks up; the limit of markers goes by the clock. */
static void show_late_ticks(void) {
    unsigned without = 0;
    burst(40, 2);
    for (unsigned passed = 0; passed < 25; passed++) {
        turn(&two.loop, 1);
        without += !carries(&two, ALL, false);
    }
    turn(&one.loop, 25);
    without += run(100, ALL) != 1;
    printf("a task stands still for 25 ticks: %u without all ports; ", without);
    printf("40 markers behind it: %u responses\n", burst(40, 2));
}

static void show_links(void) {
    set_links(1, 1, false);
    printf("the link of port 1 is down: the others after %u tick", run(10, ALL & ~UINT32_C(1)));
    set_links(1, 1, true);
    printf("; up again: all after %u\n", run(100, ALL));
}

/* With fewer ports than the least no data passes; the ports go on in LACP. */
static void show_least(void) {
    one.loop.least[0] = two.loop.least[0] = PORTS;
    set_links(1, 1, false);
    printf("all ports are wanted, and port 1 is down: no data after %u tick", run(10, 0));
    printf("; of port 1: %s; of port 2: %s\n", why_out(&one.loop, 1), why_out(&one.loop, 2));
    set_links(1, 1, true);
    printf("it is up again: all after %u ticks\n", run(100, ALL));
    one.loop.least[0] = two.loop.least[0] = 0;
}

/* The link of a port comes up at another speed, which the ports beside it don't have. */
static void show_speed(void) {
    one.loop.other_speed = two.loop.other_speed = 1;
    printf("port 1 has another speed: the others after %u tick", run(10, ALL & ~UINT32_C(1)));
    printf("; of port 1: %s\n", why_out(&one.loop, 1));
    one.loop.other_speed = two.loop.other_speed = 0;
    printf("it has that of its LAG: all after %u ticks", run(100, ALL));
    printf("; of port 1: %s\n", why_out(&one.loop, 1));
}

/* The ports beyond a limit leave before it is set, and join again: they stand by. */
static void show_limit(void) {
    printf("two links at most: %s", niw_status_text(niw_set_max_links(&one.loop.system, 2)));
    leave_from(&one, 3);
    printf("; the others leave: %s", niw_status_text(niw_set_max_links(&one.loop.system, 2)));
    for (uint16_t port = 3; port <= PORTS; port++) join(&one.loop, port, 1);
    printf("; they join: ports 1 and 2 alone after %u tick; of port 3: %s\n", run(100, 3), why_out(&one.loop, 3));
    niw_set_max_links(&one.loop.system, 0);
    settle(&one.loop);
    printf("any number of links: all after %u ticks\n", run(100, ALL));
}

/* The user takes a port out of its LAG while its cable is in place, at one end alone, and puts it back. */
static void show_leaving(void) {
    unsigned ticks = 0;
    leave(&one.loop, 1);
    printf("port 1 leaves the LAG at one end: both trunks have the others after %u tick", run(1, ALL & ~UINT32_C(1)));
    for (ticks = 1; one.blocked & 1; ticks++) run(1, 0);
    printf("; it passes data by itself after %u\n", ticks);
    run(400, 0);
    join(&one.loop, 1, 1);
    printf("it joins again: all after %u ticks\n", run(400, ALL));
}

/* Both ends ask for long timeouts, and the peer misses that the port leaves: it hears so when its own LACPDU is answered. */
static void show_lost_leave(void) {
    unsigned ticks = 0;
    set_timeouts(false);
    run(50, ALL);
    silent = 1;
    leave(&one.loop, 1);
    silent = 0;
    for (ticks = 0; two.trunk[0] & 1; ticks++) run(1, 0);
    printf("by long timeouts the peer misses that port 1 leaves: it takes the port out after %u ticks", ticks);
    for (; one.blocked & 1; ticks++) run(1, 0);
    printf("; port 1 passes data by itself after %u\n", ticks);
    set_timeouts(true);
    join(&one.loop, 1, 1);
    printf("it joins again, by short ones: all after %u ticks\n", run(400, ALL));
}

static void show_lags(void) {
    for (uint16_t port = 3; port <= PORTS; port++) join(&one.loop, port, (uint16_t)((port + 1) / 2));
    printf("two ports to a LAG, at one end: LAG 1 alone carries after %u tick", run_both(100, 3, false));
    for (uint16_t port = 3; port <= PORTS; port++) join(&two.loop, port, (uint16_t)((port + 1) / 2));
    printf("; at both ends: all LAGs after %u\n", run_both(100, 3, true));
    join_all(&one, 1);
    join_all(&two, 1);
    printf("all are of LAG 1 again: all after %u ticks\n", run(100, ALL));
}

/* The second one starts again while its chip has a trunk and a blocked port, and its ports join another LAG. The next time it says so before. */
static void show_restarts(void) {
    unsigned ticks = 0;
    set_link(&two.loop, 1, false);
    niw_free(&two.loop.system);
    make(&two, 2, CONVERSATIONS);
    printf("the second one starts again: its chip has %s", carries(&two, 0, false) && !two.blocked ? "no trunk, and no blocked port" : "what it had");
    join_all(&two, 2);
    for (uint16_t port = 1; port <= PORTS; port++) set_link(&two.loop, port, true);
    printf("; its ports join LAG 2: %u LACPDUs before the first tick", one.waiting);
    for (; one.trunk[0] != ALL || two.trunk[1] != ALL; ticks++) run(1, 0);
    printf(", all after %u\n", ticks);
    leave_from(&two, 1);
    for (ticks = 0; one.trunk[0] || two.trunk[1]; ticks++) run(1, 0);
    printf("before a restart its ports leave: both trunks are empty after %u tick", ticks);
    run(10 - ticks, 0);
    printf("; after 10 its ports are %s\n", two.blocked == ALL ? "blocked" : "not blocked");
}

int main(void) {
    static struct loop third;
    struct niw_config large = {.conversations = NIW_MANY_CONVERSATIONS};
    struct niw_port ports[PORTS] = {{0}};
    for (uint16_t i = 0; i < PORTS; i++) ports[i].number = (uint16_t)(i + 1);
    printf("before niw_give_memory: %s\n", niw_status_text(make(&one, 1, CONVERSATIONS)));
    niw_give_memory(room, sizeof room);
    printf("two handles of one buffer: %s, %s\n", niw_status_text(make(&one, 1, CONVERSATIONS)), niw_status_text(make(&two, 2, CONVERSATIONS)));
    printf("a third one with 4096 conversations: %s\n", niw_status_text(begin(&third, &large, ports)));
    printf("a second begin of the first one: %s\n", niw_status_text(begin(&one.loop, &large, ports)));
    join_all(&one, 1);
    join_all(&two, 1);
    show_silent_ports();
    show_markers();
    show_late_ticks();
    show_links();
    show_least();
    show_speed();
    show_limit();
    show_leaving();
    show_lost_leave();
    show_lags();
    show_restarts();
    set_links(1, PORTS, false);
    niw_free(&two.loop.system);
    printf("another switch in the memory of the second: %s\n", niw_status_text(make(&two, 9, CONVERSATIONS)));
    join_all(&two, 1);
    set_links(2, PORTS, true);
    printf("the other links lead there: all but port 1 after %u ticks\n", run(100, ALL & ~UINT32_C(1)));
    printf("%s\n", strayed ? "a port passed data outside a trunk" : "no port of a LAG passed data outside its trunk");
    niw_free(&one.loop.system);
    niw_free(&two.loop.system);
    return strayed;
}
