/* What a switch by loop.h meets: its chip resets, writes to the chip fail, and its firmware starts again while the chip forwards, warm or cold. Two switches of
 * 8 ports in 2 LAGs are joined by a cable at each port; their chips are played here, and some cables are silent. It counts the LACPDUs of a port, and tries
 * long timeouts for an hour of ticks.
 *
 * By -DNIW_POOL, beside c/lag.c, its memory is one buffer: it runs on the board of pool.c, with 64 kB. */
#include <stdio.h>

#define PORTS 8
#define LAGS 2
#define ALL ((UINT32_C(1) << PORTS) - 1)
#define FIRST UINT32_C(0x0f) /* the ports of LAG 1 */
#define QUEUE 4              /* frames of a port that may wait */

#ifdef WITH_ROWS
#include "rows.h"
#define CONVERSATIONS NIW_FEW_CONVERSATIONS
#else
#include "loop.h"
#define CONVERSATIONS NIW_ONE_CONVERSATION
#endif

struct trapped { size_t length; uint8_t octets[NIW_FRAME]; };

struct box {
    struct loop loop;
    struct kept kept;
#ifdef WITH_ROWS
    struct rows rows; /* which the reset leaves alone, too */
    uint16_t row[LAGS][ROWS];
#endif
    uint8_t number;
    uint32_t trunk[LAGS], blocked; /* the registers of the chip, which stay while the firmware starts again */
    uint32_t by_itself;            /* the ports that the chip forwards on as on any port */
    bool forwards, dead;           /* `dead`: the chip is in its reset, and passes nothing */
    bool strayed, lied;
    unsigned fails;  /* of 100 writes to the chip */
    unsigned writes; /* that reached it */
    struct niw_counters counters[PORTS];
    struct niw_churn churn[PORTS];
    struct trapped wait[PORTS][QUEUE];
    unsigned first[PORTS], waiting[PORTS];
    uint16_t lent; /* the port whose oldest frame the loop reads, or 0 */
};

static struct box one = {.number = 1}, two = {.number = 2, .loop.keys = 10};
static uint32_t silent, chance = 1;

static struct box *box_of(const struct loop *loop) {
    return loop == &one.loop ? &one : &two;
}

/* A number below 100, the same on each processor. */
static unsigned drawn(void) {
    chance = chance * UINT32_C(1664525) + UINT32_C(1013904223);
    return (chance >> 16) % 100;
}

/* Whether a write reaches the chip. */
static bool writes(struct box *box) {
    bool goes = !box->loop.failed && !box->dead && drawn() >= box->fails;
    box->loop.failed = box->loop.failed || !goes;
    box->writes += goes;
    return goes;
}

static uint32_t passes(const struct box *box) {
    return (box->trunk[0] | box->trunk[1]) & ~box->blocked;
}

static const uint8_t *chip_next(struct loop *here, uint16_t *port, size_t *length) {
    struct box *box = box_of(here);
    if (box->lent) {
        box->first[box->lent - 1] = (box->first[box->lent - 1] + 1) % QUEUE;
        box->waiting[box->lent - 1]--;
    }
    for (box->lent = 1; box->lent <= PORTS; box->lent++) {
        const struct trapped *oldest = &box->wait[box->lent - 1][box->first[box->lent - 1]];
        if (box->waiting[box->lent - 1] == 0) continue;
        *port = box->lent, *length = oldest->length;
        return oldest->octets;
    }
    box->lent = 0;
    return NULL;
}

static void chip_send(struct loop *here, uint16_t port, const uint8_t *frame, size_t length) {
    struct box *box = box_of(here), *to = box == &one ? &two : &one;
    struct niw_pdu pdu;
    uint16_t at = (uint16_t)(port - 1);
    if (box->dead) return;
    niw_count_sent(&box->counters[at], frame, length);
    if (niw_decode(frame + 14, length - 14, &pdu).status == NIW_OK && pdu.subtype == NIW_SUBTYPE_LACPDU)
        box->lied = box->lied || (pdu.actor.state & (NIW_STATE_COLLECTING | NIW_STATE_DISTRIBUTING) && !(passes(box) & bit_of(port)));
    if (to->dead || silent & bit_of(port) || to->waiting[at] == QUEUE) return;
    struct trapped *last = &to->wait[at][(to->first[at] + to->waiting[at]++) % QUEUE];
    last->length = length;
    memcpy(last->octets, frame, length);
}

static void chip_block(struct loop *here, uint32_t ports, bool blocked) {
    struct box *box = box_of(here);
    if (!writes(box)) return;
    box->blocked = blocked ? box->blocked | ports : box->blocked & ~ports;
    box->by_itself = blocked ? box->by_itself & ~ports : box->by_itself | (ports & here->alone);
}

static void chip_set_trunk(struct loop *here, uint16_t lag, uint32_t ports) {
    struct box *box = box_of(here);
    if (writes(box)) box->trunk[lag - 1] = ports;
}

static void chip_flush(struct loop *here, uint16_t lag) {
    (void)lag, (void)writes(box_of(here));
}

#ifdef WITH_ROWS
static struct rows *rows_of(struct loop *here) {
    return &box_of(here)->rows;
}

static void chip_set_row(struct loop *here, uint16_t lag, uint16_t row, uint16_t port) {
    if (writes(box_of(here))) box_of(here)->row[lag - 1][row] = port;
}

/* The rows of a chip behind a reset. */
static void lose_rows(struct box *box) {
    memset(box->row, 0, sizeof box->row);
}

/* What memory may hold that nothing wrote. */
static void spoil_rows(struct box *box, uint8_t octet) {
    memset(&box->rows, octet, sizeof box->rows);
}

/* Whether the chip has the list of the loop, each row of each LAG names a port of its trunk, and each of these has its share. */
static bool has_rows(const struct box *box) {
    for (unsigned lag = 0; lag < LAGS; lag++) {
        unsigned of[PORTS + 1] = {0}, ports = 0;
        if (memcmp(box->row[lag], box->rows.port[lag], sizeof box->row[lag]) != 0) return false;
        for (uint16_t row = 0; row < ROWS; row++) of[box->row[lag][row]]++;
        for (uint16_t port = 1; port <= PORTS; port++) ports += (box->trunk[lag] & bit_of(port)) != 0;
        for (uint16_t port = 1; port <= PORTS; port++) {
            bool passes = box->trunk[lag] & bit_of(port);
            if (passes ? of[port] < ROWS / ports || of[port] > ROWS / ports + 1 : of[port] > 0) return false;
        }
        if (ports && of[0]) return false;
    }
    return true;
}
#else
static void lose_rows(struct box *box) { (void)box; }
static void spoil_rows(struct box *box, uint8_t octet) { (void)box, (void)octet; }
static bool has_rows(const struct box *box) { return (void)box, true; }
#endif

/* Counts the frame, and keeps the last LACPDU. */
static void heard(struct loop *here, uint16_t port, const uint8_t *frame, size_t length, uint32_t what) {
    struct box *box = box_of(here);
    niw_count_received(&box->counters[port - 1], frame, length, what);
    keep_lacpdu(&box->kept, here, port, frame, length, what);
}

static struct niw_config config_of(const struct box *box) {
    return (struct niw_config){.priority = 32768, .mac = {2, 0, 0, 0, 0, box->number}, .first_marker = 1, .conversations = CONVERSATIONS};
}

/* A start of the firmware from nothing: its ports join their LAGs, and their links are up. */
static uint32_t start(struct box *box) {
    struct niw_config config = config_of(box);
    for (uint16_t port = 1; port <= PORTS; port++)
        box->kept.ports[port - 1] = (struct niw_port){port, 128, {2, 0, 0, 0, (uint8_t)port, box->number}, 0, true, true, true};
    box->forwards = false;
    uint32_t status = begin(&box->loop, &config, box->kept.ports);
    if (status != NIW_OK) return status;
    for (uint16_t port = 1; port <= PORTS; port++) join(&box->loop, port, bit_of(port) & FIRST ? 1 : 2);
    for (uint16_t port = 1; port <= PORTS; port++) set_link(&box->loop, port, true);
    box->forwards = true;
    return NIW_OK;
}

/* Notes a port that passes data outside a trunk; one that was alone and joined does so until a write goes. */
static void look(struct box *box) {
    uint32_t may = box->trunk[0] | box->trunk[1] | box->loop.alone | (box->loop.failed ? box->by_itself : 0);
    if (box->forwards && ALL & ~box->blocked & ~may) box->strayed = true;
}

/* A tick of one end. */
static void pass_one(struct box *box) {
    static struct niw_view views[NIW_MOST_PORTS];
    if (!box->loop.system.live) return; /* the firmware is away */
    turn(&box->loop, 1);
    niw_views(&box->loop.system, views, NIW_MOST_PORTS);
    for (uint16_t i = 0; i < PORTS; i++) niw_churn_tick(&box->churn[i], views[i].up, views[i].state, views[i].partner_state);
    look(box);
}

static bool carry(uint32_t ports) {
    return (passes(&one) & passes(&two)) == ports && has_rows(&one) && has_rows(&two);
}

/* So many ticks of 100 ms; answers after how many both chips pass these ports, and no others, from then on; else 0. */
static unsigned run(unsigned ticks, uint32_t wanted) {
    unsigned first = 0;
    for (unsigned passed = 1; passed <= ticks; passed++) {
        pass_one(&one);
        pass_one(&two);
        for (unsigned turns = 0; turns < 2; turns++) {
            if (one.loop.system.live) turn(&one.loop, 0);
            if (two.loop.system.live) turn(&two.loop, 0);
        }
        if (!carry(wanted) || passes(&one) != passes(&two)) first = 0;
        else if (!first) first = passed;
    }
    return first;
}

/* The chip of the first switch is reset for so long. Each port would forward by itself behind it: it is kept from that until it is told all of it. */
static void show_reset(unsigned ticks) {
    unsigned out = 0;
    one.dead = true, one.forwards = false;
    for (unsigned passed = 1; passed <= ticks; passed++) {
        run(1, 0);
        if (!out && !passes(&two)) out = passed;
    }
    one.dead = false;
    lose_rows(&one);
    one.trunk[0] = one.trunk[1] = one.blocked = one.by_itself = 0;
    chip_again(&one.loop);
    one.forwards = true;
    if (out) printf("the chip resets for %u ticks: the peer has no port after %u; all carry", ticks, out);
    else printf("the chip resets for %u ticks: the peer keeps its ports; all carry", ticks);
    printf(" %u ticks behind it\n", run(400, ALL));
}

/* Each write of the first switch fails while the link of port 1 changes: nothing of LAG 2 was to be written. */
static void show_failing(unsigned ticks) {
    unsigned out = 0;
    one.fails = 100;
    set_link(&one.loop, 1, false);
    for (unsigned passed = 1; passed <= ticks; passed++) {
        run(1, 0);
        if (!out && !two.trunk[1]) out = passed;
    }
    one.fails = 0;
    set_link(&one.loop, 1, true);
    if (out) printf("all writes fail for %u ticks: LAG 2, which did not change, is out at the peer after %u; all carry", ticks, out);
    else printf("all writes fail for %u ticks: LAG 2 stays; all carry", ticks);
    printf(" %u ticks behind it\n", run(400, ALL));
}

/* Links go and come, and ports leave and join, while so many of 100 writes of each switch fail; answers after how many ticks all carry behind it. */
static unsigned mix(unsigned fails) {
    one.fails = two.fails = fails;
    for (unsigned passed = 0; passed < 300; passed++) {
        struct loop *loop = drawn() % 2 ? &one.loop : &two.loop;
        uint16_t port = (uint16_t)(1 + drawn() % PORTS);
        unsigned what = drawn();
        if (what < 5) set_link(loop, port, !(loop->up & bit_of(port)));
        else if (what < 8) leave(loop, port);
        else if (what < 12) join(loop, port, bit_of(port) & FIRST ? 1 : 2);
        run(1, 0);
    }
    one.fails = two.fails = 0;
    for (uint16_t port = 1; port <= PORTS; port++) {
        struct loop *ends[] = {&one.loop, &two.loop};
        for (unsigned end = 0; end < 2; end++) {
            set_link(ends[end], port, true);
            if ((ends[end]->alone | ends[end]->leaving) & bit_of(port)) join(ends[end], port, bit_of(port) & FIRST ? 1 : 2);
        }
    }
    return run(400, ALL);
}

static void show_mixed(void) {
    unsigned longest = 0, all = 0;
    for (unsigned times = 0; times < 200; times++) {
        unsigned ticks = mix(times % 70);
        all += ticks > 0;
        if (ticks > longest) longest = ticks;
    }
    printf("up to 69 of 100 writes fail at both ends, 200 times for 300 ticks: %u times all carry behind it, after %u ticks at most\n", all, longest);
}

/* The firmware of the first switch is away for so long. Port 8 hears nobody before it. Answers in how many ticks from then on not all others carried. */
static void show_restart(bool warm, uint32_t away) {
    unsigned empty = 0;
    silent = bit_of(8);
    run(100, ALL & ~silent);
    keep(&one.kept, &one.loop);
    niw_free(&one.loop.system);
    memset(one.waiting, 0, sizeof one.waiting);
    one.lent = 0;
    for (uint32_t passed = 0; passed < away; passed++) {
        run(1, ALL & ~silent);
        empty += !carry(ALL & ~silent);
    }
    unsigned before = one.writes;
    uint32_t status = warm ? resume(&one.loop, &one.kept, away, config_of(&one)) : start(&one);
    printf("a %s start after %u ticks: %s, with %u writes to the chip", warm ? "warm" : "cold", (unsigned)away, niw_status_text(status), one.writes - before);
    if (status == NIW_STALE) start(&one);
    for (unsigned passed = 0; passed < 100; passed++) {
        run(1, ALL & ~silent);
        empty += !carry(ALL & ~silent);
    }
    silent = 0;
    printf("; in %u ticks not all the others carried; port 8 is heard again: all carry after %u\n", empty, run(400, ALL));
}

/* Whether a warm start by what is kept is refused by this status, and changes nothing. */
static bool refuses(uint32_t status) {
    uint32_t before = sum_octets(&one.loop, sizeof one.loop, 1);
    unsigned writes_before = one.writes;
    return resume(&one.loop, &one.kept, 10, config_of(&one)) == status && sum_octets(&one.loop, sizeof one.loop, 1) == before && one.writes == writes_before;
}

/* Whether each image is refused that differs from the kept one in an octet behind its guard. */
static bool refuses_each_octet(void) {
    uint8_t *octets = (uint8_t *)&one.kept;
    bool all = true;
    for (size_t i = offsetof(struct kept, loop); i < sizeof one.kept; i++) {
        octets[i] ^= 1;
        all = all && refuses(KEPT_BROKEN);
        octets[i] ^= 1;
    }
    return all;
}

static void fill_kept(size_t from, size_t to) {
    for (size_t i = from; i < to; i++) ((uint8_t *)&one.kept)[i] = (uint8_t)(drawn() * 5 / 2);
}

/* Whether random octets are refused, first with the length and the layout of an image. */
static bool refuses_garbage(void) {
    fill_kept(offsetof(struct kept, sum), sizeof one.kept);
    bool refused = refuses(KEPT_BROKEN);
    fill_kept(0, offsetof(struct kept, sum));
    return refused && refuses(KEPT_OTHER);
}

static bool refuses_erased(void) {
    memset(&one.kept, 255, sizeof one.kept);
    return refuses(KEPT_OTHER);
}

static bool refuses_other_layout(void) {
    one.kept.layout--;
    bool refused = refuses(KEPT_OTHER);
    one.kept.layout++, one.kept.octets -= 4;
    refused = refused && refuses(KEPT_OTHER);
    one.kept.octets += 4;
    return refused;
}

static void tell(const char *what, bool refused) {
    printf("a warm start by %s: %s\n", what, refused ? "refused, and nothing changed" : "TAKEN");
}

/* The firmware of the first switch starts again, and what was kept is no good. */
static void show_images(void) {
    keep(&one.kept, &one.loop);
    niw_free(&one.loop.system);
    tell("an image each octet of which is another in turn", refuses_each_octet());
    tell("one of another layout, or length", refuses_other_layout());
    spoil_rows(&one, 252);
#ifdef WITH_ROWS
    tell("one whose rows are others", refuses(KEPT_BROKEN));
#endif
    tell("random octets", refuses_garbage());
    tell("erased flash", refuses_erased());
    printf("a cold start behind it: %s", niw_status_text(start(&one)));
    printf("; all carry after %u ticks\n", run(400, ALL));
}

static void show_long_timeouts(void) {
    unsigned without = 0;
    set_link(&one.loop, 1, false);
    for (uint16_t port = 1; port <= PORTS; port++) {
        niw_set_mode(&one.loop.system, port, true, false);
        niw_set_mode(&two.loop.system, port, true, false);
    }
    run(10, 0);
    set_link(&one.loop, 1, true);
    printf("long timeouts: all carry after %u ticks", run(100, ALL));
    for (unsigned passed = 0; passed < 36000; passed++) {
        run(1, ALL);
        without += !carry(ALL);
    }
    silent = 1;
    printf("; not in %u ticks of an hour; port 1 falls silent: the others after %u", without, run(1000, ALL & ~silent));
    silent = 0;
    printf("; it is heard again: all after %u\n", run(1000, ALL));
}

static void show_counts(void) {
    const struct niw_counters *of = &one.counters[1];
    uint64_t received = of->lacpdus_received, sent = of->lacpdus_sent;
    run(100, ALL);
    printf("port 2 in 100 ticks: %u LACPDUs received, %u sent", (unsigned)(of->lacpdus_received - received), (unsigned)(of->lacpdus_sent - sent));
    printf("; churn detection: %s\n", niw_churn_state_text(one.churn[1].actor.state));
}

int main(void) {
#ifdef NIW_POOL
    static _Alignas(16) uint8_t room[2 * NIW_MEMORY(PORTS, LAGS, CONVERSATIONS)];
    niw_give_memory(room, sizeof room);
#endif
    if (start(&one) != NIW_OK || start(&two) != NIW_OK) return 1;
    printf("two LAGs of 4 ports: all carry after %u ticks\n", run(100, ALL));
    show_counts();
    show_reset(5);
    show_reset(50);
    show_failing(20);
    show_failing(40);
    show_mixed();
    show_restart(true, 10);
    show_restart(true, 40);
    show_restart(false, 10);
    show_images();
    show_long_timeouts();
    printf("%s\n", one.strayed || two.strayed ? "a port passed data outside a trunk" : "no port of a LAG passed data outside its trunk");
    printf("%s\n", one.lied || two.lied ? "an LACPDU said what the chip had not" : "no LACPDU said Collecting or Distributing of a port that the chip had out");
    niw_free(&one.loop.system);
    niw_free(&two.loop.system);
    return one.strayed || two.strayed || one.lied || two.lied;
}
