/* The loop of a switch whose chip spreads frames by a hash of its own: LACP over lag.h, and nothing of a board. No conversation is offered and no marker
 * sent. A LAG has one key, and one aggregator, which has room for one partner. A program defines PORTS (32 at most) and LAGS, includes this file, and gives
 * the functions of its chip. One task calls what stands here, or each task that holds one lock; no interrupt does. pool.c and restarts.c are such
 * programs. A chip with a row for each conversation takes rows.h, which includes this file. */
#ifndef LOOP_H
#define LOOP_H

#include "lag.h"

_Static_assert(PORTS >= 1 && PORTS <= 32, "a mask of ports has 32 bits");

#define RESPONSES 10 /* markers that a port answers at most in a second (802.3, 57A.2), which eleven ticks hold wherever it begins */
#define SECOND 11
#define MADE_UP 10    /* the most ticks that are made up */
#define FRAMES_TURN 32 /* the most frames that are taken before the chip is told; the rest wait for the next turn */

struct loop {
    struct niw_system system;
    uint32_t up;          /* the links, bit 0 that of port 1 */
    uint32_t alone;       /* the ports of no LAG: the chip forwards there as on any port */
    uint32_t leaving;     /* the ports that left, which are blocked until they are alone */
    uint32_t other_speed; /* the ports whose speed is not that of their LAG, which stay out of it; set it behind `begin`, before the link is up, or `settle` */
    uint32_t held;        /* the ports that niw_hold holds */
    uint32_t trunk[LAGS]; /* what the chip was told: bit 0 has data of port 1 taken and sent */
    uint32_t least[LAGS]; /* with fewer ports than these a LAG passes no data, and the peer goes on sending; set it behind `begin`, then `settle` */
    uint16_t keys;        /* LAG 1 has the key behind this one, LAG 2 the next; set it before `begin`, other in each handle of one MAC address */
    bool failed;          /* a write to the chip failed: the next turn with ticks tells it all anew, and no LACPDU goes out before */
    uint32_t ticks;
    uint32_t left[PORTS + 1]; /* the tick at which a port left */
    struct { uint32_t when[RESPONSES]; unsigned oldest; } responses[PORTS + 1];
};

/* What the program gives. `chip_next`: the oldest frame to 01-80-C2-00-00-02 of subtype 1 or 2 (LACP, Marker) that waits, without its FCS and the tag of the
 * chip; or NULL. Its octets stay until the next `chip_next`. A port that is blocked passes control frames alone. `chip_flush` forgets what was learned on a
 * LAG. A write to the chip that fails sets `failed`; while that is set nothing is written. */
static const uint8_t *chip_next(struct loop *here, uint16_t *port, size_t *length);
static void chip_send(struct loop *here, uint16_t port, const uint8_t *frame, size_t length);
static void chip_block(struct loop *here, uint32_t ports, bool blocked);
static void chip_set_trunk(struct loop *here, uint16_t lag, uint32_t ports);
static void chip_flush(struct loop *here, uint16_t lag);

/* This, too: a frame was handed to the library, which answered `what`. For counts, a capture and a warm start; empty without these. */
static void heard(struct loop *here, uint16_t port, const uint8_t *frame, size_t length, uint32_t what);

/* By rows.h: clears the rows of the chip whose conversation is no longer on its port; fills those that are clear; clears all; begins anew; has the library take
 * those of a chip that went on; sums what a warm start takes. */
static void clear_rows(struct loop *here);
static void fill_rows(struct loop *here);
static void forget_rows(struct loop *here);
static inline void begin_rows(struct loop *here);
static inline void adopt_rows(struct loop *here);
static inline uint32_t sum_rows(struct loop *here, uint32_t sum);
#ifndef HAS_ROWS
static void clear_rows(struct loop *here) { (void)here; }
static void fill_rows(struct loop *here) { (void)here; }
static void forget_rows(struct loop *here) { (void)here; }
static inline void begin_rows(struct loop *here) { (void)here; }
static inline void adopt_rows(struct loop *here) { (void)here; }
static inline uint32_t sum_rows(struct loop *here, uint32_t sum) { return (void)here, sum; }
#endif

static uint32_t bit_of(uint16_t port) {
    return UINT32_C(1) << (port - 1);
}

static uint16_t key_of(const struct loop *here, uint16_t lag) {
    return (uint16_t)(here->keys + lag);
}

/* A port that hears nobody, whose link is down, that is of no LAG or of another speed is held, lest it keep the others out; one that hears nobody is let go
 * by the first LACPDU that comes. */
static void hold_ports(struct loop *here) {
    uint32_t out = ~here->up | here->alone | here->leaving | here->other_speed;
    for (uint16_t port = 1; port <= PORTS; port++) {
        bool hold = out & bit_of(port) || niw_defaulted(&here->system, port).is;
        if (hold != ((here->held & bit_of(port)) != 0) && niw_hold(&here->system, port, hold) == NIW_OK) here->held ^= bit_of(port);
    }
}

static uint32_t members_of(struct loop *here, uint16_t lag) {
    uint16_t ports[NIW_MOST_PORTS];
    uint64_t count = niw_distributing(&here->system, lag, ports, NIW_MOST_PORTS).number;
    uint32_t members = 0;
    for (uint64_t i = 0; i < count; i++) members |= bit_of(ports[i]);
    return count < here->least[lag - 1] ? 0 : members;
}

/* A port is blocked before it leaves its trunk, and passes data once it is in one. */
static void tell_chip(struct loop *here) {
    uint32_t members[LAGS], left = 0, came = 0;
    for (uint16_t lag = 1; lag <= LAGS; lag++) {
        members[lag - 1] = members_of(here, lag);
        left |= here->trunk[lag - 1] & ~members[lag - 1];
        came |= members[lag - 1] & ~here->trunk[lag - 1];
    }
    if (left) chip_block(here, left, true);
    for (uint16_t lag = 1; lag <= LAGS; lag++) {
        if (members[lag - 1] == here->trunk[lag - 1]) continue;
        here->trunk[lag - 1] = members[lag - 1];
        chip_set_trunk(here, lag, members[lag - 1]);
        chip_flush(here, lag);
    }
    if (came) chip_block(here, came, false);
}

/* Behind calls of the library, once for all that came together: the chip, then the LACPDUs that say so. */
static void settle(struct loop *here) {
    uint8_t frame[NIW_FRAME];
    hold_ports(here);
    clear_rows(here);
    tell_chip(here);
    if (here->failed) return;
    uint64_t due = niw_due(&here->system).number;
    for (uint16_t port = 1; port <= PORTS; port++)
        if (due >> (port - 1) & 1 && niw_transmit(&here->system, port, frame, sizeof frame).is) chip_send(here, port, frame, sizeof frame);
    fill_rows(here);
}

/* Tells the chip all of it anew: once it was reset, and by `turn` where a write to it failed. */
static void chip_again(struct loop *here) {
    const uint32_t all = UINT32_MAX >> (32 - PORTS);
    here->failed = false;
    chip_block(here, all, true);
    for (uint16_t lag = 1; lag <= LAGS; lag++) {
        here->trunk[lag - 1] = 0;
        chip_set_trunk(here, lag, 0);
        chip_flush(here, lag);
    }
    forget_rows(here);
    if (here->alone) chip_block(here, all & here->alone, false);
    settle(here);
}

/* Whether the port has answered fewer than ten markers within a second; it notes this one, then. */
static bool may_respond(struct loop *here, uint16_t port) {
    unsigned *oldest = &here->responses[port].oldest;
    uint32_t *when = &here->responses[port].when[*oldest];
    if (here->ticks - *when < SECOND) return false;
    *when = here->ticks;
    *oldest = (*oldest + 1) % RESPONSES;
    return true;
}

static void take(struct loop *here, uint16_t port, const uint8_t *frame, size_t length) {
    uint8_t response[NIW_FRAME];
    struct niw_received received = niw_receive(&here->system, port, frame, length, response, sizeof response);
    heard(here, port, frame, length, received.what);
    if (received.what == NIW_RECEIVED_RESPOND && may_respond(here, port)) chip_send(here, port, response, received.number);
}

/* Whether the link is up and the last LACPDU of the peer says that it has the port in a trunk. */
static bool peer_uses(struct loop *here, uint16_t port) {
    return here->up & bit_of(port) && niw_partner(&here->system, port).state & (NIW_STATE_COLLECTING | NIW_STATE_DISTRIBUTING);
}

/* A port that left its LAG a second ago is alone once its peer let it go. */
static void part(struct loop *here) {
    for (uint16_t port = 1; port <= PORTS; port++) {
        uint32_t bit = bit_of(port);
        if (!(here->leaving & bit) || here->ticks - here->left[port] < SECOND || peer_uses(here, port)) continue;
        niw_set_link(&here->system, port, false);
        here->leaving &= ~bit;
        here->alone |= bit;
        chip_block(here, bit, false);
    }
}

/* So many ticks passed. The limit of markers goes by the clock, and the library makes up ten at most. */
static void pass(struct loop *here, uint32_t ticks) {
    here->ticks += ticks;
    niw_ticks(&here->system, ticks < MADE_UP ? ticks : MADE_UP);
    part(here);
}

/* What the task does when a frame waits, and each 100 ms; answers whether frames may still wait, for another turn of 0 ticks. Frames that waited while it
 * stood still come before the ticks that it missed, lest a partner expire whose LACPDU is there. */
static inline bool turn(struct loop *here, uint32_t ticks) {
    uint16_t port;
    size_t length;
    const uint8_t *frame;
    unsigned taken = 0;
    if (ticks == 1) pass(here, ticks);
    for (; taken < FRAMES_TURN && (frame = chip_next(here, &port, &length)); taken++) take(here, port, frame, length);
    if (ticks > 1) pass(here, ticks);
    settle(here);
    if (here->failed && ticks > 0) chip_again(here);
    return taken == FRAMES_TURN;
}

static inline void set_link(struct loop *here, uint16_t port, bool up) {
    here->up = up ? here->up | bit_of(port) : here->up & ~bit_of(port);
    if (!(here->alone & bit_of(port))) niw_set_link(&here->system, port, up);
    settle(here);
}

/* The user puts a port, from 1 to PORTS, into a LAG, from 1 to LAGS; it may be in another one. */
static inline void join(struct loop *here, uint16_t port, uint16_t lag) {
    struct niw_change change = {.key = key_of(here, lag), .priority = 128, .aggregatable = true};
    uint32_t bit = bit_of(port);
    if (here->alone & bit) chip_block(here, bit, true);
    here->alone &= ~bit;
    here->leaving &= ~bit;
    niw_configure(&here->system, port, &change);
    niw_set_link(&here->system, port, here->up & bit);
    settle(here);
}

/* The user takes a port out of its LAG: the peer is told, and the port is alone a second later, if the peer let it go by then; else once it did. */
static inline void leave(struct loop *here, uint16_t port) {
    if ((here->alone | here->leaving) & bit_of(port)) return;
    here->leaving |= bit_of(port);
    here->left[port] = here->ticks;
    settle(here);
}

/* Why a port passes no data, for a log, or that it distributes: that it is held niw_port_status says, too, but not why, and of `least` it knows nothing. */
static inline const char *why_out(struct loop *here, uint16_t port) {
    if (here->failed) return "a write to the chip failed";
    if (here->alone & bit_of(port)) return "it is in no LAG";
    if (here->leaving & bit_of(port)) return "it leaves its LAG";
    if (!(here->up & bit_of(port))) return "its link is down";
    if (here->other_speed & bit_of(port)) return "its speed is not that of its LAG";
    if (niw_defaulted(&here->system, port).is) return "no LACPDU comes";
    uint64_t status = niw_port_status(&here->system, port).number;
    uint32_t passes = 0;
    for (uint16_t lag = 0; lag < LAGS; lag++) passes |= here->trunk[lag];
    if (status == NIW_PORT_STATUS_DISTRIBUTING && !(passes & bit_of(port))) return "its LAG has fewer ports than the least";
    return niw_port_status_text(status);
}

/* Makes the system of these ports, which have no key of a LAG and are alone. Whatever the chip had before, it has empty trunks then, and blocks no port; it
 * should not forward until the ports joined. `here` is all zero before, but for `keys`, or its system was freed: one that has a system keeps it, and the
 * answer is NIW_HAS_SYSTEM. A call that is refused tells the chip nothing. */
static inline uint32_t begin(struct loop *here, const struct niw_config *config, const struct niw_port *ports) {
    const uint32_t all = UINT32_MAX >> (32 - PORTS);
    uint16_t keys[LAGS];
    if (here->system.live) return NIW_HAS_SYSTEM;
    for (uint16_t lag = 1; lag <= LAGS; lag++) keys[lag - 1] = key_of(here, lag);
    *here = (struct loop){.system = NIW_EMPTY, .keys = here->keys, .ticks = SECOND};
    uint32_t status = niw_new(&here->system, config, keys, LAGS, ports, PORTS).status;
    if (status != NIW_OK) return status;
    begin_rows(here);
    chip_again(here);
    here->alone = UINT32_MAX;
    chip_block(here, all, false);
    return NIW_OK;
}

/* The number of the layout below: give another one with each change of what stands in struct kept, struct loop or struct rows. An image of before is refused
 * then, as after an update of the firmware. */
#define KEPT_LAYOUT 1

/* What `resume` answers besides the statuses of lag.h: the image is none of this length and layout, as erased flash; its sum is another. */
#define KEPT_OTHER UINT32_C(0x100)
#define KEPT_BROKEN UINT32_C(0x101)

/* What a warm start wants, in memory that a reset leaves alone, or in flash; with rows `struct rows`, too. The first three fields guard it: `keep` writes them. */
struct kept {
    uint32_t octets, layout;
    uint32_t sum; /* of what follows, and of the rows */
    struct loop loop;
    uint32_t next_marker;
    struct niw_port ports[PORTS]; /* number and address are those that `begin` took */
    struct niw_saved last[PORTS]; /* the last LACPDU of each port; `age` is the tick at which it came */
};

/* FNV-1a, which notices each change of a single octet. */
static inline uint32_t sum_octets(const void *at, size_t octets, uint32_t sum) {
    const uint8_t *octet = at;
    for (size_t i = 0; i < octets; i++) sum = (sum ^ octet[i]) * UINT32_C(16777619);
    return sum;
}

static inline uint32_t sum_kept(const struct kept *kept, struct loop *here) {
    const size_t guard = offsetof(struct kept, loop);
    return sum_rows(here, sum_octets((const uint8_t *)kept + guard, sizeof *kept - guard, UINT32_C(2166136261)));
}

/* For `heard`. The image is broken from here to the next `keep`. */
static inline void keep_lacpdu(struct kept *kept, const struct loop *here, uint16_t port, const uint8_t *frame, size_t length, uint32_t what) {
    struct niw_saved *last = &kept->last[port - 1];
    if (what != NIW_RECEIVED_TOOK_LACPDU) return;
    last->port = port, last->age = here->ticks;
    for (size_t i = 0; i < length && i < NIW_FRAME; i++) last->frame[i] = frame[i];
}

/* Before a planned restart; behind each turn, where a crash is to be one. What `join` and niw_set_mode gave a port the library knows, and which ports carry,
 * with a partner, in which aggregator. */
static inline void keep(struct kept *kept, struct loop *here) {
    for (uint16_t port = 1; port <= PORTS; port++) {
        struct niw_actor own = niw_party(&here->system, port);
        uint64_t state = niw_state(&here->system, port).number;
        bool carries = niw_distributes(&here->system, port).is && !niw_defaulted(&here->system, port).is;
        struct niw_port *its = &kept->ports[port - 1];
        its->priority = own.port_priority, its->key = own.key, its->aggregatable = own.aggregatable;
        its->active = state & NIW_STATE_ACTIVITY, its->short_timeout = state & NIW_STATE_TIMEOUT;
        kept->last[port - 1].aggregator = carries ? (uint16_t)niw_choice(&here->system, port).number : 0;
    }
    kept->loop = *here;
    kept->next_marker = niw_next_marker(&here->system).id;
    kept->octets = sizeof *kept, kept->layout = KEPT_LAYOUT;
    kept->sum = sum_kept(kept, here);
}

/* In the place of `begin`: what was kept `away` ticks ago goes on, and the chip is not written. Ports that did not carry begin anew. If refused, nothing has
 * changed, not even `here`: begin. */
static inline uint32_t resume(struct loop *here, const struct kept *kept, uint32_t away, struct niw_config config) {
    struct niw_saved saved[PORTS];
    uint16_t keys[LAGS];
    size_t count = 0;
    if (kept->octets != sizeof *kept || kept->layout != KEPT_LAYOUT) return KEPT_OTHER;
    if (kept->sum != sum_kept(kept, here)) return KEPT_BROKEN;
    config.first_marker = kept->next_marker;
    for (uint16_t lag = 1; lag <= LAGS; lag++) keys[lag - 1] = key_of(&kept->loop, lag);
    for (uint16_t port = 1; port <= PORTS; port++) {
        if (kept->last[port - 1].aggregator == 0) continue;
        saved[count] = kept->last[port - 1];
        saved[count++].age = kept->loop.ticks + away - kept->last[port - 1].age;
    }
    uint32_t status = niw_resume(&here->system, &config, keys, LAGS, kept->ports, PORTS, saved, count).status;
    if (status != NIW_OK) return status;
    for (size_t i = sizeof here->system; i < sizeof *here; i++) ((uint8_t *)here)[i] = ((const uint8_t *)&kept->loop)[i];
    here->held = 0;
    here->ticks += away;
    adopt_rows(here);
    for (uint16_t port = 1; port <= PORTS; port++)
        if (here->up & ~here->alone & bit_of(port) && !niw_is_up(&here->system, port).is) niw_set_link(&here->system, port, true);
    settle(here);
    return NIW_OK;
}

#endif
