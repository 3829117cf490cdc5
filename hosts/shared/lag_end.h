/* One end of link aggregation whose ports come and go, over lag.h: for hosts that have ports, clocks and sockets of their own.
 *
 * A system of liblag has its ports for life. lag_end_remake makes it anew of the ports that there are now: each port that carried goes on where
 * it was, and its peer notices nothing, or learns another LACP_Activity or LACP_Timeout; a port that is new, or whose peer has to be told something else,
 * negotiates.
 *
 * Functions in a header, so that the build of a host has no further source file. Their caller holds one lock for all ends. */
#ifndef LAG_END_H
#define LAG_END_H

#include <stdbool.h>
#include <stddef.h>
#include <stdint.h>
#include <stdlib.h>
#include <string.h>

#include "lag.h"

/* By the clock of the host, a port sends no more responses to markers than these in so many ms: ten in a second (IEEE 802.3, 57A.2), and what they may wait for
 * their turn. Nor more LACPDUs (6.4.16): the library counts these by its ticks, of which a host that was late makes up several at once. */
#define LAG_RESPONSES 10
#define LAG_RESPONSES_MS 1250
#define LAG_LACPDUS 3
#define LAG_LACPDUS_MS 1000

/* Where the frame of an LACPDU has the state of its sender, and the state that this knows of the port to which it is sent. */
#define LAG_ACTOR_STATE 32
#define LAG_PARTNER_STATE 52

/* How often a partner sends that is asked for short or long timeouts, in ticks (IEEE 802.1AX-2014, 6.4.4). */
#define LAG_FAST_TICKS 10
#define LAG_SLOW_TICKS 300

/* How long a port is on defaults before it is woken, in ms: the first time, and at most. */
#define LAG_FIRST_WAKE_MS 1000
#define LAG_LAST_WAKE_MS 30000

/* The library of c/lag.c has this text, the native one has not. */
extern const char niw_lag_c[] __attribute__((weak));

/* Which of the two this program runs. */
static inline const char *
lag_library(void)
{
    return niw_lag_c ? niw_lag_c : "native " NIW_VERSION_TEXT;
}

struct lag_end {
    struct niw_system system;
    int64_t ticked;       /* When the last tick was due, in ms of the caller's clock, which is not set back. */
    uint32_t next_marker; /* Of the system that comes next; 0 is as 1. */
    uint64_t waits;       /* The ports whose LACPDU is due, and waits for the limit by the clock: a mask as that of niw_due. */
    uint16_t uses;        /* The aggregator in use, or 0 for all: lag_end_use. */
};

/* The last LACPDU that a port took. */
struct lag_heard {
    bool is;
    int64_t at; /* In ms. */
    uint8_t frame[NIW_FRAME];
};

/* A port, for lag_end_remake. */
struct lag_port {
    struct niw_port port;
    bool up;
    bool carried;                  /* It distributes and has a partner, or did for the program that ran before. */
    uint16_t aggregator;           /* In which it did so, as niw_view tells it. */
    struct lag_heard *heard;       /* May be NULL. */
    void *owner;                   /* The caller's. */
    bool begins;                   /* Answer: it carried, and has to begin anew. */
    uint32_t why;                  /* Of `begins`: NIW_STALE or NIW_NOT_DISTRIBUTING; 0 of a port without an LACPDU or a link. */
};

/* When a port sent what it may not send often: its own value, zeros at first, which outlives the systems of lag_end_remake. */
struct lag_limit {
    int64_t responses[LAG_RESPONSES];
    int64_t lacpdus[LAG_LACPDUS];
    unsigned next_response; /* The place of the oldest one. */
    unsigned next_lacpdu;
};

/* Whether a time is so long ago, in ms; one that is not yet is none. */
static inline bool
lag_is_past(int64_t at, int64_t ms, int64_t now)
{
    return !at || now < at || now - at >= ms;
}

/* Whether the port may answer one more marker, which it does now, then. */
static inline bool
lag_may_respond(struct lag_limit *limit, int64_t now)
{
    int64_t *oldest = &limit->responses[limit->next_response];

    if (!lag_is_past(*oldest, LAG_RESPONSES_MS, now)) {
        return false;
    }
    *oldest = now;
    limit->next_response = (limit->next_response + 1) % LAG_RESPONSES;
    return true;
}

/* The bit of a port in the masks of the library. */
static inline uint64_t
lag_end_bit(struct lag_end *end, uint16_t port)
{
    uint16_t numbers[NIW_MOST_PORTS];
    uint64_t count = niw_ports(&end->system, numbers, NIW_MOST_PORTS).number;

    for (uint64_t i = 0; i < count; i++) {
        if (numbers[i] == port) {
            return UINT64_C(1) << i;
        }
    }
    return 0;
}

/* What a port is to send now, as niw_transmit has it, of a host that sends no markers: to be asked until it is nothing. An LACPDU that may not go yet stays
 * due. */
static inline struct niw_sent
lag_end_transmit(struct lag_end *end, uint16_t port, struct lag_limit *limit, uint8_t frame[NIW_FRAME], int64_t now)
{
    int64_t *oldest = &limit->lacpdus[limit->next_lacpdu];
    struct niw_sent sent = { .status = NIW_OK };

    if (!niw_is_due(&end->system, port).is) {
        return sent;
    }
    if (!lag_is_past(*oldest, LAG_LACPDUS_MS, now)) {
        end->waits |= lag_end_bit(end, port);
        return sent;
    }
    end->waits &= ~lag_end_bit(end, port);
    *oldest = now;
    limit->next_lacpdu = (limit->next_lacpdu + 1) % LAG_LACPDUS;
    return niw_transmit(&end->system, port, frame, NIW_FRAME);
}

/* Whether an LACPDU is due on a port that did not wait for the limit when it was asked last. */
static inline bool
lag_end_is_due(struct lag_end *end)
{
    return (niw_due(&end->system).number & ~end->waits) != 0;
}

/* A frame of the slow protocols came, and was taken: notes it for lag_end_remake. Returns whether it tells anything new. */
static inline bool
lag_hear(struct lag_heard *heard, const uint8_t *frame, int64_t now)
{
    bool news = !heard->is || memcmp(heard->frame, frame, NIW_FRAME);

    memcpy(heard->frame, frame, NIW_FRAME);
    heard->at = now;
    heard->is = true;
    return news;
}

/* The most ticks that are made up of a time in which something was due: a caller that was stopped for longer takes the LACPDUs that waited, before
 * their partners expire. */
#define LAG_LATE_TICKS 10

/* Makes the ticks up that passed. What is due then, niw_transmit tells. */
static inline void
lag_end_advance(struct lag_end *end, int64_t now)
{
    int64_t passed = (now - end->ticked) / NIW_TICK_MILLISECONDS;

    if (end->system.live && passed > 0) {
        struct niw_wait wait = niw_ticks_until_due(&end->system);
        int64_t most = wait.ever && wait.ticks > LAG_LATE_TICKS ? wait.ticks : LAG_LATE_TICKS;

        if (passed > most) {
            passed = most;
            end->ticked = now;
        } else {
            end->ticked += passed * NIW_TICK_MILLISECONDS;
        }
        niw_ticks(&end->system, (uint32_t) passed);
    }
}

/* When something happens by itself, in ms of the caller's clock, until which it may sleep; INT64_MAX if nothing does without another call. */
static inline int64_t
lag_end_due(struct lag_end *end)
{
    struct niw_wait wait = niw_ticks_until_due(&end->system);

    if (wait.ever && !wait.ticks && !lag_end_is_due(end)) {
        wait.ticks = 1; /* What waits for the limit is tried again. */
    }
    return wait.ever ? end->ticked + (int64_t) wait.ticks * NIW_TICK_MILLISECONDS : INT64_MAX;
}

/* What there is to show of each port now; the places behind the last one are zeros. */
static inline void
lag_end_views(struct lag_end *end, struct niw_view views[NIW_MOST_PORTS])
{
    memset(views, 0, NIW_MOST_PORTS * sizeof *views);
    niw_views(&end->system, views, NIW_MOST_PORTS);
}

/* That of the port of this number, or NULL. */
static inline const struct niw_view *
lag_view_of(const struct niw_view views[NIW_MOST_PORTS], uint16_t number)
{
    for (size_t i = 0; i < NIW_MOST_PORTS && views[i].port; i++) {
        if (views[i].port == number) {
            return &views[i];
        }
    }
    return NULL;
}

/* When a port is woken: its own value, zeros at first. */
struct lag_wake {
    int64_t at;    /* Or 0. */
    int64_t after; /* How long it is on defaults until then. */
    bool woken;    /* Since it was woken nobody answered: it is on defaults, for who asks, even while it looks for a partner. */
};

/* To be called for each port, with its view, when that changed, and when `at` has come; returns whether it was woken, so that its view is another one.
 *
 * A port on defaults sends an LACPDU each 30 s, so that a link which was silent both ways for more than 6 s would be long in coming back where its partner does
 * as much. One whose link came up sends one each second. So an active port that is `idle`, which carries nothing, is treated as one: after a second, and then
 * after twice as long each time. */
static inline bool
lag_end_wake(struct lag_end *end, const struct niw_view *view, struct lag_wake *wake, bool idle, int64_t now)
{
    bool sleeps = idle && view->up && view->receive_state == NIW_RECEIVE_DEFAULTED && view->state & NIW_STATE_ACTIVITY;

    if (view->receive_state == NIW_RECEIVE_CURRENT || !view->up || !wake->after) {
        wake->woken = false;
        wake->after = LAG_FIRST_WAKE_MS;
    }
    wake->at = !sleeps ? 0 : wake->at ? wake->at : now + wake->after;
    if (!sleeps || now < wake->at) {
        return false;
    }
    *wake = (struct lag_wake) { .after = wake->after < LAG_LAST_WAKE_MS / 2 ? 2 * wake->after : LAG_LAST_WAKE_MS, .woken = true };
    niw_set_link(&end->system, view->port, false);
    niw_set_link(&end->system, view->port, true);
    return true;
}

/* Whether lag.h has niw_set_in_use. */
#define LAG_HAS_IN_USE (NIW_VERSION >= 13)

/* Whether a port carries; or would, once its aggregator is in use: it has an aggregator, and its partner is in sync. Where all aggregators are in use it
 * carries by then. */
static inline bool
lag_is_ready(const struct niw_view *view)
{
    uint8_t state = LAG_HAS_IN_USE ? view->partner_state : view->state, bit = LAG_HAS_IN_USE ? NIW_STATE_SYNCHRONIZATION : NIW_STATE_DISTRIBUTING;

    return view->up && view->aggregator && !view->defaulted && view->port_status != NIW_PORT_STATUS_OWN_SYSTEM && state & bit;
}

/* How a host chooses the one aggregator that it uses. */
enum lag_choice {
    LAG_STAYS_WHILE_READY, /* Another one comes when no port of it is ready. */
    LAG_STAYS_UNLESS_MORE, /* Or when that one has more. */
};

/* The aggregator to use, of those that have ports that are ready: the one of which the worth of these is most, then the lowest; 0 if there is none. `now`
 * is the one in use, or 0. `worth` has the worth of each port by its place in `views`, or is NULL where each is worth as much. */
static inline uint16_t
lag_end_choose(const struct niw_view views[NIW_MOST_PORTS], const uint64_t *worth, enum lag_choice rule, uint16_t now)
{
    uint64_t sums[NIW_MOST_PORTS + 1] = { 0 };
    uint16_t best = now;

    for (size_t i = 0; i < NIW_MOST_PORTS && views[i].port; i++) {
        if (lag_is_ready(&views[i])) {
            sums[views[i].aggregator] += worth && worth[i] ? worth[i] : 1;
        }
    }
    if (now > NIW_MOST_PORTS || !sums[now]) {
        best = 0;
    } else if (rule == LAG_STAYS_WHILE_READY) {
        return now;
    }
    for (uint16_t i = 1; i <= NIW_MOST_PORTS; i++) {
        best = sums[i] > sums[best] ? i : best;
    }
    return best;
}

/* Has the ports of one aggregator in use, and those of the others stand by, whose partners are told so; with 0 those of all aggregators. Returns whether
 * anything changed, so that the views are others. A library without the call uses all of them. */
static inline bool
lag_end_use(struct lag_end *end, uint16_t aggregator)
{
#if LAG_HAS_IN_USE
    uint64_t count = niw_aggregators(&end->system).number;
    bool changes = end->uses != aggregator;

    for (uint16_t i = 1; changes && i <= count; i++) {
        niw_set_in_use(&end->system, i, !aggregator || i == aggregator);
    }
    end->uses = aggregator;
    return changes;
#else
    (void) end;
    (void) aggregator;
    return false;
#endif
}

static inline void
lag_end_free(struct lag_end *end)
{
    if (end->system.live) {
        struct niw_marker next = niw_next_marker(&end->system);

        end->next_marker = next.left ? next.id : 1;
        end->waits = 0;
        end->uses = 0;
        niw_free(&end->system);
    }
}

/* Why a port begins anew. */
static inline const char *
lag_why_text(uint32_t why)
{
    return why == NIW_STALE ? "its last LACPDU is too old"
        : why == NIW_NOT_DISTRIBUTING ? "its partner has to be told something new"
                                      : "its link is down, or no LACPDU came";
}

static inline int
lag_port_order(const void *one, const void *other)
{
    return (int) ((const struct lag_port *) one)->port.number - (int) ((const struct lag_port *) other)->port.number;
}

/* The aggregator in which a port goes on: that which has the key of the first port of its group that has its key still. */
static inline uint16_t
lag_aggregator_of(const struct lag_port *ports, size_t place)
{
    size_t first = 0;

    while (!(ports[first].carried && ports[first].aggregator == ports[place].aggregator && ports[first].port.key == ports[place].port.key) && first < place) {
        first++;
    }
    return (uint16_t) (first + 1);
}

/* Notes of each port that carried what it is to go on from; returns of how many. */
static inline size_t
lag_end_save(struct lag_port *ports, size_t count, struct niw_saved *saved, int64_t now)
{
    size_t kept = 0;

    for (size_t i = 0; i < count; i++) {
        struct lag_port *it = &ports[i];

        it->why = 0;
        it->begins = it->carried && !(it->up && it->heard && it->heard->is && it->heard->at <= now);
        if (it->carried && !it->begins) {
            int64_t age = (now - it->heard->at) / NIW_TICK_MILLISECONDS;

            memset(&saved[kept], 0, sizeof saved[kept]);
            saved[kept].port = it->port.number;
            saved[kept].aggregator = lag_aggregator_of(ports, i);
            saved[kept].age = age < UINT32_MAX ? (uint32_t) age : UINT32_MAX;
            memcpy(saved[kept++].frame, it->heard->frame, NIW_FRAME);
        }
    }
    return kept;
}

/* Gives a port the LACP_Activity and LACP_Timeout that its partner knows, by the partner's last LACPDU: with others it would not go on. Where it is to be
 * passive beside a passive partner it keeps its own: no LACPDU would tell the partner. */
static inline void
lag_take_known_mode(struct niw_port *port, const uint8_t *frame)
{
    if (port->active || frame[LAG_ACTOR_STATE] & NIW_STATE_ACTIVITY) {
        port->active = frame[LAG_PARTNER_STATE] & NIW_STATE_ACTIVITY;
        port->short_timeout = frame[LAG_PARTNER_STATE] & NIW_STATE_TIMEOUT;
    }
}

/* Where an LACPDU was missed, the next one may come too late. A partner that reads its LACP_Timeout or LACP_Activity wrong answers at once (6.4.9), and
 * until it has answered it is sent an LACPDU each second: so a long timeout of it is read as short, and beside a short one its LACP_Activity is read wrong.
 * Without that of a partner a port that is passive would not carry: there a short timeout is read as long, if the partner sends each second itself. */
static inline void
lag_ask(struct niw_saved *saved)
{
    uint8_t own = saved->frame[LAG_PARTNER_STATE], *partner = &saved->frame[LAG_ACTOR_STATE];
    bool each_second = own & NIW_STATE_TIMEOUT;

    if (saved->age <= (each_second ? LAG_FAST_TICKS : LAG_SLOW_TICKS)) {
        return;
    }
    if (!(*partner & NIW_STATE_TIMEOUT) || (each_second && !(own & NIW_STATE_ACTIVITY))) {
        *partner ^= NIW_STATE_TIMEOUT;
    } else if (own & NIW_STATE_ACTIVITY) {
        *partner ^= NIW_STATE_ACTIVITY;
    }
}

/* Gives a port another LACP_Activity or LACP_Timeout, and has its partner told: one that carries goes on. `heard` has the LACPDU that it last took. */
static inline void
lag_end_set_mode(struct lag_end *end, uint16_t port, bool active, bool short_timeout, struct lag_heard *heard)
{
    uint64_t state = niw_state(&end->system, port).number;
    bool was_active = state & NIW_STATE_ACTIVITY, was_short = state & NIW_STATE_TIMEOUT;

    if (active == was_active && short_timeout == was_short) {
        return;
    }
    niw_set_mode(&end->system, port, active, short_timeout);
    /* A partner that is told of a long timeout may send its next LACPDU 30 s later: the last one is kept, for the next remake, as it sends it once it is
     * told. */
    if (was_short && !short_timeout) {
        heard->frame[LAG_PARTNER_STATE] &= (uint8_t) ~NIW_STATE_TIMEOUT;
    }
}

/* Makes the system of `count` ports, of which the first `kept` of `saved` go on, which have the order of the ports. Where one of them can't, it begins anew
 * and the others go on. */
static inline struct niw_made
lag_end_resume(struct lag_end *end, const struct niw_config *config, struct lag_port *ports, size_t count, struct niw_saved *saved, size_t kept)
{
    struct niw_port known[NIW_MOST_PORTS];
    uint16_t keys[NIW_MOST_PORTS];
    struct niw_made made;

    for (size_t i = 0, next = 0; i < count; i++) {
        known[i] = ports[i].port;
        keys[i] = known[i].key;
        if (next < kept && saved[next].port == known[i].number) {
            lag_take_known_mode(&known[i], saved[next].frame);
            lag_ask(&saved[next++]);
        }
    }
    for (;;) {
        size_t i = 0;

        made = niw_resume(&end->system, config, keys, count, known, count, saved, kept);
        if (made.status != NIW_STALE && made.status != NIW_NOT_DISTRIBUTING) {
            break;
        }
        while (i < kept && saved[i].port != made.place) {
            i++;
        }
        if (i == kept) {
            break;
        }
        for (size_t j = 0; j < count; j++) {
            if (known[j].number == made.place) {
                ports[j].begins = true;
                ports[j].why = made.status;
            }
        }
        memmove(&saved[i], &saved[i + 1], (--kept - i) * sizeof *saved);
    }
    for (size_t i = 0; made.status == NIW_OK && i < count; i++) {
        lag_end_set_mode(end, ports[i].port.number, ports[i].port.active, ports[i].port.short_timeout, ports[i].heard);
    }
    return made;
}

/* Makes the system anew, of `count` ports, in the place of the one that is there; `end` has none then if `count` is 0 or the call is refused.
 * `config` is as for niw_new, but its first_marker is seen to. The ports are sorted by their numbers, no two of which may be equal. There are as
 * many aggregators as ports. */
static inline struct niw_made
lag_end_remake(struct lag_end *end, const struct niw_config *config, struct lag_port *ports, size_t count, int64_t now)
{
    struct niw_saved saved[NIW_MOST_PORTS];
    struct niw_config with = *config;
    struct niw_made made = { .status = NIW_OK };
    size_t kept;

    lag_end_free(end);
    if (!count) {
        return made;
    }
    if (count > NIW_MOST_PORTS) {
        return (struct niw_made) { .status = NIW_BAD_CONFIG, .reason = NIW_REASON_PORTS };
    }
    qsort(ports, count, sizeof *ports, lag_port_order);
    with.first_marker = end->next_marker ? end->next_marker : 1;
    kept = lag_end_save(ports, count, saved, now);
    made = lag_end_resume(end, &with, ports, count, saved, kept);
    if (made.status == NIW_OK) {
        end->ticked = now;
        for (size_t i = 0; i < count; i++) {
            niw_set_link(&end->system, ports[i].port.number, ports[i].up);
        }
    }
    return made;
}

#endif
