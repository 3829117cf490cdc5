/* How long each call of the C library takes at most, and how much stack it needs: in a search by random calls, with the frames of peers that
 * forge, flap and repeat.
 *
 * The same calls are made again and again: the time of a call is the lowest of its rounds, so that what else the machine does falls away. Of
 * each kind the lowest and the worst of these times is printed. In one more round the stack below each call is painted, and what is no longer
 * paint was used.
 *
 * cc -O2 -Icrates/lagffi/include tools/maintain/bench.d/calls.c -llag && ./a.out */
#define _POSIX_C_SOURCE 199309L
#include <stdio.h>
#include <stdlib.h>
#include <string.h>
#include <time.h>

#include "lag.h"

#ifndef CALLS
#define CALLS 100000
#endif
#define ROUNDS 15
#define ROOM 16384 /* octets of stack that are painted */
#define PAINT 0xa5

enum kind { NOTHING, NEW, FREE, TICK, TICKS, RECEIVE, TRANSMIT, SET_LINK, CONFIGURE, RESTART, OFFER, OFFER_CONVERSATION, MOVE, LEAVE, FORCE, FORCE_PORT,
    VIEWS, DUE, TICKS_UNTIL_DUE, CONVERSATION_PORTS, RESUME, ADOPT, HOLD, RELEASED, KINDS };
static const char *const NAMES[KINDS] = {"-", "niw_new", "niw_free", "niw_tick", "niw_ticks, 100 of them", "niw_receive", "niw_transmit", "niw_set_link",
    "niw_configure", "niw_restart", "niw_offer", "niw_offer_conversation", "niw_move_conversation", "niw_leave_conversation", "niw_force", "niw_force_port",
    "niw_views", "niw_due", "niw_ticks_until_due", "niw_conversation_ports", "niw_resume", "niw_adopt", "niw_hold",
    "niw_released"};

struct call {
    enum kind kind;
    uint16_t port, conversation;
    uint32_t chance; /* for all else that a call wants */
};

static struct niw_system here = NIW_EMPTY;
static uint16_t ports, conversations, rows[NIW_MANY_CONVERSATIONS];
static bool changed[NIW_MANY_CONVERSATIONS], busy[NIW_MANY_CONVERSATIONS];
static struct niw_view views[NIW_MOST_PORTS];
static struct niw_saved saved[NIW_MOST_PORTS];
static uint8_t frame[NIW_FRAME], response[NIW_FRAME], last_marker[NIW_FRAME];
static uint64_t seed;
static size_t deepest[KINDS];

static uint32_t chance(uint32_t below) {
    seed = seed * 6364136223846793005u + 1442695040888963407u;
    return (uint32_t)(seed >> 33) % below;
}

/* Makes a system; of saved ports a warm one. */
static void make(const struct niw_saved *from) {
    struct niw_config config = {.priority = 32768, .mac = {2, 0, 0, 0, 0, 1}, .first_marker = 1, .conversations = conversations};
    struct niw_port all[NIW_MOST_PORTS] = {0};
    uint16_t keys[NIW_MOST_PORTS];
    struct niw_made made;
    for (uint16_t i = 0; i < ports; i++) {
        all[i] = (struct niw_port){(uint16_t)(i + 1), 128, {2, 0, 0, 0, 1, 1}, 1, true, true, true};
        keys[i] = 1;
    }
    made = from ? niw_resume(&here, &config, keys, ports, all, ports, from, ports) : niw_new(&here, &config, keys, ports, all, ports);
    if (made.status != NIW_OK) exit(1);
}

/* An LACPDU of a peer that is in sync: of one of three systems and two keys, and mostly of the first ones. */
static void forge(const struct call *it) {
    struct niw_pdu pdu = {.subtype = NIW_SUBTYPE_LACPDU};
    struct niw_actor own = niw_party(&here, it->port);
    bool strange = it->chance % 16 == 0;
    pdu.actor = (struct niw_participant){32768, {2, 0, 0, 0, 9, (uint8_t)(strange ? it->chance % 3 : 0)}, (uint16_t)(it->chance % 64 == 1 ? 6 : 5), 128, it->port, 0x3f};
    pdu.partner = (struct niw_participant){32768, {2, 0, 0, 0, 0, 1}, own.key, own.port_priority, it->port, (uint8_t)niw_state(&here, it->port).number};
    memcpy(pdu.partner.system_mac, own.system_mac, sizeof pdu.partner.system_mac);
    if (it->chance % 32 == 2) pdu.actor.state = (uint8_t)(it->chance >> 8);
    memcpy(frame, (const uint8_t[14]){1, 0x80, 0xc2, 0, 0, 2, 2, 0, 0, 0, 9, 0, 0x88, 0x09}, 14);
    niw_encode(&pdu, frame + 14, sizeof frame - 14);
    if (it->chance % 8 == 3) { /* the response to the last marker */
        memcpy(frame, last_marker, sizeof frame);
        frame[16] = NIW_MARKER_RESPONSE;
    }
}

/* What was saved of each port: an LACPDU of one peer, which knows the port. */
static void save(void) {
    for (uint16_t port = 1; port <= ports; port++) {
        struct niw_pdu pdu = {.subtype = NIW_SUBTYPE_LACPDU};
        pdu.actor = (struct niw_participant){32768, {2, 0, 0, 0, 9, 0}, 5, 128, port, 0x3f};
        pdu.partner = (struct niw_participant){32768, {2, 0, 0, 0, 0, 1}, 1, 128, port, 0x3f};
        saved[port - 1] = (struct niw_saved){.port = port, .frame = {1, 0x80, 0xc2, 0, 0, 2, 2, 0, 0, 0, 9, 0, 0x88, 0x09}};
        niw_encode(&pdu, saved[port - 1].frame + 14, NIW_PAYLOAD_LENGTH);
    }
}

/* What a call needs, before its time begins. */
static void prepare(const struct call *it) {
    if (it->kind == RECEIVE) forge(it);
    if (it->kind == OFFER) memcpy(frame, (const uint8_t[14]){2, 0, 0, 0, (uint8_t)(it->conversation >> 8), (uint8_t)it->conversation, 2, 0, 0, 0, 0, 0, 8, 0}, 14);
    if (it->kind == NEW || it->kind == RESUME) niw_free(&here);
    if (it->kind == FREE && !here.live) make(NULL);
}

static void call(const struct call *it) {
    struct niw_change change = {(uint16_t)(1 + it->chance % 2), (uint16_t)(it->chance % 3), it->chance % 8 != 0};
    switch (it->kind) {
    case NEW: make(NULL); break;
    case RESUME: make(saved); break;
    case FREE: niw_free(&here); break;
    case TICK: niw_tick(&here); break;
    case TICKS: niw_ticks(&here, 100); break;
    case RECEIVE: niw_receive(&here, it->port, frame, sizeof frame, response, sizeof response); break;
    case TRANSMIT: niw_transmit(&here, it->port, frame, sizeof frame); break;
    case SET_LINK: niw_set_link(&here, it->port, it->chance % 8 != 0); break;
    case CONFIGURE: niw_configure(&here, it->port, &change); break;
    case RESTART: niw_restart(&here); break;
    case OFFER: niw_offer(&here, (uint16_t)(1 + it->chance % 4 % ports), frame, 64); break;
    case OFFER_CONVERSATION: niw_offer_conversation(&here, 1, it->conversation); break;
    case MOVE: niw_move_conversation(&here, 1, it->conversation, it->port); break;
    case LEAVE: niw_leave_conversation(&here, 1, it->conversation); break;
    case FORCE: niw_force(&here, 1, it->conversation); break;
    case FORCE_PORT: niw_force_port(&here, it->port); break;
    case VIEWS: niw_views(&here, views, NIW_MOST_PORTS); break;
    case DUE: (void)niw_due(&here); break;
    case TICKS_UNTIL_DUE: (void)niw_ticks_until_due(&here); break;
    case CONVERSATION_PORTS: niw_conversation_ports(&here, 1, rows, conversations, changed, conversations); break;
    case ADOPT: niw_adopt(&here, 1, it->conversation, it->port); break;
    case HOLD: niw_hold(&here, it->port, it->chance % 8 == 0); break;
    case RELEASED: niw_released(&here, 1, busy, conversations, changed, conversations); break;
    case NOTHING: case KINDS: break;
    }
}

/* Which calls are made: mostly those that a host makes all the time, in runs of one kind, so that much is held at once. */
static enum kind drawn(void) {
    static const uint8_t WEIGHTS[KINDS] = {2, 2, 2, 30, 1, 60, 60, 8, 3, 2, 5, 4, 4, 3, 3, 4, 5, 5, 5, 3, 2, 4, 4, 3};
    uint32_t all = 0, at;
    for (int kind = 0; kind < KINDS; kind++) all += WEIGHTS[kind];
    at = chance(all);
    for (int kind = 0; kind < KINDS; kind++) {
        if (at < WEIGHTS[kind]) return (enum kind)kind;
        at -= WEIGHTS[kind];
    }
    return NOTHING;
}

/* Whether links may be down after a call of this kind. */
static bool empties(enum kind kind) {
    return kind == NEW || kind == FREE || kind == RESTART || kind == RESUME;
}

static void draw(struct call *calls) {
    unsigned run = 0;
    enum kind kind = NOTHING;
    for (unsigned i = 0; i < CALLS; i++) {
        if (run == 0) {
            kind = drawn();
            run = kind == OFFER_CONVERSATION || kind == MOVE || kind == ADOPT ? 1 + chance(conversations) : empties(kind) ? 1 : 1 + chance(2u * ports);
        }
        run--;
        calls[i] = (struct call){kind, (uint16_t)(1 + (chance(4) ? i % ports : chance(ports))), (uint16_t)(i % conversations), chance(1 << 20)};
    }
}

__attribute__((noinline)) static void paint(void) {
    volatile uint8_t area[ROOM];
    for (unsigned i = 0; i < ROOM; i++) area[i] = PAINT;
    __asm__ volatile("" : : "m"(area));
}

__attribute__((noinline)) static size_t used(void) {
    volatile uint8_t area[ROOM];
    size_t unused = 0;
    __asm__ volatile("" : "=m"(area));
    while (unused < ROOM && area[unused] == PAINT) unused++;
    return ROOM - unused;
}

/* One round: keeps the lowest time of each call, or, where there are no times, the deepest stack of each kind. */
static void play(const struct call *calls, uint32_t *times) {
    static const struct call nothing = {NOTHING, 1, 0, 0};
    size_t least = 0;
    niw_free(&here);
    for (unsigned i = 0; i < CALLS; i++) {
        struct timespec began, ended;
        uint64_t took;
        if (!here.live) make(NULL);
        for (uint16_t port = 1; port <= ports && (i == 0 || empties(calls[i - 1].kind)); port++) niw_set_link(&here, port, true);
        prepare(&calls[i]);
        if (!times) paint();
        clock_gettime(CLOCK_MONOTONIC, &began);
        call(&calls[i]);
        clock_gettime(CLOCK_MONOTONIC, &ended);
        if (!times) {
            size_t depth = used();
            if (i == 0) least = (paint(), call(&nothing), used());
            if (depth > least + deepest[calls[i].kind]) deepest[calls[i].kind] = depth - least;
        }
        if (calls[i].kind == TRANSMIT && frame[14] == NIW_SUBTYPE_MARKER) memcpy(last_marker, frame, sizeof frame);
        took = (uint64_t)(ended.tv_sec - began.tv_sec) * 1000000000u + (uint64_t)ended.tv_nsec - (uint64_t)began.tv_nsec;
        if (times && took < times[i]) times[i] = (uint32_t)took;
    }
}

static void print(const struct call *calls, const uint32_t *times) {
    for (int kind = 1; kind < KINDS; kind++) {
        unsigned count = 0;
        uint32_t lowest = UINT32_MAX, worst = 0;
        for (unsigned i = 0; i < CALLS; i++) {
            if ((int)calls[i].kind != kind) continue;
            count++;
            lowest = times[i] < lowest ? times[i] : lowest;
            worst = times[i] > worst ? times[i] : worst;
        }
        printf("%2u / %4u  %-24s %6u calls, ns %7u %9u, octets of stack %5zu\n", ports, conversations, NAMES[kind], count, lowest, worst, deepest[kind]);
    }
}

int main(void) {
    static const uint16_t SIZES[][2] = {{2, 256}, {8, 256}, {64, 256}, {64, 4096}};
    static struct call calls[CALLS];
    static uint32_t times[CALLS];
    for (unsigned size = 0; size < sizeof SIZES / sizeof *SIZES; size++) {
        ports = SIZES[size][0];
        conversations = SIZES[size][1];
        seed = size + 1;
        save();
        draw(calls);
        memset(times, 0xff, sizeof times);
        memset(deepest, 0, sizeof deepest);
        for (int round = 0; round < ROUNDS; round++) play(calls, times);
        play(calls, NULL);
        print(calls, times);
    }
    niw_free(&here);
    return 0;
}
