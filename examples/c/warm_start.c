/* A warm start: a control plane ends while its chip goes on forwarding, and a new one takes over from what the old one saved. The peer sees
 * nothing of it. Then each conversation goes back to the port that the chip has for it; or, as a host that forgets that, to the port
 * that the algorithm picks. */
#include <stdio.h>
#include <stdlib.h>

#include "lag.h"

#define PORTS 2
#define FLOWS 256
#define MOVED 40   /* conversations that the old control plane moved off the port that the algorithm picks */
#define DEPTH 8192 /* packets on a cable */

/* What has to outlive the control plane: the last LACPDU of each port, and the next identifier of a marker. */
static struct {
    struct niw_saved ports[PORTS];
    uint32_t next_marker;
} saved;

struct packet {
    unsigned arrives;
    uint16_t length;
    uint8_t octets[NIW_FRAME];
};
struct cable {
    struct packet packets[DEPTH];
    unsigned first, count;
};
static struct cable there[PORTS], back[PORTS];
static const unsigned DELAYS[PORTS] = {1, 4}; /* ticks on a cable */

static struct niw_system here, peer;
static bool runs;           /* whether the control plane runs */
static uint16_t row[FLOWS]; /* of the chip: the port of each conversation */
static unsigned now;
static uint32_t sent[FLOWS], collected[FLOWS];
static struct niw_view seen[NIW_MOST_PORTS]; /* of the peer, a call ago */
static unsigned overtaken, noticed;

static void must(bool holds, const char *what) {
    if (holds) return;
    printf("%s\n", what);
    exit(1);
}

static void put(struct cable *cables, uint16_t port, const uint8_t *octets, size_t length) {
    struct cable *cable = &cables[port - 1];
    struct packet *packet = &cable->packets[(cable->first + cable->count++) % DEPTH];
    must(cable->count <= DEPTH, "a cable is full");
    packet->arrives = now + DELAYS[port - 1];
    packet->length = (uint16_t)length;
    memcpy(packet->octets, octets, length);
}

/* The next packet that arrives, or NULL. */
static const struct packet *take(struct cable *cable) {
    const struct packet *packet = &cable->packets[cable->first % DEPTH];
    if (cable->count == 0 || packet->arrives > now) return NULL;
    cable->first++;
    cable->count--;
    return packet;
}

/* Makes a system: from nothing, or a warm one from what was saved of each port. */
static void make(struct niw_system *end, uint8_t number, uint32_t first_marker, const struct niw_saved *from) {
    struct niw_config config = {.priority = 32768, .mac = {2, 0, 0, 0, 0, number}, .first_marker = first_marker, .conversations = FLOWS};
    struct niw_port ports[PORTS] = {0};
    struct niw_made made;
    const uint16_t keys[] = {7};
    for (uint16_t i = 0; i < PORTS; i++) {
        ports[i] = (struct niw_port){.number = (uint16_t)(i + 1), .mac = {2, 0, 0, 0, 1, number}, .key = 7, .aggregatable = true, .active = true};
        ports[i].short_timeout = true;
    }
    *end = (struct niw_system)NIW_EMPTY;
    made = from ? niw_resume(end, &config, keys, 1, ports, PORTS, from, PORTS) : niw_new(end, &config, keys, 1, ports, PORTS);
    must(made.status == NIW_OK, niw_status_text(made.status));
}

static bool distributes(struct niw_system *end) {
    for (uint16_t port = 1; port <= PORTS; port++)
        if (!niw_distributes(end, port).is) return false;
    return true;
}

static void send_due(struct niw_system *end, struct cable *cables) {
    uint8_t frame[NIW_FRAME];
    for (uint16_t port = 1; port <= PORTS; port++)
        while (niw_transmit(end, port, frame, sizeof frame).is) put(cables, port, frame, sizeof frame);
}

static void look_at_peer(void) {
    noticed += niw_views(&peer, seen, NIW_MOST_PORTS).number != 0;
}

/* The peer takes what arrives: data of a flow has to come in order. */
static void arrive_at_peer(uint16_t port) {
    uint8_t response[NIW_FRAME];
    for (const struct packet *it = take(&there[port - 1]); it; it = take(&there[port - 1])) {
        struct niw_received received = niw_receive(&peer, port, it->octets, it->length, response, sizeof response);
        uint32_t serial;
        look_at_peer();
        if (received.what == NIW_RECEIVED_RESPOND) put(back, port, response, received.number);
        if (received.what != NIW_RECEIVED_HANDED_UP) continue;
        memcpy(&serial, it->octets + 14, sizeof serial);
        overtaken += serial < collected[it->octets[5]];
        collected[it->octets[5]] = serial;
    }
}

/* The control plane takes what arrives, and saves each LACPDU that it processed. While it does not run, the chip loses these frames. */
static void arrive_here(uint16_t port) {
    uint8_t response[NIW_FRAME];
    for (const struct packet *it = take(&back[port - 1]); it; it = take(&back[port - 1])) {
        struct niw_received received = {0};
        if (runs) received = niw_receive(&here, port, it->octets, it->length, response, sizeof response);
        if (received.what == NIW_RECEIVED_RESPOND) put(there, port, response, received.number);
        if (!runs || received.what != NIW_RECEIVED_TOOK_LACPDU) continue;
        saved.ports[port - 1] = (struct niw_saved){.port = port};
        memcpy(saved.ports[port - 1].frame, it->octets, NIW_FRAME);
    }
}

/* The chip sends a frame of each flow that has a port. */
static void forward(void) {
    for (unsigned flow = 0; flow < FLOWS; flow++) {
        uint8_t frame[64] = {2, 0, 0, 0, 0, (uint8_t)flow, 2, 0, 0, 0, 0, 0, 8, 0};
        if (row[flow] == 0) continue;
        sent[flow]++;
        memcpy(frame + 14, &sent[flow], sizeof sent[flow]);
        put(there, row[flow], frame, sizeof frame);
    }
}

/* 100 ms. */
static void pass(void) {
    now++;
    for (uint16_t port = 1; port <= PORTS; port++) {
        saved.ports[port - 1].age++;
        arrive_at_peer(port);
        arrive_here(port);
    }
    niw_tick(&peer);
    look_at_peer();
    send_due(&peer, back);
    if (runs) {
        niw_tick(&here);
        send_due(&here, there);
        for (uint16_t port = 1; port <= PORTS; port++) saved.ports[port - 1].aggregator = (uint16_t)niw_choice(&here, port).number;
        saved.next_marker = niw_next_marker(&here).id;
    }
    forward();
}

/* The chip's table becomes the library's. */
static void write_rows(void) {
    bool changed[FLOWS];
    niw_conversation_ports(&here, 1, row, FLOWS, changed, FLOWS);
}

/* The old control plane: links come up, each conversation gets a port, and some are moved. */
static void live(void) {
    make(&here, 1, 1, NULL);
    make(&peer, 2, 1, NULL);
    for (uint16_t port = 1; port <= PORTS; port++) {
        niw_set_link(&here, port, true);
        niw_set_link(&peer, port, true);
    }
    runs = true;
    while (!distributes(&here) || !distributes(&peer)) pass();
    for (uint16_t flow = 0; flow < FLOWS; flow++) niw_offer_conversation(&here, 1, flow);
    write_rows();
    for (int tick = 0; tick < 20; tick++) pass();
    for (uint16_t flow = 0; flow < MOVED; flow++) niw_move_conversation(&here, 1, flow, (uint16_t)(PORTS + 1 - row[flow]));
    write_rows();
    while (niw_held(&here, 1).number + niw_held(&here, 2).number > 0) pass();
    for (uint16_t flow = 0; flow < FLOWS; flow++) niw_offer_conversation(&here, 1, flow);
    write_rows();
    for (int tick = 0; tick < 20; tick++) pass();
}

/* Takes each conversation back to the port that the chip has for it. Answers how many the algorithm would have put elsewhere. */
static unsigned adopt(void) {
    unsigned elsewhere = 0;
    for (uint16_t flow = 0; flow < FLOWS; flow++) {
        must(niw_adopt(&here, 1, flow, row[flow]) == NIW_OK, "a conversation is not adopted");
        elsewhere += row[flow] != flow % PORTS + 1;
    }
    return elsewhere;
}

static void run(bool adopts) {
    struct niw_view old[NIW_MOST_PORTS] = {0};
    unsigned elsewhere = 0;
    live();
    noticed = overtaken = 0;
    niw_views(&here, old, NIW_MOST_PORTS);
    niw_free(&here);
    runs = false;
    for (int tick = 0; tick < 10; tick++) pass();
    make(&here, 1, saved.next_marker, saved.ports);
    runs = true;
    printf("%s\n", niw_views(&here, old, NIW_MOST_PORTS).number == 0 ? "each port is as it was" : "a port differs");
    if (adopts) elsewhere = adopt();
    for (uint16_t flow = 0; flow < FLOWS; flow++) niw_offer_conversation(&here, 1, flow);
    write_rows();
    for (int tick = 0; tick < 300; tick++) pass();
    printf("the peer noticed %u changes; ", noticed);
    if (adopts) printf("%u conversations stayed off the port of the algorithm; ", elsewhere);
    printf("%u frames were overtaken\n", overtaken);
    niw_free(&here);
    niw_free(&peer);
}

int main(void) {
    printf("with the ports of the chip:\n");
    run(true);
    memset(row, 0, sizeof row);
    memset(sent, 0, sizeof sent);
    memset(collected, 0, sizeof collected);
    memset(there, 0, sizeof there);
    memset(back, 0, sizeof back);
    printf("with the ports that the algorithm picks:\n");
    run(false);
    return 0;
}
