/* A port moves from one LAG of a switch to another, each of which has a handle. A handle has its ports for life: so niw_resume makes both LAGs anew,
 * with the new ports, in a second handle, and then the first is freed. The other ports go on carrying, and the peer sees nothing there. */
#include <stdio.h>
#include <stdlib.h>

#include "lag.h"

#define LAGS 2
#define PORTS 4 /* of the switch: 1 and 2 are LAG 0, 3 and 4 LAG 1; later port 2 is of LAG 1, too */

static struct niw_system handles[LAGS][2], *lags[LAGS]; /* each LAG has two handles, and lags the one in use */
static struct niw_system peer;                          /* it has all ports, with a key for each LAG */
static unsigned of[PORTS + 1] = {0, 0, 0, 1, 1};
static struct niw_saved saved[PORTS + 1]; /* the last LACPDU of each port, and how old it is */
static struct niw_view seen[NIW_MOST_PORTS];

static void must(bool holds, const char *what) {
    if (holds) return;
    printf("%s\n", what);
    exit(1);
}

static struct niw_port port_of(uint16_t number, uint8_t system, unsigned lag) {
    return (struct niw_port){number, 128, {2, 0, 0, 0, 1, system}, (uint16_t)(lag + 1), true, true, true};
}

/* Makes the LAG in its other handle, with the ports that are its own now; those whose LACPDUs it is given go on distributing. */
static void make(unsigned lag, uint32_t first_marker, const struct niw_saved *from, size_t count) {
    struct niw_config config = {.priority = 32768, .mac = {2, 0, 0, 0, 0, 1}, .first_marker = first_marker, .conversations = NIW_FEW_CONVERSATIONS};
    const uint16_t key = (uint16_t)(lag + 1);
    struct niw_port ports[PORTS];
    size_t ports_count = 0;
    struct niw_system *other = &handles[lag][lags[lag] == handles[lag]];
    struct niw_made made;
    for (uint16_t port = 1; port <= PORTS; port++)
        if (of[port] == lag) ports[ports_count++] = port_of(port, 1, lag);
    made = from ? niw_resume(other, &config, &key, 1, ports, ports_count, from, count) : niw_new(other, &config, &key, 1, ports, ports_count);
    must(made.status == NIW_OK, niw_status_text(made.status));
    lags[lag] = other;
    for (uint16_t port = 1; port <= PORTS; port++)
        if (of[port] == lag) niw_set_link(other, port, true);
}

static void make_peer(void) {
    struct niw_config config = {.priority = 32768, .mac = {2, 0, 0, 0, 0, 2}, .first_marker = 1, .conversations = NIW_FEW_CONVERSATIONS};
    struct niw_port ports[PORTS];
    const uint16_t keys[] = {1, 2};
    for (uint16_t port = 1; port <= PORTS; port++) ports[port - 1] = port_of(port, 2, of[port]);
    must(niw_new(&peer, &config, keys, LAGS, ports, PORTS).status == NIW_OK, "the peer");
    for (uint16_t port = 1; port <= PORTS; port++) niw_set_link(&peer, port, true);
}

/* 100 ms. */
static void pass(void) {
    uint8_t frame[NIW_FRAME], response[NIW_FRAME];
    niw_tick(&peer);
    for (unsigned lag = 0; lag < LAGS; lag++) niw_tick(lags[lag]);
    for (uint16_t port = 1; port <= PORTS; port++) {
        saved[port].age++;
        while (niw_transmit(&peer, port, frame, sizeof frame).is)
            if (niw_receive(lags[of[port]], port, frame, sizeof frame, response, sizeof response).what == NIW_RECEIVED_TOOK_LACPDU) {
                saved[port] = (struct niw_saved){.port = port};
                memcpy(saved[port].frame, frame, sizeof frame);
            }
        while (niw_transmit(lags[of[port]], port, frame, sizeof frame).is) niw_receive(&peer, port, frame, sizeof frame, response, sizeof response);
    }
}

static void show(const char *what) {
    printf("%s:", what);
    for (uint16_t port = 1; port <= PORTS; port++) printf(" %s", niw_distributes(&peer, port).is ? "carries" : "-");
    printf("\n");
}

/* Makes a LAG anew with its ports of now, and frees what it was. Port `moves` is new or gone, so nothing is said of it. */
static void renew(unsigned lag, uint16_t moves) {
    struct niw_system *before = lags[lag];
    struct niw_saved kept[PORTS];
    size_t count = 0;
    uint32_t marker = niw_next_marker(before).id;
    for (uint16_t port = 1; port <= PORTS; port++)
        if (of[port] == lag && port != moves) kept[count++] = saved[port];
    make(lag, marker, kept, count);
    niw_free(before);
}

int main(void) {
    struct niw_change other_key = {.key = 2, .priority = 128, .aggregatable = true};
    uint64_t noticed = 0;
    make_peer();
    for (unsigned lag = 0; lag < LAGS; lag++) make(lag, 1, NULL, 0);
    for (int tick = 0; tick < 50; tick++) pass();
    show("ports 1 and 2 in one LAG, 3 and 4 in another");
    niw_views(&peer, seen, NIW_MOST_PORTS);
    of[2] = 1;
    renew(0, 2);
    renew(1, 2);
    niw_configure(&peer, 2, &other_key);
    for (int tick = 0; tick < 50; tick++) {
        pass();
        noticed |= niw_views(&peer, seen, NIW_MOST_PORTS).number;
    }
    show("port 2 moved to the other");
    for (uint16_t port = 1; port <= PORTS; port++) printf("port %u: the peer noticed %s\n", port, noticed >> (port - 1) & 1 ? "it" : "nothing");
    printf("port 2 is in the aggregator of port 3: %s\n", niw_choice(&peer, 2).number == niw_choice(&peer, 3).number ? "yes" : "no");
    for (unsigned lag = 0; lag < LAGS; lag++) niw_free(lags[lag]);
    niw_free(&peer);
    return 0;
}
