/* Two switches that look to a peer like one (MLAG): a handle in each, with one system identifier and key, and port numbers apart. It prints
 * what holds over the pair, and what does not, since no handle knows of the other. */
#include <stdio.h>

#include "lag.h"

#define PORTS 4 /* of the peer: 1 and 2 to the first switch, 3 and 4 to the second one */

struct side {
    struct niw_system system;
    uint16_t ports[2]; /* its own numbers, which the pair has agreed on */
    bool silent;       /* the switch is lost */
};

static struct side pair[2];
static struct niw_system peer;
static bool agrees; /* whether the switches tell each other what they have */

static bool make(struct niw_system *end, uint8_t number, uint16_t first, uint16_t count, uint16_t key, uint16_t most) {
    struct niw_config config = {32768, {2, 0, 0, 0, 0, number}, 0, 1, NIW_FEW_CONVERSATIONS, most, NIW_BY_NUMBER};
    struct niw_port ports[PORTS] = {0};
    for (uint16_t i = 0; i < count; i++) {
        ports[i] = (struct niw_port){.number = (uint16_t)(first + i), .priority = 128, .mac = {2, 0, 0, 0, 1, number}, .key = key};
        ports[i].aggregatable = ports[i].active = ports[i].short_timeout = true;
    }
    niw_free(end);
    if (niw_new(end, &config, &key, 1, ports, count).status != NIW_OK) return false;
    for (uint16_t i = 0; i < count; i++) niw_set_link(end, (uint16_t)(first + i), true);
    return true;
}

/* 100 ms: port p of the peer ends at port (p - 1) % 2 of switch (p - 1) / 2. */
static void pass(void) {
    uint8_t frame[NIW_FRAME], response[NIW_FRAME];
    niw_tick(&peer);
    for (int i = 0; i < 2; i++) niw_tick(&pair[i].system);
    for (uint16_t port = 1; port <= PORTS; port++) {
        struct side *it = &pair[(port - 1) / 2];
        uint16_t far = it->ports[(port - 1) % 2];
        while (niw_transmit(&peer, port, frame, sizeof frame).is)
            if (!it->silent) niw_receive(&it->system, far, frame, sizeof frame, response, sizeof response);
        while (!it->silent && niw_transmit(&it->system, far, frame, sizeof frame).is)
            niw_receive(&peer, port, frame, sizeof frame, response, sizeof response);
    }
}

/* The switches of a pair tell each other what they have. While that does not fit together, the second one holds its ports: better half of
 * the links than a pair that its peer takes for one switch, and that is none. */
static void agree(void) {
    bool fits = pair[0].ports[0] != pair[1].ports[0];
    for (int i = 0; i < 2; i++) niw_hold(&pair[1].system, pair[1].ports[i], !fits);
}

/* Starts the pair and its peer, and says how many links the peer has in its one aggregator after 10 s. */
static void play(const char *what, uint16_t second, uint16_t second_key, uint16_t most, bool loses) {
    uint16_t numbers[NIW_MOST_PORTS], firsts[2] = {1, second}, keys[2] = {7, second_key};
    make(&peer, 9, 1, PORTS, 1, 0);
    for (int i = 0; i < 2; i++) {
        make(&pair[i].system, 1, firsts[i], 2, keys[i], most);
        pair[i].ports[0] = firsts[i];
        pair[i].ports[1] = (uint16_t)(firsts[i] + 1);
        pair[i].silent = false;
    }
    if (agrees) agree();
    for (int tick = 0; tick < 100; tick++) pass();
    pair[1].silent = loses;
    for (int tick = 0; tick < 100; tick++) pass();
    printf("%s: %u of %u links carry\n", what, (unsigned)niw_distributing(&peer, 1, numbers, NIW_MOST_PORTS).number, PORTS);
}

int main(void) {
    pair[0].system = pair[1].system = peer = (struct niw_system)NIW_EMPTY;
    play("port numbers apart", 101, 7, 0, false);
    play("the second switch is lost", 101, 7, 0, true);
    play("the second switch has another key", 101, 8, 0, false);
    play("a limit of one link, in each handle", 101, 7, 1, false);
    play("both switches have ports 1 and 2, and nobody notices", 1, 7, 0, false);
    agrees = true;
    play("the second one notices, and holds its ports", 1, 7, 0, false);
    play("port numbers apart, as both notice", 101, 7, 0, false);
    return 0;
}
