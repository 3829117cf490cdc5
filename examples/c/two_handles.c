/* A switch whose two LAGs have a handle each, by loop.h, under one MAC address; a peer that has all four cables in one LAG. By one key the peer takes both for
 * one, and a flood comes back: a loop. By keys of their own one LAG carries. Each handle has all ports, and those of the other are none of its own.
 *
 * cc -O2 -DNIW_POOL -Icrates/lagffi/include -o two_handles examples/c/two_handles.c c/lag.c && ./two_handles */
#include <stdio.h>

#define PORTS 4
#define LAGS 1
#define TRAPPED 64

#include "loop.h"

struct box {
    struct loop loop;
    uint8_t number; /* that of the MAC address */
    uint32_t ports; /* its own */
    uint32_t trunk, blocked;
    struct { uint16_t port; size_t length; uint8_t octets[NIW_FRAME]; } wait[TRAPPED];
    unsigned next, waiting;
};

static struct box boxes[] = {{.number = 1, .ports = 0x3}, {.number = 1, .ports = 0xc}, {.number = 2, .ports = 0xf}};
static struct box *const one = &boxes[0], *const other = &boxes[1], *const peer = &boxes[2];

static struct box *box_of(const struct loop *loop) {
    return loop == &one->loop ? one : loop == &other->loop ? other : peer;
}

static const uint8_t *chip_next(struct loop *here, uint16_t *port, size_t *length) {
    struct box *box = box_of(here);
    if (box->next == box->waiting) box->next = box->waiting = 0;
    if (box->waiting == 0) return NULL;
    *port = box->wait[box->next].port, *length = box->wait[box->next].length;
    return box->wait[box->next++].octets;
}

static void chip_send(struct loop *here, uint16_t port, const uint8_t *frame, size_t length) {
    struct box *to = box_of(here) != peer ? peer : one->ports & bit_of(port) ? one : other;
    if (to->waiting == TRAPPED) return;
    to->wait[to->waiting].port = port, to->wait[to->waiting].length = length;
    memcpy(to->wait[to->waiting++].octets, frame, length);
}

/* `begin` of a handle blocks no port of the other one, nor lets one forward. */
static void chip_block(struct loop *here, uint32_t ports, bool blocked) {
    struct box *box = box_of(here);
    ports &= box->ports;
    box->blocked = blocked ? box->blocked | ports : box->blocked & ~ports;
}

static void chip_set_trunk(struct loop *here, uint16_t lag, uint32_t ports) {
    (void)lag;
    box_of(here)->trunk = ports;
}

static void chip_flush(struct loop *here, uint16_t lag) {
    (void)here, (void)lag; /* this chip learns nothing */
}

static void heard(struct loop *here, uint16_t port, const uint8_t *frame, size_t length, uint32_t what) {
    (void)here, (void)port, (void)frame, (void)length, (void)what; /* it counts nothing */
}

static bool make(struct box *box, uint16_t keys) {
    struct niw_config config = {.priority = 32768, .mac = {2, 0, 0, 0, 0, box->number}, .first_marker = 1, .conversations = NIW_ONE_CONVERSATION};
    struct niw_port ports[PORTS];
    for (uint16_t i = 0; i < PORTS; i++)
        ports[i] = (struct niw_port){(uint16_t)(i + 1), 128, {2, 0, 0, 0, (uint8_t)(i + 1), box->number}, 0, true, true, true};
    box->loop.keys = keys;
    if (begin(&box->loop, &config, ports) != NIW_OK) return false;
    for (uint16_t port = 1; port <= PORTS; port++) {
        if (!(box->ports & bit_of(port))) continue;
        join(&box->loop, port, 1);
        set_link(&box->loop, port, true);
    }
    return true;
}

/* Both LAGs by these keys; answers whether the handles are made. */
static bool show(const char *what, uint16_t keys) {
    if (!make(one, 0) || !make(other, keys) || !make(peer, 0)) return false;
    for (unsigned ticks = 0; ticks < 100; ticks++)
        for (unsigned i = 0; i < 3; i++) turn(&boxes[i].loop, 1);
    printf("%s: trunks %x and %x, that of the peer %x\n", what, (unsigned)one->trunk, (unsigned)other->trunk, (unsigned)peer->trunk);
    printf("  of port 3: %s; at the peer: %s\n", why_out(&other->loop, 3), why_out(&peer->loop, 3));
    printf("  ports 1 and 3 lead to the keys %u and %u", niw_partner(&one->loop.system, 1).key, niw_partner(&other->loop.system, 3).key);
    printf(", and at the peer to %u and %u\n", niw_partner(&peer->loop.system, 1).key, niw_partner(&peer->loop.system, 3).key);
    for (unsigned i = 0; i < 3; i++) niw_free(&boxes[i].loop.system);
    return true;
}

int main(void) {
#ifdef NIW_POOL
    static _Alignas(16) uint8_t room[3 * NIW_MEMORY(PORTS, LAGS, NIW_ONE_CONVERSATION)];
    niw_give_memory(room, sizeof room);
#endif
    return show("one key", 0) && show("keys of their own", 1) ? 0 : 1;
}
