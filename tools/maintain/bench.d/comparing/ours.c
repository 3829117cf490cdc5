/* One library behind lag.h, for compare.c: the scene and the calls of `bench --embedded`. Compiled once for each library, whose functions no
 * other object sees. NAME is that of the table of its calls. */
#include <stdlib.h>

#include "compare.h"
#include "lag.h"

#define WINDOW 11 /* ticks in which a port may send three LACPDUs */

static struct niw_system lag = NIW_EMPTY;
static uint16_t ports;
static uint8_t frames[3][NIW_MOST_PORTS][NIW_FRAME], response[NIW_FRAME];

static void put(uint8_t *frame, uint16_t port, uint8_t state, uint8_t told) {
    const uint8_t head[14] = {1, 0x80, 0xc2, 0, 0, 2, 2, 0, 0, 0, 0, 9, 0x88, 0x09};
    struct niw_pdu pdu = {.subtype = NIW_SUBTYPE_LACPDU};
    memcpy(frame, head, sizeof head);
    pdu.actor = (struct niw_participant){32768, {2, 0, 0, 0, 0, 9}, 1, 128, port, state};
    pdu.partner = (struct niw_participant){32768, {2, 0, 0, 0, 0, 1}, 1, 128, port, told};
    if (niw_encode(&pdu, frame + sizeof head, NIW_PAYLOAD_LENGTH) != NIW_OK) abort();
}

static void put_all(int which, uint8_t state, uint8_t told) {
    for (uint16_t port = 1; port <= ports; port++) put(frames[which][port - 1], port, state, told);
}

static long hear(int which) {
    long right = 0;
    for (uint16_t port = 1; port <= ports; port++)
        right += niw_receive(&lag, port, frames[which][port - 1], NIW_FRAME, response, sizeof response).what == NIW_RECEIVED_TOOK_LACPDU;
    return right;
}

static void setup(int count) {
    /* Where lacp.c is, something else picks the ports of frames. A library from before one conversation was enough has 256. */
    struct niw_config config = {32768, {2, 0, 0, 0, 0, 1}, 0, 1, 1, 0, NIW_BY_NUMBER};
    struct niw_port list[NIW_MOST_PORTS];
    uint16_t keys[1] = {1};
    niw_free(&lag);
    ports = (uint16_t)count;
    for (uint16_t at = 0; at < count; at++)
        list[at] = (struct niw_port){(uint16_t)(at + 1), 128, {2, 0, 0, 0, 0, (uint8_t)(at + 1)}, 1, true, true, false};
    if (niw_new(&lag, &config, keys, 1, list, (size_t)count).status != NIW_OK) {
        config.conversations = NIW_FEW_CONVERSATIONS;
        if (niw_new(&lag, &config, keys, 1, list, (size_t)count).status != NIW_OK) abort();
    }
    for (uint16_t port = 1; port <= ports; port++) niw_set_link(&lag, port, true);
    put_all(0, 0x3d, 0x05);
    hear(0);
    niw_ticks(&lag, 21);
    put_all(0, 0x3d, 0x3d);
    hear(0);
    niw_ticks(&lag, 11);
    for (uint16_t port = 1; port <= ports; port++) (void)niw_transmit(&lag, port, response, sizeof response);
    niw_ticks(&lag, 11);
    put_all(1, 0x35, 0x3c);
    put_all(2, 0x3d, 0x3c);
    for (uint16_t port = 1; port <= ports; port++)
        if (!niw_distributes(&lag, port).is) abort();
}

static long same(void) { return hear(0); }

/* Each port hears a partner that is out of Sync, or in it, and asks; then each sends until nothing is due. */
static long flip(int odd) {
    long right = hear(odd ? 1 : 2);
    for (uint16_t port = 1; port <= ports; port++) {
        right -= niw_transmit(&lag, port, response, sizeof response).what != NIW_SENT_LACPDU;
        right -= niw_transmit(&lag, port, response, sizeof response).is;
    }
    return right;
}

static long tick(void) { return niw_tick(&lag) == NIW_OK; }

static void wait(void) { niw_ticks(&lag, WINDOW); }

const struct ours NAME = {setup, same, flip, tick, wait};
