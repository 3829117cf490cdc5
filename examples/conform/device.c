/* A stack for `lagconform --memory ./device.so`: liblag, with a port at each link. Put your own in its place.
 *
 *   cc -shared -fPIC -o device.so device.c -llag && lagconform --memory ./device.so */
#include "device.h"
#include "lag.h"

/* Eleven ticks are more than a second, wherever in a tick the first response went out. */
enum { KEY = 23, MOST_LINKS = 8, RESPONSES = 10, SECOND = 11, FLOWS = 64 };

static struct niw_system lag = NIW_EMPTY;
static unsigned links, ticks;
static device_send *put;
static void *to;
static bool sends_data;
/* Of each link: when the last ten responses went out. A port sends ten Marker PDUs a second at most (802.3 57A). */
static unsigned answered[MOST_LINKS + 1][RESPONSES], next_answer[MOST_LINKS + 1];

static void send_due(void) {
    uint8_t frame[NIW_FRAME];
    for (uint16_t link = 1; link <= links; link++)
        while (niw_transmit(&lag, link, frame, sizeof frame).is)
            put(to, link, frame, sizeof frame);
}

void device_start(unsigned count, device_send *send, void *bench) {
    struct niw_config config = {.priority = 32768, .mac = {2, 0, 0, 0, 0, 0xbb}, .conversations = 256};
    struct niw_port ports[MOST_LINKS];
    uint16_t keys[MOST_LINKS];
    links = count < MOST_LINKS ? count : MOST_LINKS, put = send, to = bench;
    for (uint16_t at = 0; at < links; at++) {
        ports[at] = (struct niw_port){.number = (uint16_t)(at + 1), .priority = 128, .mac = {2, 0, 0, 0, 0xbb, (uint8_t)(at + 1)}, .key = KEY,
            .aggregatable = true, .active = true, .short_timeout = true};
        keys[at] = KEY;
    }
    niw_new(&lag, &config, keys, links, ports, links);
    for (uint16_t link = 1; link <= links; link++)
        niw_set_link(&lag, link, true);
}

static bool may_answer(unsigned link) {
    unsigned *oldest = &answered[link][next_answer[link] % RESPONSES];
    if (next_answer[link] >= RESPONSES && ticks - *oldest < SECOND)
        return false;
    *oldest = ticks;
    next_answer[link]++;
    return true;
}

void device_take(unsigned link, const unsigned char *frame, size_t size) {
    uint8_t response[NIW_FRAME];
    if (size < 14 || frame[12] != 0x88 || frame[13] != 0x09)
        return; /* no control frame: a client's, if the port collects */
    struct niw_received got = niw_receive(&lag, (uint16_t)link, frame, size, response, sizeof response);
    if (got.what == NIW_RECEIVED_RESPOND && may_answer(link))
        put(to, link, response, sizeof response);
    send_due();
}

/* A frame of the client's flow of this number: UDP from 198.18.0.0/16. */
static void send_flow(uint16_t aggregator, unsigned number) {
    uint8_t frame[60] = {2, 0, 0, 0, 0xf0, (uint8_t)(number * 37 % 251), 2, 0, 0, 0, 0xf1, (uint8_t)number, 8, 0, 0x45, 0, 0, 0x26, 0, 0, 0, 0, 0x40, 0x11,
        0, 0, 198, 18, 0, (uint8_t)number, 198, 19, 0, (uint8_t)number};
    for (unsigned at = 0; at < 4; at++)
        frame[42 + at] = (uint8_t)(ticks >> (24 - 8 * at)); /* the order of the flow's frames */
    struct niw_number link = niw_offer_in_active_aggregator(&lag, aggregator, frame, sizeof frame);
    if (link.status == NIW_OK)
        put(to, (unsigned)link.number, frame, sizeof frame);
}

void device_tick(void) {
    ticks++;
    niw_tick(&lag);
    send_due();
    struct niw_number active = niw_active_aggregator(&lag, 0);
    for (unsigned number = 0; sends_data && active.number && number < FLOWS; number++)
        send_flow((uint16_t)active.number, number);
}

void device_stop(void) {
    niw_free(&lag);
}

void device_link(unsigned link, int up) {
    niw_set_link(&lag, (uint16_t)link, up != 0);
}

void device_data(int on) {
    sends_data = on != 0;
}
