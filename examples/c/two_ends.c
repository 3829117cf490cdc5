#include <stdio.h>
#include "lag.h"

/* One end: port 1, whose link is up, in aggregator 1. */
static bool make_end(struct niw_system *end, uint8_t number) {
    struct niw_config config = {.priority = 32768, .mac = {2, 0, 0, 0, 0, number}, .conversations = 256};
    struct niw_port port = {.number = 1, .mac = {2, 0, 0, 0, 0, number}, .key = 1, .aggregatable = true, .active = true};
    const uint16_t keys[] = {1};
    return niw_new(end, &config, keys, 1, &port, 1).status == NIW_OK && niw_set_link(end, 1, true) == NIW_OK;
}

/* 100 ms pass at one end, and what it sends comes to the other. */
static void pass(struct niw_system *from, struct niw_system *to) {
    uint8_t frame[NIW_FRAME], response[NIW_FRAME];
    niw_tick(from);
    while (niw_transmit(from, 1, frame, sizeof frame).is)
        niw_receive(to, 1, frame, sizeof frame, response, sizeof response);
}

int main(void) {
    struct niw_system one = NIW_EMPTY, two = NIW_EMPTY;
    if (!make_end(&one, 1) || !make_end(&two, 2))
        return 1;
    unsigned ticks = 0;
    for (; ticks < 100 && !(niw_distributes(&one, 1).is && niw_distributes(&two, 1).is); ticks++) {
        pass(&one, &two);
        pass(&two, &one);
    }
    printf("both ends distribute after %u ticks of 100 ms\n", ticks);
    niw_free(&one);
    niw_free(&two);
    return ticks < 100 ? 0 : 1;
}
