/* A switch with 512 ports in 64 LAGs: one handle for each LAG. The peer is as large. It prints what each handle costs. */
#define _GNU_SOURCE
#include <malloc.h>
#include <stdio.h>
#include <time.h>

#include "lag.h"

#define LAGS 64
#define PORTS 8 /* of each LAG */
#define TICKS 100

static struct niw_system ours[LAGS], theirs[LAGS];

/* A LAG of its own key, in a system of the switch's identifier; port numbers are those of the switch, 1 to 512. */
static bool make(struct niw_system *lag, uint8_t number, unsigned which) {
    struct niw_config config = {.priority = 32768, .mac = {2, 0, 0, 0, 0, number}, .first_marker = 1, .conversations = NIW_FEW_CONVERSATIONS};
    struct niw_port ports[PORTS] = {0};
    const uint16_t key = (uint16_t)(which + 1);
    for (unsigned i = 0; i < PORTS; i++)
        ports[i] = (struct niw_port){(uint16_t)(which * PORTS + i + 1), 128, {2, 0, 0, 0, 1, number}, key, true, true, false};
    *lag = (struct niw_system)NIW_EMPTY;
    if (niw_new(lag, &config, &key, 1, ports, PORTS).status != NIW_OK) return false;
    for (unsigned i = 0; i < PORTS; i++) niw_set_link(lag, ports[i].number, true);
    return true;
}

static void tick_all(struct niw_system *lags) {
    for (unsigned which = 0; which < LAGS; which++) niw_tick(&lags[which]);
}

/* Which handle a port belongs to is the switch's own table; here it is a division. */
static void send_all(struct niw_system *from, struct niw_system *to) {
    uint8_t frame[NIW_FRAME], response[NIW_FRAME];
    for (uint16_t port = 1; port <= LAGS * PORTS; port++) {
        unsigned which = (port - 1u) / PORTS;
        while (niw_transmit(&from[which], port, frame, sizeof frame).is)
            niw_receive(&to[which], port, frame, sizeof frame, response, sizeof response);
    }
}

static unsigned distributing(struct niw_system *lags) {
    unsigned count = 0;
    for (uint16_t port = 1; port <= LAGS * PORTS; port++) count += niw_distributes(&lags[(port - 1u) / PORTS], port).is;
    return count;
}

static double seconds(void) {
    struct timespec at;
    clock_gettime(CLOCK_PROCESS_CPUTIME_ID, &at);
    return (double)at.tv_sec + (double)at.tv_nsec / 1e9;
}

int main(void) {
    double began, worst = 0, all = 0;
    size_t before = mallinfo2().uordblks, used;
    for (unsigned which = 0; which < LAGS; which++)
        if (!make(&ours[which], 1, which)) return 1;
    used = mallinfo2().uordblks - before;
    for (unsigned which = 0; which < LAGS; which++)
        if (!make(&theirs[which], 2, which)) return 1;
    for (int tick = 0; tick < TICKS; tick++) {
        began = seconds();
        tick_all(ours);
        all += seconds() - began;
        worst = seconds() - began > worst ? seconds() - began : worst;
        tick_all(theirs);
        send_all(ours, theirs);
        send_all(theirs, ours);
    }
    printf("%u of %u ports distribute in %u LAGs\n", distributing(ours), LAGS * PORTS, LAGS);
    fprintf(stderr, "%zu kB for all, %zu octets a LAG\n", used / 1000, used / LAGS);
    fprintf(stderr, "a tick of all: %.1f us on average, %.1f us at most\n", all / TICKS * 1e6, worst * 1e6);
    return 0;
}
