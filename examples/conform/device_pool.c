/* A stack for `lagconform --memory ./device_pool.so`: the loop of examples/c/loop.h, over the library of c/lag.c with the memory of one buffer. Its chip is
 * played here: what it sends goes to the bench. Put your own chip, or your own loop, in its place. In a clone, after `make library`:
 *
 *   cc -shared -fPIC -DNIW_POOL -Icrates/lagffi/include -o out/device_pool.so examples/conform/device_pool.c c/lag.c
 *   tools/lagconform --memory out/device_pool.so
 *
 * By -DWITH_ROWS it is the loop of rows.h beside it, and the chip has a row for each hash bucket. */
#include "device.h"

#define PORTS 4
#define LAGS 1
#ifdef WITH_ROWS
#include "../c/rows.h"
#else
#include "../c/loop.h"
#endif

enum { FLOWS = 64 };

static _Alignas(16) uint8_t room[NIW_MEMORY(PORTS, LAGS, NIW_FEW_CONVERSATIONS)];
static struct loop loop;
static uint32_t trunk, blocked;
static struct { const uint8_t *octets; size_t length; uint16_t port; } trapped;
static unsigned links;
static device_send *put;
static void *bench;
static bool sends_data;

static const uint8_t *chip_next(struct loop *here, uint16_t *port, size_t *length) {
    (void)here;
    const uint8_t *octets = trapped.octets;
    *port = trapped.port, *length = trapped.length;
    trapped.octets = NULL;
    return octets;
}

static void chip_send(struct loop *here, uint16_t port, const uint8_t *frame, size_t length) {
    (void)here;
    put(bench, port, frame, length);
}

static void chip_block(struct loop *here, uint32_t ports, bool block) {
    (void)here;
    blocked = block ? blocked | ports : blocked & ~ports;
}

static void chip_set_trunk(struct loop *here, uint16_t lag, uint32_t ports) {
    (void)here, (void)lag;
    trunk = ports;
}

static void chip_flush(struct loop *here, uint16_t lag) {
    (void)here, (void)lag; /* this chip learns nothing */
}

static void heard(struct loop *here, uint16_t port, const uint8_t *frame, size_t length, uint32_t what) {
    (void)here, (void)port, (void)frame, (void)length, (void)what; /* it counts nothing */
}

void device_start(unsigned count, device_send *send_by, void *to) {
    struct niw_config config = {.priority = 32768, .mac = {2, 0, 0, 0, 0, 0xbb}, .first_marker = 1, .conversations = NIW_FEW_CONVERSATIONS};
    struct niw_port ports[PORTS];
    for (uint16_t i = 0; i < PORTS; i++)
        ports[i] = (struct niw_port){(uint16_t)(i + 1), 128, {2, 0, 0, 0, (uint8_t)(i + 1), 0xbb}, 0, true, true, true};
    links = count < PORTS ? count : PORTS, put = send_by, bench = to;
    niw_give_memory(room, sizeof room);
    begin(&loop, &config, ports);
    for (uint16_t link = 1; link <= links; link++) {
        join(&loop, link, 1);
        set_link(&loop, link, true);
    }
}

void device_take(unsigned link, const unsigned char *frame, size_t size) {
    if (size < 14 || frame[12] != 0x88 || frame[13] != 0x09) return; /* the chip traps control frames alone */
    trapped.octets = frame, trapped.length = size, trapped.port = (uint16_t)link;
    turn(&loop, 0);
}

/* The port that the chip has for a flow, or 0. */
#ifdef WITH_ROWS
static struct rows rows;
static uint16_t row_of_chip[ROWS];

static struct rows *rows_of(struct loop *here) {
    return (void)here, &rows;
}

static void chip_set_row(struct loop *here, uint16_t lag, uint16_t row, uint16_t port) {
    (void)here, (void)lag;
    row_of_chip[row] = port;
}

static uint16_t port_of(unsigned number) {
    uint16_t port = row_of_chip[number % ROWS];
    return port && trunk & ~blocked & bit_of(port) ? port : 0;
}
#else
static uint16_t port_of(unsigned number) {
    uint16_t ports[PORTS], count = 0;
    for (uint16_t port = 1; port <= PORTS; port++)
        if (trunk & ~blocked & bit_of(port)) ports[count++] = port;
    return count > 0 ? ports[number % count] : 0;
}
#endif

/* The chip's hash: a frame of the client's flow of this number, UDP from 198.18.0.0/16, goes out on a port of the trunk. */
static void send_flow(unsigned number) {
    uint8_t frame[60] = {2, 0, 0, 0, 0xf0, (uint8_t)(number * 37 % 251), 2, 0, 0, 0, 0xf1, (uint8_t)number, 8, 0, 0x45, 0, 0, 0x26, 0, 0, 0, 0, 0x40, 0x11,
        0, 0, 198, 18, 0, (uint8_t)number, 198, 19, 0, (uint8_t)number};
    uint16_t port = port_of(number);
    for (unsigned at = 0; at < 4; at++) frame[42 + at] = (uint8_t)(loop.ticks >> (24 - 8 * at)); /* the order of the flow's frames */
    if (port != 0) put(bench, port, frame, sizeof frame);
}

void device_tick(void) {
    turn(&loop, 1);
    for (unsigned number = 0; sends_data && number < FLOWS; number++) send_flow(number);
}

void device_stop(void) {
    niw_free(&loop.system);
}

void device_link(unsigned link, int up) {
    set_link(&loop, (uint16_t)link, up != 0);
}

void device_data(int on) {
    sends_data = on != 0;
}
