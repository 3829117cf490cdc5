/* The calls whose instructions tools/maintain/sizes counts, each between count_from and count_to, in the order of its rows: PORTS ports in LAGS LAGs, each
 * of one aggregator and 256 conversations, which carry to a second system. What settles is the loop of examples/c/loop.h, over a chip that does nothing; by
 * -DROWS_OF_A_CHIP that of rows.h, and then each `settle` alone is counted. The status is 0 if each call did what its row says. */
#ifdef ROWS_OF_A_CHIP
#include "../../../examples/c/rows.h"
#else
#include "../../../examples/c/loop.h"
#endif

enum { ACTOR_STATE = 32 }; /* where a frame has it */

static _Alignas(16) uint8_t room[2 * NIW_MEMORY(PORTS, LAGS, NIW_FEW_CONVERSATIONS)];
static struct loop here;
static struct kept kept;
static struct niw_system peer = NIW_EMPTY;
static uint8_t came[PORTS + 1][NIW_FRAME], frame[NIW_FRAME], response[NIW_FRAME];
static const uint64_t all = (UINT64_C(1) << PORTS) - 1;

void count_from(void);
void count_to(void);
__attribute__((noipa)) void count_from(void) { __asm__ volatile(""); }
__attribute__((noipa)) void count_to(void) { __asm__ volatile(""); }

#ifdef __riscv
void _start(void);
__attribute__((naked)) void _start(void) {
    __asm__(".option push\n.option norelax\nla gp, __global_pointer$\n.option pop\ncall main\nli a7, 93\necall");
}
#endif

static const uint8_t *chip_next(struct loop *loop, uint16_t *port, size_t *length) { return (void)loop, (void)port, (void)length, NULL; }
static void chip_send(struct loop *loop, uint16_t port, const uint8_t *octets, size_t length) { (void)loop, (void)port, (void)octets, (void)length; }
static void chip_block(struct loop *loop, uint32_t which, bool blocked) { (void)loop, (void)which, (void)blocked; }
static void chip_set_trunk(struct loop *loop, uint16_t lag, uint32_t which) { (void)loop, (void)lag, (void)which; }
static void chip_flush(struct loop *loop, uint16_t lag) { (void)loop, (void)lag; }
static void heard(struct loop *loop, uint16_t port, const uint8_t *octets, size_t length, uint32_t what) {
    (void)loop, (void)port, (void)octets, (void)length, (void)what;
}

#ifdef ROWS_OF_A_CHIP
static struct rows rows;
static struct rows *rows_of(struct loop *loop) { return (void)loop, &rows; }
static void chip_set_row(struct loop *loop, uint16_t lag, uint16_t row, uint16_t port) { (void)loop, (void)lag, (void)row, (void)port; }

/* Whether each row of each LAG has a port, and each port its share. */
static bool level_rows(void) {
    bool has = true;
    for (uint16_t lag = 0; lag < LAGS; lag++) {
        has = has && rows.level[lag] != 0 && rows.level[lag] == here.trunk[lag];
        for (uint16_t row = 0; row < ROWS; row++) has = has && rows.port[lag][row] != 0;
    }
    return has;
}
#else
static bool level_rows(void) { return true; }
#endif

static uint16_t keys[LAGS];
static struct niw_config config = {.priority = 32768, .mac = {2}, .first_marker = 1, .conversations = NIW_FEW_CONVERSATIONS};
static struct niw_port ports[PORTS];

static void describe(uint8_t number) {
    config.mac[5] = number;
    for (uint16_t lag = 1; lag <= LAGS; lag++) keys[lag - 1] = lag;
    for (uint16_t i = 0; i < PORTS; i++)
        ports[i] = (struct niw_port){(uint16_t)(i + 1), 128, {2, 0, 0, 0, (uint8_t)(i + 1), number}, (uint16_t)(1 + i * LAGS / PORTS), true, true, true};
}

static void receive(uint16_t port) { niw_receive(&here.system, port, came[port], NIW_FRAME, response, sizeof response); }

static void exchange(void) {
    for (uint16_t port = 1; port <= PORTS; port++) {
        if (niw_transmit(&here.system, port, frame, sizeof frame).is) niw_receive(&peer, port, frame, sizeof frame, response, sizeof response);
        if (niw_transmit(&peer, port, came[port], NIW_FRAME).is) receive(port);
    }
}

static uint64_t distributing(void) {
    uint64_t count = 0;
    for (uint16_t lag = 1; lag <= LAGS; lag++) count += (uint64_t)__builtin_popcount(members_of(&here, lag));
    return count;
}

static void come_up(void) {
    for (int i = 0; i < 5; i++) {
        exchange();
        niw_ticks(&here.system, 10);
        niw_ticks(&peer, 10);
    }
    exchange();
}

static void pass_until_one_is_left(void) { niw_ticks(&here.system, niw_ticks_until_due(&here.system).ticks - 1u); }

#define COUNT(call) (count_from(), (void)(call), count_to())
#ifdef ROWS_OF_A_CHIP
#define COUNT_ALONE(call) (void)(call)
#else
#define COUNT_ALONE COUNT
#endif

int main(void) {
    peer = (struct niw_system)NIW_EMPTY; /* a program without start-up code has what its file has where zeros should be */
#ifdef ROWS_OF_A_CHIP
    rows.waits = false;
#endif
    niw_give_memory(room, sizeof room);
    describe(2);
    niw_new(&peer, &config, keys, LAGS, ports, PORTS);
    describe(1);
    here = (struct loop){.up = (uint32_t)all};
    COUNT_ALONE(niw_new(&here.system, &config, keys, LAGS, ports, PORTS));
    for (uint16_t port = 1; port <= PORTS; port++) {
        niw_set_link(&here.system, port, true);
        niw_set_link(&peer, port, true);
    }
    come_up();
    if (distributing() != PORTS || niw_due(&here.system).number || niw_ticks_until_due(&here.system).ticks < 3) return 1;
    settle(&here);
    settle(&here);
    if (!level_rows()) return 13;
    COUNT_ALONE(niw_tick(&here.system));
    COUNT(settle(&here));
    pass_until_one_is_left();
    if (niw_due(&here.system).number) return 2;
    COUNT_ALONE(niw_tick(&here.system));
    if (niw_due(&here.system).number != all) return 3;
    COUNT(settle(&here));
    if (niw_due(&here.system).number) return 4;
#ifdef ROWS_OF_A_CHIP
    COUNT(keep(&kept, &here));
    return level_rows() ? 0 : 14;
#endif
    pass_until_one_is_left();
    niw_tick(&here.system);
    if (niw_due(&here.system).number != all) return 5;
    COUNT_ALONE(niw_transmit(&here.system, PORTS, frame, sizeof frame));
    if (niw_due(&here.system).number != all >> 1) return 6;
    COUNT_ALONE(receive(PORTS));
    if (distributing() != PORTS) return 7;
    came[PORTS][ACTOR_STATE] ^= NIW_STATE_SYNCHRONIZATION;
    COUNT_ALONE(receive(PORTS));
    if (distributing() != PORTS - 1) return 8;
    came[PORTS][ACTOR_STATE] ^= NIW_STATE_SYNCHRONIZATION;
    for (uint16_t port = 1; port <= PORTS; port++) receive(port);
    niw_ticks(&here.system, 59);
    if (niw_defaulted(&here.system, 1).is || niw_defaulted(&here.system, PORTS).is) return 9;
    COUNT_ALONE(niw_tick(&here.system));
    if (!niw_defaulted(&here.system, 1).is || !niw_defaulted(&here.system, PORTS).is) return 10;
    come_up();
    if (distributing() != PORTS) return 11;
    COUNT_ALONE(niw_set_link(&here.system, PORTS, false));
    if (distributing() != PORTS - 1) return 12;
    COUNT_ALONE(keep(&kept, &here));
    return 0;
}
