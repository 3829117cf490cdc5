/* Tests of lag_end.h: a program that follows another one with another LACP_Activity or LACP_Timeout goes on, and tells its partner. Two ports of it
 * stand beside a system of the library. */
#include "lag_end.h"

#include <stdio.h>

#define PORTS 2
#define SECOND 10 /* In ticks. */

static const uint8_t here_mac[6] = { 2, 0, 0, 0, 0, 1 };

/* How the ports of an end are. */
struct mode {
    bool active;
    bool short_timeout;
};

static const struct mode fast = { true, true }, slow = { true, false }, fast_passive = { false, true }, slow_passive = { false, false };

static struct lag_end here;
static struct niw_system there;
static struct lag_heard heard[PORTS];
static struct niw_port ports[PORTS];
static uint8_t told[PORTS][NIW_FRAME]; /* The last LACPDU of each port to its partner. */
static unsigned sent[PORTS];           /* How many there were. */
static int64_t now;
static int passed, failed;

static void
check(bool holds, const char *what)
{
    *(holds ? &passed : &failed) += 1;
    printf("%s: %s\n", holds ? "passed" : "FAILED", what);
}

static void
from_here(bool arrives)
{
    uint8_t response[NIW_FRAME];

    for (uint16_t i = 0; i < PORTS; i++) {
        while (niw_transmit(&here.system, ports[i].number, told[i], NIW_FRAME).is) {
            sent[i]++;
            if (arrives) {
                niw_receive(&there, ports[i].number, told[i], NIW_FRAME, response, sizeof response);
            }
        }
    }
}

static void
from_there(bool arrives)
{
    uint8_t frame[NIW_FRAME], response[NIW_FRAME];

    for (uint16_t i = 0; i < PORTS; i++) {
        while (niw_transmit(&there, ports[i].number, frame, sizeof frame).is) {
            if (arrives && niw_receive(&here.system, ports[i].number, frame, sizeof frame, response, sizeof response).what == NIW_RECEIVED_TOOK_LACPDU) {
                lag_hear(&heard[i], frame, now);
            }
        }
    }
}

static bool
both_carry(uint16_t port)
{
    return niw_distributes(&here.system, port).is && !niw_defaulted(&here.system, port).is && niw_distributes(&there, port).is
        && !niw_defaulted(&there, port).is;
}

/* So many ticks pass. Returns in how many of them each link carried at both ends. */
static int
pass(int ticks)
{
    int good = 0;

    for (int i = 0; i < ticks; i++) {
        bool carry = true;

        now += NIW_TICK_MILLISECONDS;
        lag_end_advance(&here, now);
        niw_tick(&there);
        for (int way = 0; way < 2; way++) {
            for (uint16_t j = 0; j < PORTS; j++) {
                carry = carry && both_carry(ports[j].number);
            }
            way ? from_there(true) : from_here(true);
        }
        good += carry;
    }
    return good;
}

/* As many pass while no program is here; what comes is lost. */
static void
pause_for(int ticks)
{
    for (int i = 0; i < ticks; i++) {
        now += NIW_TICK_MILLISECONDS;
        niw_tick(&there);
        from_there(false);
    }
}

/* The program here has its ports so, of which those that `carried` go on. Returns how many begin anew. */
static int
remake(struct mode mode, uint16_t key, bool carried, uint32_t *why)
{
    const struct niw_config config = { .priority = 1, .mac = { 2, 0, 0, 0, 0, 1 }, .conversations = NIW_ONE_CONVERSATION };
    struct lag_port list[PORTS];
    int begin = 0;

    for (uint16_t i = 0; i < PORTS; i++) {
        ports[i] = (struct niw_port) { .number = (uint16_t) (7 + i), .key = key, .aggregatable = true, .active = mode.active, .short_timeout = mode.short_timeout };
        memcpy(ports[i].mac, here_mac, sizeof here_mac);
        list[i] = (struct lag_port) { .port = ports[i], .up = true, .carried = carried, .aggregator = 1, .heard = &heard[i] };
        sent[i] = 0;
    }
    if (lag_end_remake(&here, &config, list, PORTS, now).status != NIW_OK) {
        abort();
    }
    *why = 0;
    for (uint16_t i = 0; i < PORTS; i++) {
        begin += list[i].begins;
        *why = list[i].begins ? list[i].why : *why;
    }
    return begin;
}

/* Both ends begin, and carry. */
static void
begin(struct mode own, struct mode partner)
{
    const struct niw_config config = { .priority = 2, .mac = { 2, 0, 0, 0, 0, 2 }, .conversations = NIW_ONE_CONVERSATION };
    const uint16_t keys[PORTS] = { 3, 3 };
    struct niw_port its[PORTS];
    uint32_t why;

    memset(heard, 0, sizeof heard);
    niw_free(&there);
    remake(own, 5, false, &why);
    for (uint16_t i = 0; i < PORTS; i++) {
        its[i] = (struct niw_port) { .number = ports[i].number, .mac = { 2, 0, 0, 0, 0, 2 }, .key = 3, .aggregatable = true, .active = partner.active,
                                     .short_timeout = partner.short_timeout };
    }
    niw_new(&there, &config, keys, PORTS, its, PORTS);
    for (uint16_t i = 0; i < PORTS; i++) {
        niw_set_link(&there, its[i].number, true);
    }
    pass(40 * SECOND);
    if (pass(SECOND) != SECOND) {
        abort();
    }
}

/* What the last LACPDUs to the partner say of the ports. */
static bool
tell(struct mode mode)
{
    for (uint16_t i = 0; i < PORTS; i++) {
        uint8_t state = told[i][LAG_ACTOR_STATE];

        if (!sent[i] || !(state & NIW_STATE_ACTIVITY) != !mode.active || !(state & NIW_STATE_TIMEOUT) != !mode.short_timeout) {
            return false;
        }
    }
    return true;
}

/* A program with `next` follows one with `was`, after a pause: no link stops, then and for minutes. */
static void
follow(struct mode was, struct mode next, struct mode partner, int pause, const char *what)
{
    uint32_t why;

    printf("%s, a partner with %s timeouts, a pause of %d ticks:\n", what, partner.short_timeout ? "short" : "long", pause);
    begin(was, partner);
    pause_for(pause);
    check(!remake(next, 5, true, &why), "  each port goes on");
    from_here(true);
    check(tell(next), "  its next LACPDU says the new mode");
    from_there(true);
    check(pass(200 * SECOND) == 200 * SECOND, "  no link stops for 200 s");
    check(tell(next), "  it says so still");
}

/* The mode changes while the program runs; and so while the partner is silent, which it stays. */
static void
try_running(void)
{
    begin(fast, fast);
    for (uint16_t i = 0; i < PORTS; i++) {
        lag_end_set_mode(&here, ports[i].number, true, false, &heard[i]);
    }
    check(pass(200 * SECOND) == 200 * SECOND && tell(slow), "fast to slow without a restart: no link stops for 200 s");
    for (uint16_t i = 0; i < PORTS; i++) {
        lag_end_set_mode(&here, ports[i].number, true, true, &heard[i]);
    }
    check(pass(200 * SECOND) == 200 * SECOND && tell(fast), "and back");
    for (int i = 0; i < 40; i++) {
        now += NIW_TICK_MILLISECONDS;
        lag_end_advance(&here, now);
    }
    lag_end_set_mode(&here, ports[0].number, true, false, &heard[0]);
    check(niw_receive_state(&here.system, ports[0].number).number == NIW_RECEIVE_EXPIRED, "where the partner fell silent before, it stays so");
}

static void
try_loss(void)
{
    uint32_t why;

    begin(fast, fast);
    remake(slow, 5, true, &why);
    from_here(false);
    check(pass(200 * SECOND) == 200 * SECOND, "fast to slow, and the first LACPDU is lost: no link stops for 200 s");
    check(tell(slow), "  and the partner is told");
}

/* Another program follows before the partner has answered that it knows the long timeout. */
static void
try_twice(void)
{
    uint32_t why;

    begin(fast, fast);
    pause_for(5);
    remake(slow, 5, true, &why);
    pass(10 * SECOND);
    check(!remake(slow, 5, true, &why), "fast to slow, and a third program 10 s later: each port goes on");
    check(pass(200 * SECOND) == 200 * SECOND, "  no link stops for 200 s");
}

static void
try_the_same(void)
{
    const struct mode modes[] = { fast, slow, fast_passive, slow_passive };
    uint32_t why;

    for (size_t i = 0; i < sizeof modes / sizeof *modes; i++) {
        begin(modes[i], slow);
        check(!remake(modes[i], 5, true, &why) && pass(200 * SECOND) == 200 * SECOND && tell(modes[i]), "the same mode: no link stops for 200 s");
    }
}

/* A program that follows late asks its partner, which answers at once. */
static void
try_late(void)
{
    const struct {
        struct mode own, partner;
        int pause;
    } rows[] = { { fast, fast, 25 },         { fast, slow, 25 },         { fast, fast_passive, 25 }, { fast_passive, fast, 25 },
                 { fast_passive, slow, 25 }, { slow, slow, 350 },        { slow, slow_passive, 350 }, { slow_passive, slow, 350 } };
    uint32_t why;

    for (size_t i = 0; i < sizeof rows / sizeof *rows; i++) {
        begin(rows[i].own, rows[i].partner);
        pause_for(rows[i].pause);
        check(!remake(rows[i].own, 5, true, &why), "a pause in which LACPDUs are missed: each port goes on");
        from_here(true);
        bool paced = told[0][LAG_PARTNER_STATE] & told[1][LAG_PARTNER_STATE] & NIW_STATE_TIMEOUT;
        check(paced == (rows[i].own.active || !rows[i].partner.short_timeout), "  until it answers it is sent an LACPDU each second, but by a passive port");
        from_there(true);
        check(heard[0].at == now && heard[1].at == now, "  its partner answers at once");
        check(pass(200 * SECOND) == 200 * SECOND && tell(rows[i].own), "  no link stops for 200 s");
    }
}

static void
try_refusals(void)
{
    uint32_t why;

    begin(fast, fast);
    pause_for(30);
    check(remake(slow, 5, true, &why) == PORTS && why == NIW_STALE, "fast to slow, and the short timeout is over: each port begins anew");
    pass(5 * SECOND);
    check(tell(slow) && pass(100 * SECOND) == 100 * SECOND, "  with long timeouts");
    begin(fast, fast);
    heard[1].at -= 3000;
    check(remake(slow, 5, true, &why) == 1 && why == NIW_STALE, "where it passed at one port, the other one goes on");
    check(niw_distributes(&here.system, ports[0].number).is && !niw_distributes(&here.system, ports[1].number).is, "  it alone carries at once");
    pass(5 * SECOND);
    check(tell(slow), "  both say the new mode");
    check(pass(100 * SECOND) == 100 * SECOND, "  and carry in the end");
    begin(fast, fast);
    check(remake(slow, 6, true, &why) == PORTS && why == NIW_NOT_DISTRIBUTING, "another key beside: each port begins anew");
    begin(fast, slow_passive);
    check(remake(fast_passive, 5, true, &why) == PORTS && why == NIW_NOT_DISTRIBUTING, "passive beside a passive partner: each port begins anew");
}

int
main(void)
{
    follow(fast, slow, fast, 0, "fast to slow");
    follow(fast, slow, fast, 20, "fast to slow");
    follow(fast, slow, slow, 20, "fast to slow");
    follow(slow, fast, fast, 0, "slow to fast");
    follow(slow, fast, fast, 20, "slow to fast");
    follow(slow, fast, slow, 20, "slow to fast");
    follow(slow, fast, slow, 500, "slow to fast");
    follow(fast, fast_passive, fast, 5, "active to passive");
    follow(fast_passive, fast, slow, 5, "passive to active");
    follow(fast, slow_passive, fast, 5, "active and fast to passive and slow");
    follow(slow_passive, fast, slow, 5, "passive and slow to active and fast");
    try_running();
    try_loss();
    try_twice();
    try_the_same();
    try_late();
    try_refusals();
    lag_end_free(&here);
    niw_free(&there);
    printf("%d passed, %d failed\n", passed, failed);
    return failed != 0;
}
