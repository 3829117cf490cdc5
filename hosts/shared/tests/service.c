/* Tests of lag_end.h in service: a port that gets another key, the limits by the clock, ports on defaults that are woken, and which aggregator is used. An end
 * of three ports stands beside partners, each a system of the library; every tick each is asked for what it sends. */
#include "lag_end.h"

#include <stdio.h>

#define PORTS 3
#define SECOND 10 /* In ticks. */

static struct lag_end here;
static struct niw_system there[2];  /* The partners. */
static unsigned partner_of[PORTS];  /* Which one each port has. */
static struct lag_heard heard[PORTS];
static struct lag_limit limits[PORTS];
static struct lag_wake wakes[PORTS];
static struct lag_port list[PORTS];
static bool silent[PORTS];          /* Nothing passes, either way. */
static bool sleeps;                 /* The host here does not wake its ports. */
static int64_t now;
static int passed, failed;

static void
check(bool holds, const char *what)
{
    *(holds ? &passed : &failed) += 1;
    printf("%s: %s\n", holds ? "passed" : "FAILED", what);
}

static uint16_t
number_of(size_t place)
{
    return (uint16_t) (place + 1);
}

static bool
carries(size_t place)
{
    uint16_t port = number_of(place);

    return niw_distributes(&here.system, port).is && !niw_defaulted(&here.system, port).is;
}

static void
make_partner(unsigned which)
{
    const struct niw_config config = { .priority = 2, .mac = { 2, 0, 0, 0, 1, (uint8_t) which }, .conversations = NIW_ONE_CONVERSATION };
    const uint16_t keys[PORTS] = { 3, 3, 3 };
    struct niw_port its[PORTS];

    niw_free(&there[which]);
    for (size_t i = 0; i < PORTS; i++) {
        its[i] = (struct niw_port) { .number = number_of(i), .mac = { 2, 0, 0, 0, 1, (uint8_t) which }, .key = 3, .aggregatable = true, .active = true,
                                     .short_timeout = true };
    }
    if (niw_new(&there[which], &config, keys, PORTS, its, PORTS).status != NIW_OK) {
        abort();
    }
    for (size_t i = 0; i < PORTS; i++) {
        niw_set_link(&there[which], number_of(i), true);
    }
}

/* The end here is made anew of its ports, by the keys that they have in the list. */
static void
remake(void)
{
    const struct niw_config config = { .priority = 1, .mac = { 2, 0, 0, 0, 0, 1 }, .conversations = NIW_ONE_CONVERSATION };

    for (size_t i = 0; i < PORTS; i++) {
        list[i].carried = here.system.live && carries(i);
        list[i].aggregator = here.system.live ? (uint16_t) niw_choice(&here.system, number_of(i)).number : 0;
    }
    if (lag_end_remake(&here, &config, list, PORTS, now).status != NIW_OK) {
        abort();
    }
}

static void
begin(const unsigned partners[PORTS])
{
    lag_end_free(&here);
    here = (struct lag_end) { .next_marker = 1 };
    now += 100000;
    for (size_t i = 0; i < PORTS; i++) {
        heard[i] = (struct lag_heard) { .is = false };
        limits[i] = (struct lag_limit) { .next_lacpdu = 0 };
        wakes[i] = (struct lag_wake) { .at = 0 };
        silent[i] = false;
        partner_of[i] = partners[i];
        list[i] = (struct lag_port) {
            .port = { .number = number_of(i), .mac = { 2, 0, 0, 0, 0, 1 }, .key = 5, .aggregatable = true, .active = true, .short_timeout = true },
            .up = true, .heard = &heard[i],
        };
    }
    sleeps = false;
    make_partner(0);
    make_partner(1);
    remake();
}

static void
exchange(size_t place)
{
    struct niw_system *partner = &there[partner_of[place]];
    uint16_t port = number_of(place);
    uint8_t frame[NIW_FRAME], response[NIW_FRAME];

    while (lag_end_transmit(&here, port, &limits[place], frame, now).is) {
        if (!silent[place]) {
            niw_receive(partner, port, frame, sizeof frame, response, sizeof response);
        }
    }
    while (niw_transmit(partner, port, frame, sizeof frame).is) {
        if (!silent[place] && niw_receive(&here.system, port, frame, sizeof frame, response, sizeof response).what == NIW_RECEIVED_TOOK_LACPDU) {
            lag_hear(&heard[place], frame, now);
        }
    }
}

/* So many ticks pass. Returns in how many of them the ports of a mask carried. */
static int
pass(int ticks, unsigned mask)
{
    int good = 0;

    for (int tick = 0; tick < ticks; tick++) {
        struct niw_view views[NIW_MOST_PORTS];
        bool carry = true;

        now += NIW_TICK_MILLISECONDS;
        lag_end_advance(&here, now);
        niw_tick(&there[0]);
        niw_tick(&there[1]);
        lag_end_views(&here, views);
        for (size_t i = 0; i < PORTS && !sleeps; i++) {
            lag_end_wake(&here, &views[i], &wakes[i], true, now);
        }
        for (size_t i = 0; i < PORTS; i++) {
            carry = carry && (!(mask >> i & 1) || carries(i));
            exchange(i);
        }
        good += carry;
    }
    return good;
}

static const unsigned one_partner[PORTS] = { 0, 0, 0 }, two_partners[PORTS] = { 0, 1, 1 };

/* Each port in turn gets another key: the two others have nothing to tell their partner, and go on. */
static void
try_keys(void)
{
    for (size_t which = 0; which < PORTS; which++) {
        unsigned others = 7 & ~(1u << which);
        int begun = 0;
        char what[80];

        begin(one_partner);
        pass(5 * SECOND, 7);
        if (pass(SECOND, 7) != SECOND) {
            abort();
        }
        list[which].port.key = 7;
        remake();
        for (size_t i = 0; i < PORTS; i++) {
            begun += i != which && list[i].begins;
        }
        snprintf(what, sizeof what, "port %zu gets another key: the other two go on", which + 1);
        check(!begun && list[which].begins && pass(10 * SECOND, others) == 10 * SECOND, what);
        list[which].port.key = 5;
        remake();
        check(pass(10 * SECOND, others) == 10 * SECOND && carries(which), "  and it comes back to them with its key of before");
    }
}

/* Two groups, one of which has a port that gets the key of the other: both have their aggregators still. */
static void
try_groups(void)
{
    begin(two_partners);
    list[1].port.key = list[2].port.key = 6;
    remake();
    pass(5 * SECOND, 7);
    list[0].port.key = 6;
    remake();
    check(!list[1].begins && !list[2].begins && list[0].begins && pass(10 * SECOND, 6) == 10 * SECOND && carries(0),
          "a port gets the key of another group: that group goes on, and it carries by itself");
}

/* A host that was late makes ticks up at once, and its ports come and go meanwhile: the clock alone counts. */
static void
try_lacpdus(void)
{
    int64_t sent[200];
    unsigned count = 0, most = 0;
    bool spins = false, later = false;
    uint8_t frame[NIW_FRAME];

    begin(one_partner);
    pass(5 * SECOND, 7);
    for (int step = 0; step < 100; step++) {
        now += step % 10 == 9 ? 900 : 10;
        lag_end_advance(&here, now);
        lag_end_set_mode(&here, 1, true, step & 1, &heard[0]); /* Its partner has to be told. */
        if (step % 7 == 0) {
            remake();
        }
        while (lag_end_transmit(&here, 1, &limits[0], frame, now).is) {
            sent[count++] = now;
        }
        later = later || niw_is_due(&here.system, 1).is;
        spins = spins || (niw_is_due(&here.system, 1).is && here.waits == 1 && niw_due(&here.system).number == 1 && lag_end_due(&here) <= now);
    }
    for (unsigned i = 0; i < count; i++) {
        unsigned within = 0;

        for (unsigned j = i; j < count && sent[j] < sent[i] + 1000; j++) {
            within++;
        }
        most = within > most ? within : most;
    }
    check(most == 3 && count > 20, "three LACPDUs a second of the clock, late ticks and ports that are made anew or not");
    check(later && !spins, "  what may not go stays due, and a host that sleeps until something is due does not spin");
}

static void
try_responses(void)
{
    struct lag_limit limit = { .next_response = 0 };
    int64_t sent[1000];
    unsigned count = 0, most = 0;

    for (int64_t time = 1; time < 10000; time += 7) {
        if (lag_may_respond(&limit, time)) {
            sent[count++] = time;
        }
    }
    for (unsigned i = 0; i < count; i++) {
        unsigned within = 0;

        for (unsigned j = i; j < count && sent[j] < sent[i] + 1000; j++) {
            within++;
        }
        most = within > most ? within : most;
    }
    check(most == 10 && count >= 80, "ten responses to markers in any second, whenever it begins");
    check(lag_may_respond(&limit, 1), "a clock that is set back stops none");
}

/* All links are silent both ways for so many ticks. Returns after how many both ends carry again. */
static int
come_back(int ticks)
{
    int waited = 0;

    for (size_t i = 0; i < PORTS; i++) {
        silent[i] = true;
    }
    pass(ticks, 7);
    for (size_t i = 0; i < PORTS; i++) {
        silent[i] = false;
    }
    while (pass(1, 7) != 1 && waited < 100 * SECOND) {
        waited++;
    }
    return waited;
}

static void
try_silence(void)
{
    begin(one_partner);
    pass(5 * SECOND, 7);
    sleeps = true;
    check(come_back(10 * SECOND) > 15 * SECOND, "links that were silent both ways for 10 s, without waking: as long as the standard has it");
    begin(one_partner);
    pass(5 * SECOND, 7);
    check(come_back(10 * SECOND) <= 6 * SECOND, "with it they carry again within 6 s");
    check(!wakes[0].at && !wakes[0].woken && wakes[0].after == LAG_FIRST_WAKE_MS, "  and a port that has a partner is not woken");
    check(come_back(600 * SECOND) <= 38 * SECOND, "after ten minutes within 38 s: a port is woken each 30 s then, for 3 s");
    check(come_back(4 * SECOND) <= 4 * SECOND, "after 4 s, when nobody is on defaults, as without");
}

static uint16_t
choose(uint16_t before, enum lag_choice rule, const uint64_t *worth)
{
    struct niw_view views[NIW_MOST_PORTS];

    lag_end_views(&here, views);
    return lag_end_choose(views, worth, rule, before);
}

/* One port of the first partner, two of the second one. */
static void
try_choice(void)
{
    const uint64_t worth[PORTS] = { 100, 10, 10 };
    uint16_t first, second;

    begin(two_partners);
    check(!choose(0, LAG_STAYS_WHILE_READY, NULL) && !choose(1, LAG_STAYS_WHILE_READY, NULL), "no port is ready: no aggregator");
    pass(5 * SECOND, 7);
    first = (uint16_t) niw_choice(&here.system, 1).number;
    second = (uint16_t) niw_choice(&here.system, 2).number;
    check(first && second && first != second, "two partners have two aggregators");
    check(choose(0, LAG_STAYS_WHILE_READY, NULL) == second, "that of most ports is taken");
    check(choose(first, LAG_STAYS_WHILE_READY, NULL) == first, "the one of before stays while it carries");
    check(choose(first, LAG_STAYS_UNLESS_MORE, NULL) == second, "or unless another one has more, as the host has it");
    check(choose(0, LAG_STAYS_WHILE_READY, worth) == first && choose(second, LAG_STAYS_UNLESS_MORE, worth) == first, "a host may say what each port is worth");
    niw_set_link(&here.system, 1, false);
    check(choose(first, LAG_STAYS_WHILE_READY, NULL) == second, "where it has none left the other one comes");
}

#if LAG_HAS_IN_USE
/* The partner of an aggregator that is in no use is told so, and comes at once when its turn comes. */
static void
try_use(void)
{
    uint16_t first, second;

    begin(two_partners);
    pass(5 * SECOND, 7);
    first = (uint16_t) niw_choice(&here.system, 1).number;
    second = (uint16_t) niw_choice(&here.system, 2).number;
    check(lag_end_use(&here, first) && !lag_end_use(&here, first), "the first aggregator is in use");
    check(pass(2 * SECOND, 1) == 2 * SECOND && !carries(1) && !carries(2) && !niw_distributes(&there[1], 2).is, "  the second partner is told, and stops");
    check(choose(first, LAG_STAYS_UNLESS_MORE, NULL) == second, "  its ports are ready");
    check(lag_end_use(&here, second) && (carries(1) || pass(1, 6) >= 0) && carries(1) && carries(2) && !carries(0), "its turn comes: it carries at once");
    check(pass(2 * SECOND, 6) == 2 * SECOND && !niw_distributes(&there[0], 1).is && niw_distributes(&there[1], 2).is, "  and both partners know");
    check(lag_end_use(&here, 0) && pass(5 * SECOND, 6) == 5 * SECOND && carries(0), "all in use: each carries");
}
#else
static void
try_use(void)
{
    check(!lag_end_use(&here, 1), "a library without the call uses all aggregators");
}
#endif

int
main(void)
{
    try_keys();
    try_groups();
    try_lacpdus();
    try_responses();
    try_silence();
    try_choice();
    try_use();
    lag_end_free(&here);
    niw_free(&there[0]);
    niw_free(&there[1]);
    printf("%d passed, %d failed\n", passed, failed);
    return failed != 0;
}
