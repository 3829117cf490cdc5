/* Calls lag.h and checks what it answers: two systems of two ports each, joined port by port, come to distribute; a conversation moves
 * behind a marker, or is forced; under a limit of one link the second port is STANDBY until the first link is down; payloads are read and
 * written; each refusal has its number, and each field its place; calls of a system but niw_new and niw_free take and give back no memory. It
 * prints one line for each check that fails, with its function, and then 'calls: N passed, M failed', and ends with status 1 if one failed. It is
 * linked with --wrap for malloc, realloc and free. Here a wrong definition of lagffi is found (tools/maintain/wrong-definitions); python/tests
 * compares the answers of the other functions. */
#include <stdio.h>
#include <stdlib.h>

#include "checks.h"
#include "lag.h"

const char *const program = "calls";

/* The library's memory: how many blocks it holds, how often it asked, and which asking is refused, if any. */
static unsigned blocks, askings, refused;
void *__real_malloc(size_t size);
void *__real_realloc(void *block, size_t size);
void __real_free(void *block);

static bool refuses(void) {
    return ++askings == refused;
}

void *__wrap_malloc(size_t size) {
    void *block = refuses() ? NULL : __real_malloc(size);
    blocks += block != NULL;
    return block;
}

void *__wrap_realloc(void *old, size_t size) {
    void *block = refuses() ? NULL : __real_realloc(old, size);
    blocks += old == NULL && block != NULL;
    return block;
}

void __wrap_free(void *block) {
    blocks -= block != NULL;
    __real_free(block);
}

/* The last but one of the identifiers of markers. */
#define FIRST_MARKER 0xfffffffe

/* How conversations of the systems that are made pick their ports. */
static uint16_t the_algorithm = NIW_BY_NUMBER;

void make(struct niw_system *handle, uint8_t who, uint16_t key, uint16_t conversations, uint16_t max_links) {
    struct niw_config config = {(uint16_t)(0x1000 + who), {2, 0, 0, 0, 0, who}, 0, FIRST_MARKER, conversations, max_links, the_algorithm};
    struct niw_port ports[2];
    uint16_t keys[2] = {key, key};
    for (uint8_t i = 1; i <= 2; i++)
        ports[i - 1] = (struct niw_port){i, (uint16_t)(0x2000 + 16 * who + i), {2, 0, 0, 0, who, i}, key, true, true, true};
    CHECK(niw_new(handle, &config, keys, 2, ports, 2).status == NIW_OK);
    CHECK(niw_new(handle, &config, keys, 2, ports, 2).status == NIW_HAS_SYSTEM);
}

/* Carries what is due from one system to the other, and answers how many frames that were. */
static unsigned carry(struct niw_system *from, struct niw_system *to) {
    unsigned sent = 0;
    for (uint16_t port = 1; port <= 2; port++) {
        uint8_t frame[NIW_FRAME], response[NIW_FRAME];
        while (niw_transmit(from, port, frame, sizeof frame).is) {
            struct niw_received received = niw_receive(to, port, frame, sizeof frame, response, sizeof response);
            sent++;
            CHECK(received.status == NIW_OK && (received.what == NIW_RECEIVED_TOOK_LACPDU || received.what == NIW_RECEIVED_RESPOND));
            if (received.what == NIW_RECEIVED_RESPOND)
                CHECK(niw_receive(from, port, response, sizeof response, frame, sizeof frame).what == NIW_RECEIVED_RELEASED);
        }
    }
    return sent;
}

/* Which states and statuses were seen. */
static bool mux_seen[NIW_MUX_COLLECTING_DISTRIBUTING + 1], receive_seen[NIW_RECEIVE_CURRENT + 1], status_seen[NIW_PORT_STATUS_PARTNER_NOT_SYNCHRONIZED + 1];

/* The status agrees with what the other readers tell. */
static void see_status(struct niw_system *lag, uint16_t port) {
    uint64_t status = niw_port_status(lag, port).number, waits = niw_wait_while(lag, port).number;
    CHECK((status == NIW_PORT_STATUS_DISTRIBUTING) == niw_distributes(lag, port).is);
    CHECK((status == NIW_PORT_STATUS_LINK_DOWN) == !niw_is_up(lag, port).is);
    CHECK(status != NIW_PORT_STATUS_NO_LACPDU || niw_receive_state(lag, port).number == NIW_RECEIVE_EXPIRED);
    CHECK(status != NIW_PORT_STATUS_ON_DEFAULTS || niw_defaulted(lag, port).is);
    CHECK(status != NIW_PORT_STATUS_WAITING || (niw_mux_state(lag, port).number == NIW_MUX_WAITING && waits >= 1 && waits <= 20));
    CHECK((status == NIW_PORT_STATUS_STANDBY) == niw_is_standby(lag, port).is || status <= NIW_PORT_STATUS_OWN_SYSTEM);
    if (status <= NIW_PORT_STATUS_PARTNER_NOT_SYNCHRONIZED) status_seen[status] = true;
}

static void see_states(struct niw_system *lag, uint16_t port) {
    uint64_t bits = niw_state(lag, port).number;
    uint64_t mux = niw_mux_state(lag, port).number, receive = niw_receive_state(lag, port).number;
    bool chosen = niw_choice(lag, port).number != 0;
    CHECK(chosen == (mux != NIW_MUX_DETACHED) && ((bits & NIW_STATE_SYNCHRONIZATION) != 0) == (mux == NIW_MUX_ATTACHED || mux == NIW_MUX_COLLECTING_DISTRIBUTING));
    CHECK(((bits & NIW_STATE_COLLECTING) != 0) == (mux == NIW_MUX_COLLECTING_DISTRIBUTING));
    CHECK(((bits & NIW_STATE_DISTRIBUTING) != 0) == (mux == NIW_MUX_COLLECTING_DISTRIBUTING));
    CHECK(niw_is_up(lag, port).is == (receive != NIW_RECEIVE_PORT_DISABLED));
    if (niw_is_up(lag, port).is)
        CHECK(receive == (uint64_t)(bits & NIW_STATE_EXPIRED ? NIW_RECEIVE_EXPIRED : bits & NIW_STATE_DEFAULTED ? NIW_RECEIVE_DEFAULTED : NIW_RECEIVE_CURRENT));
    if (mux <= NIW_MUX_COLLECTING_DISTRIBUTING) mux_seen[mux] = true;
    if (receive <= NIW_RECEIVE_CURRENT) receive_seen[receive] = true;
    see_status(lag, port);
}

void turn(struct niw_system *one, struct niw_system *other, unsigned ticks) {
    while (ticks-- > 0) {
        CHECK(niw_tick(one) == NIW_OK && niw_tick(other) == NIW_OK);
        see_states(one, 1);
        see_states(one, 2);
        while (carry(one, other) + carry(other, one) > 0) {
        }
    }
}

void bring_up(struct niw_system *one, struct niw_system *other) {
    for (uint16_t port = 1; port <= 2; port++) CHECK(niw_set_link(one, port, true) == NIW_OK && niw_set_link(other, port, true) == NIW_OK);
    turn(one, other, 60);
}

/* The readers of a port: what each answers without a handle, of an empty one, and of a port that there is not. */
#define EACH_READER_OF_A_PORT(asks) \
    asks(is_up) asks(state) asks(receive_state) asks(is_due) asks(party) asks(partner) asks(group) asks(defaulted) asks(distributes) asks(choice) \
    asks(is_standby) asks(mux_state) asks(port_status) asks(current_while) asks(wait_while) asks(ntt) asks(held) asks(answers) asks(load)
#define HAS_NO_SYSTEM(reader) CHECK(niw_##reader(&empty, 1).status == NIW_NO_SYSTEM);
#define HAS_NO_PORT(reader) CHECK(niw_##reader(live, 3).status == NIW_NO_PORT);

/* Those of a system whose links are down, and those of an empty handle. */
static void check_refusals(struct niw_system *live) {
    struct niw_system empty = NIW_EMPTY;
    uint8_t frame[NIW_FRAME] = {0};
    uint16_t numbers[NIW_MOST_PORTS];
    struct niw_view views[NIW_MOST_PORTS], same[NIW_MOST_PORTS];
    memset(views, 0xa5, sizeof views);
    memset(same, 0xa5, sizeof same);
    CHECK(niw_views(live, views, NIW_MOST_PORTS - 1).status == NIW_BUFFER && niw_views(&empty, views, NIW_MOST_PORTS).status == NIW_NO_SYSTEM);
    CHECK(niw_views(&empty, views, 0).status == NIW_BUFFER && memcmp(views, same, sizeof views) == 0);
    CHECK(niw_due(&empty).status == NIW_NO_SYSTEM && niw_due(live).number == 0 && niw_due(live).status == NIW_OK);
    CHECK(niw_ticks(&empty, 2) == NIW_NO_SYSTEM && niw_ticks(&empty, 0) == NIW_NO_SYSTEM);
    CHECK(niw_tick(&empty) == NIW_NO_SYSTEM && niw_restart(&empty) == NIW_NO_SYSTEM && niw_free(&empty) == NIW_NO_SYSTEM);
    CHECK(niw_next_marker(&empty).status == NIW_NO_SYSTEM && niw_force_port(&empty, 1).status == NIW_NO_SYSTEM);
    EACH_READER_OF_A_PORT(HAS_NO_SYSTEM)
    EACH_READER_OF_A_PORT(HAS_NO_PORT)
    CHECK(niw_transmit(live, 1, frame, NIW_FRAME - 1).status == NIW_BUFFER);
    CHECK(niw_receive(live, 1, frame, sizeof frame, frame, 0).status == NIW_BUFFER);
    CHECK(niw_ports(live, numbers, 63).status == NIW_BUFFER && niw_distributing(live, 1, numbers, 63).status == NIW_BUFFER);
    CHECK(niw_set_link(live, 9, true) == NIW_NO_PORT && niw_is_due(live, 0).status == NIW_NO_PORT && niw_force_port(live, 3).status == NIW_NO_PORT);
    CHECK(niw_offer(live, 3, frame, sizeof frame).status == NIW_NO_AGGREGATOR && niw_force(live, 0, 1) == NIW_NO_AGGREGATOR);
    CHECK(niw_offer(live, 1, frame, sizeof frame).status == NIW_NONE_DISTRIBUTING);
    CHECK(niw_offer(live, 1, frame, 13).status == NIW_FRAME_LENGTH && niw_conversation(live, frame, 13).status == NIW_FRAME_LENGTH);
    CHECK(niw_force(live, 1, 300) == NIW_NOT_ASSIGNED && niw_conversation_state(live, 1, 256).status == NIW_NOT_ASSIGNED);
    CHECK(niw_receive(live, 1, frame, sizeof frame, frame, sizeof frame).what == NIW_RECEIVED_DISABLED);
}

/* Those of a port that there is not: what stands beside the status is 0. */
static void check_no_port(struct niw_system *live) {
    static const uint8_t zero[6] = {0};
    struct niw_change change = {7, 128, true};
    struct niw_actor party = niw_party(live, 3);
    struct niw_truth changed = niw_configure(live, 3, &change);
    uint8_t frame[NIW_FRAME] = {0}, response[NIW_FRAME];
    struct niw_received received = niw_receive(live, 3, frame, sizeof frame, response, sizeof response);
    CHECK(received.status == NIW_NO_PORT && received.what == 0 && received.number == 0);
    CHECK(changed.status == NIW_NO_PORT && !changed.is && !niw_is_due(live, 3).is && !niw_is_standby(live, 3).is);
    EACH_READER_OF_A_PORT(HAS_NO_PORT)
    CHECK(niw_load(live, 3).number == 0 && party.status == NIW_NO_PORT && party.system_priority == 0 && memcmp(party.system_mac, zero, sizeof zero) == 0);
    CHECK(party.key == 0 && party.port_priority == 0 && party.port == 0 && !party.aggregatable);
}

/* Those of a configuration, and of memory: each asking for it is refused in turn. */
static void check_refused_makes(void) {
    struct niw_system empty = NIW_EMPTY;
    struct niw_config config = {0, {0}, 0, 0, 256, 0, 0};
    struct niw_port ports[NIW_MOST_PORTS + 1] = {{0}};
    uint16_t keys[NIW_MOST_PORTS + 1] = {0};
    struct niw_made made;
    unsigned nth = 0, before = blocks;
    for (uint16_t i = 0; i <= NIW_MOST_PORTS; i++) ports[i].number = (uint16_t)(i + 1);
    made = niw_new(&empty, &config, keys, 1, ports, NIW_MOST_PORTS + 1);
    CHECK(made.status == NIW_BAD_CONFIG && made.reason == NIW_REASON_PORTS && made.place == 0);
    made = niw_new(&empty, &config, keys, NIW_MOST_PORTS + 1, ports, 1);
    CHECK(made.status == NIW_BAD_CONFIG && made.reason == NIW_REASON_AGGREGATORS && made.place == 0);
    CHECK(niw_new(&empty, &config, keys, 0, ports, 1).reason == NIW_REASON_AGGREGATORS);
    CHECK(niw_new(&empty, &config, keys, 1, ports, 0).reason == NIW_REASON_PORTS);
    do {
        refused = askings + ++nth;
        made = niw_new(&empty, &config, keys, NIW_MOST_PORTS, ports, NIW_MOST_PORTS);
        CHECK(made.status == NIW_OK || (made.status == NIW_NO_MEMORY && made.reason == 0 && made.place == 0));
        CHECK(made.status == NIW_OK || (!empty.live && !empty.at && blocks == before));
    } while (made.status == NIW_NO_MEMORY && nth < 100);
    refused = 0;
    CHECK(nth > 1 && blocks > before && niw_free(&empty) == NIW_OK && blocks == before);
    ports[4].number = 4;
    made = niw_new(&empty, &config, keys, 1, ports, NIW_MOST_PORTS);
    CHECK(made.status == NIW_BAD_CONFIG && made.reason == NIW_REASON_PORT_NUMBER && made.place == 5);
    CHECK(!empty.live && !empty.at && blocks == before);
}

/* Those of queues: each asking for memory is refused in turn, and all that was taken is given back. */
static void check_refused_queues(void) {
    struct niw_queue queue = NIW_EMPTY;
    unsigned nth = 0, before = blocks;
    uint32_t status;
    do {
        refused = askings + ++nth;
        status = niw_queue_new(&queue, 4, 3, 2);
        CHECK(status == NIW_OK || (status == NIW_NO_MEMORY && !queue.live && blocks == before));
    } while (status == NIW_NO_MEMORY && nth < 100);
    refused = 0;
    CHECK(nth > 2 && blocks > before && niw_queue_free(&queue) == NIW_OK && blocks == before);
}

/* A limit of links is 0 to 64, an aggregator has 256 or 4096 conversations, and an algorithm is 0 to 2: looked at in this order. */
static void check_refused_limits(void) {
    static const uint16_t limits[] = {65, 256, 65535}, counts[] = {0, 255, 257, 4095, 4097, 65535};
    struct niw_system empty = NIW_EMPTY;
    struct niw_config config = {0, {0}, 0, 0, 4096, 64, NIW_BY_FIRST};
    struct niw_port port = {.number = 1};
    uint16_t key = 0;
    struct niw_made made;
    CHECK(niw_new(&empty, &config, &key, 1, &port, 1).status == NIW_OK && niw_free(&empty) == NIW_OK);
    config.algorithm = NIW_BY_FIRST + 1;
    made = niw_new(&empty, &config, &key, 1, &port, 1);
    CHECK(made.status == NIW_BAD_CONFIG && made.reason == NIW_REASON_ALGORITHM && made.place == 0 && !empty.live && !empty.at);
    for (size_t i = 0; i < sizeof counts / sizeof *counts; i++) {
        config.conversations = counts[i];
        made = niw_new(&empty, &config, &key, 1, &port, 1);
        CHECK(made.status == NIW_BAD_CONFIG && made.reason == NIW_REASON_CONVERSATIONS && made.place == 0 && !empty.live);
    }
    for (size_t i = 0; i < sizeof limits / sizeof *limits; i++) {
        config.max_links = limits[i];
        made = niw_new(&empty, &config, &key, 1, &port, 1);
        CHECK(made.status == NIW_BAD_CONFIG && made.reason == NIW_REASON_MAX_LINKS && made.place == 0 && !empty.live);
    }
    port.number = 0;
    CHECK(niw_new(&empty, &config, &key, 1, &port, 1).reason == NIW_REASON_PORT_NUMBER);
}

/* Three ports, each with a flag of its own, and no two numbers alike: each field is seen in its place. */
static void check_fields(void) {
    static const uint8_t head[] = {0x01, 0x80, 0xc2, 0, 0, 2, 2, 0x31, 0x32, 0x33, 0x34, 0x35, 0x88, 0x09, 1, 1, 1, 20, 0x11, 0x12,
        2, 0x13, 0x14, 0x15, 0x16, 0x17, 0x42, 0x43, 0x2c, 0x2d, 0x2a, 0x2b};
    static const uint16_t keys[3] = {0x4041, 0x4243, 0x4445};
    static const struct niw_config config = {
        .priority = 0x1112, .mac = {2, 0x13, 0x14, 0x15, 0x16, 0x17}, .max_delay = 0x1819, .first_marker = 0x1a1b1c1d,
        .conversations = 256};
    static const struct niw_port ports[3] = {
        {.number = 0x1e1f, .priority = 0x2021, .mac = {2, 0x22, 0x23, 0x24, 0x25, 0x26}, .key = 0x4041, .aggregatable = true},
        {.number = 0x2a2b, .priority = 0x2c2d, .mac = {2, 0x31, 0x32, 0x33, 0x34, 0x35}, .key = 0x4243, .active = true},
        {.number = 0x3637, .priority = 0x3839, .mac = {2, 0x3a, 0x3b, 0x3c, 0x3d, 0x3e}, .key = 0x4445, .short_timeout = true}};
    static const struct niw_change changes[2] = {
        {.key = 0x4647, .priority = 0x4849, .aggregatable = true}, {.key = 0x4a4b, .priority = 0x4c4d, .aggregatable = false}};
    static const uint8_t flags[3] = {NIW_STATE_AGGREGATION, NIW_STATE_ACTIVITY, NIW_STATE_TIMEOUT};
    const uint64_t every = NIW_STATE_AGGREGATION | NIW_STATE_ACTIVITY | NIW_STATE_TIMEOUT;
    struct niw_system lag = NIW_EMPTY;
    uint8_t frame[NIW_FRAME] = {0};
    uint16_t numbers[NIW_MOST_PORTS] = {0};
    CHECK(niw_new(&lag, &config, keys, 3, ports, 3).status == NIW_OK && lag.live && lag.at);
    CHECK(niw_ports(&lag, numbers, NIW_MOST_PORTS).number == 3 && niw_next_marker(&lag).id == 0x1a1b1c1d && niw_next_marker(&lag).left);
    for (int i = 0; i < 3; i++) {
        struct niw_actor party = niw_party(&lag, ports[i].number);
        CHECK(numbers[i] == ports[i].number && party.port == ports[i].number && party.port_priority == ports[i].priority);
        CHECK(party.system_priority == 0x1112 && memcmp(party.system_mac, config.mac, 6) == 0 && party.key == ports[i].key);
        CHECK(party.aggregatable == ports[i].aggregatable && (niw_state(&lag, ports[i].number).number & every) == flags[i]);
    }
    CHECK(niw_set_link(&lag, 0x2a2b, true) == NIW_OK);
    for (int tick = 0; tick < 300 && !niw_transmit(&lag, 0x2a2b, frame, sizeof frame).is; tick++) CHECK(niw_tick(&lag) == NIW_OK);
    CHECK(memcmp(frame, head, sizeof head) == 0 && frame[56] == 3 && frame[58] == 0x18 && frame[59] == 0x19);
    for (int i = 0; i < 2; i++) {
        CHECK(niw_configure(&lag, 0x3637, &changes[i]).is && niw_party(&lag, 0x3637).key == changes[i].key);
        CHECK(niw_party(&lag, 0x3637).port_priority == changes[i].priority);
        CHECK(niw_party(&lag, 0x3637).aggregatable == changes[i].aggregatable);
        CHECK((niw_state(&lag, 0x3637).number & NIW_STATE_AGGREGATION) == (i ? 0 : NIW_STATE_AGGREGATION));
    }
    CHECK(niw_free(&lag) == NIW_OK && !lag.live && !lag.at);
}

static void check_first_frame(struct niw_system *one) {
    /* IEEE 802.1AX-2014, 6.4.2.3: to the slow protocols' group, from the port, subtype 1, version 1, actor TLV of 20 octets */
    static const uint8_t head[18] = {0x01, 0x80, 0xc2, 0, 0, 2, 2, 0, 0, 0, 1, 1, 0x88, 0x09, 1, 1, 1, 20};
    uint8_t frame[NIW_FRAME];
    CHECK(!niw_is_due(one, 1).is && !niw_transmit(one, 1, frame, sizeof frame).is);
    CHECK(!niw_is_up(one, 1).is && niw_receive_state(one, 1).number == NIW_RECEIVE_PORT_DISABLED);
    CHECK(niw_port_status(one, 1).number == NIW_PORT_STATUS_LINK_DOWN && niw_wait_while(one, 1).number == 0);
    CHECK(niw_set_link(one, 1, true) == NIW_OK && niw_is_up(one, 1).is && !niw_is_up(one, 2).is);
    /* the receive machine is in EXPIRED, for a Short Timeout of 3 s */
    CHECK(niw_port_status(one, 1).number == NIW_PORT_STATUS_NO_LACPDU && niw_current_while(one, 1).number == 30);
    /* the periodic machine is in FAST_PERIODIC: the first LACPDU is due after 1 s */
    for (int tick = 1; tick <= 10; tick++) CHECK(!niw_is_due(one, 1).is && !niw_ntt(one, 1).is && niw_tick(one) == NIW_OK);
    CHECK(niw_current_while(one, 1).number == 20 && niw_ntt(one, 1).is);
    CHECK(niw_is_due(one, 1).is && niw_transmit(one, 1, frame, sizeof frame).is && memcmp(frame, head, sizeof head) == 0);
    CHECK(!niw_ntt(one, 1).is && !niw_is_due(one, 1).is);
    CHECK(niw_defaulted(one, 1).is && niw_receive_state(one, 1).number == NIW_RECEIVE_EXPIRED);
    /* no LACPDU comes: after 3 s it runs on defaults */
    for (int tick = 11; tick <= 30; tick++) {
        CHECK(niw_tick(one) == NIW_OK);
        niw_transmit(one, 1, frame, sizeof frame);
        see_states(one, 1);
        see_states(one, 2);
    }
    CHECK(niw_receive_state(one, 1).number == NIW_RECEIVE_DEFAULTED && niw_port_status(one, 1).number == NIW_PORT_STATUS_ON_DEFAULTS);
}

static void check_distributing(struct niw_system *one) {
    struct niw_info partner = niw_partner(one, 2);
    struct niw_group_id group = niw_group(one, 1);
    uint16_t numbers[NIW_MOST_PORTS] = {0};
    uint16_t agg = (uint16_t)niw_choice(one, 1).number;
    CHECK(niw_aggregators(one).number == 2 && agg >= 1 && niw_choice(one, 2).number == agg);
    CHECK(niw_distributes(one, 1).is && niw_mux_state(one, 2).number == NIW_MUX_COLLECTING_DISTRIBUTING);
    CHECK(niw_receive_state(one, 2).number == NIW_RECEIVE_CURRENT && !niw_defaulted(one, 2).is);
    /* active, short, aggregatable, synchronized, collecting and distributing */
    CHECK(niw_state(one, 1).number == 0x3f && partner.state == 0x3f);
    CHECK(niw_distributing(one, agg, numbers, NIW_MOST_PORTS).number == 2 && numbers[0] == 1 && numbers[1] == 2);
    CHECK(partner.system_priority == 0x1002 && partner.system_mac[0] == 2 && partner.system_mac[5] == 2 && partner.key == 9);
    CHECK(partner.port == 2 && partner.port_priority == 0x2022);
    CHECK(group.lower.system_priority == 0x1001 && group.lower.system_mac[5] == 1 && group.lower.key == 7);
    CHECK(group.upper.system_priority == 0x1002 && group.upper.system_mac[5] == 2 && group.upper.key == 9);
    CHECK(!group.lower.individual && group.lower.port == 0 && !group.upper.individual && group.upper.port_priority == 0);
    CHECK(mux_seen[NIW_MUX_DETACHED] && mux_seen[NIW_MUX_WAITING] && mux_seen[NIW_MUX_ATTACHED] && mux_seen[NIW_MUX_COLLECTING_DISTRIBUTING]);
    CHECK(receive_seen[NIW_RECEIVE_PORT_DISABLED] && receive_seen[NIW_RECEIVE_EXPIRED] && receive_seen[NIW_RECEIVE_DEFAULTED] && receive_seen[NIW_RECEIVE_CURRENT]);
    CHECK(status_seen[NIW_PORT_STATUS_DISTRIBUTING] && status_seen[NIW_PORT_STATUS_LINK_DOWN] && status_seen[NIW_PORT_STATUS_NO_LACPDU]);
    CHECK(status_seen[NIW_PORT_STATUS_ON_DEFAULTS] && status_seen[NIW_PORT_STATUS_WAITING]);
}

/* A frame of conversation 4. */
static uint8_t data[60] = {2, 0, 0, 0, 0, 5, 2, 0, 0, 0, 0, 1, 0x08, 0x00};

static void check_conversation(struct niw_system *one, struct niw_system *other, uint16_t agg) {
    uint8_t response[NIW_FRAME];
    struct niw_assignment doing = niw_conversation_state(one, agg, 4);
    struct niw_number on;
    struct niw_received up;
    CHECK(niw_conversation(one, data, sizeof data).number == 4);
    CHECK(doing.status == NIW_OK && doing.what == NIW_CONVERSATION_FREE && doing.port == 0 && !doing.prefers);
    on = niw_offer(one, agg, data, sizeof data);
    CHECK(on.status == NIW_OK && on.number == 1);
    up = niw_receive(other, 1, data, sizeof data, response, sizeof response);
    CHECK(up.what == NIW_RECEIVED_HANDED_UP && up.number == niw_choice(other, 1).number);
    doing = niw_conversation_state(one, agg, 4);
    CHECK(doing.what == NIW_CONVERSATION_ON && doing.port == 1 && !doing.prefers && doing.preferred == 0);
    CHECK(niw_load(one, 1).number == 1 && niw_load(one, 2).number == 0 && niw_load(one, 2).status == NIW_OK);
    CHECK(niw_move_conversation(one, agg, 4, 1) == NIW_SAME_PORT && niw_move_conversation(one, agg, 4, 9) == NIW_NO_PORT);
    data[12] = 0x88;
    data[13] = 0x09;
    CHECK(niw_offer(one, agg, data, sizeof data).status == NIW_SLOW_FRAME);
    data[12] = 0x08;
    data[13] = 0x00;
}

/* The conversation moves from port 1 to port 2, by the first marker. */
static void check_move(struct niw_system *one, struct niw_system *other, uint16_t agg) {
    uint8_t marker[NIW_FRAME], response[NIW_FRAME];
    struct niw_assignment doing;
    struct niw_received received;
    CHECK(niw_next_marker(one).left && niw_next_marker(one).id == FIRST_MARKER);
    CHECK(niw_move_conversation(one, agg, 4, 2) == NIW_OK && niw_offer(one, agg, data, sizeof data).status == NIW_HELD);
    doing = niw_conversation_state(one, agg, 4);
    CHECK(doing.what == NIW_CONVERSATION_WANTED && doing.port == 1 && doing.prefers && doing.preferred == 2 && doing.id == 0);
    CHECK(niw_transmit(one, 1, marker, sizeof marker).what == NIW_SENT_MARKER && marker[14] == 2 && marker[16] == 1);
    for (int tick = 0; tick < 3; tick++) CHECK(niw_tick(one) == NIW_OK);
    doing = niw_conversation_state(one, agg, 4);
    CHECK(doing.what == NIW_CONVERSATION_FLUSHING && doing.port == 1 && doing.prefers && doing.preferred == 2);
    CHECK(doing.id == FIRST_MARKER && doing.age == 3 && niw_next_marker(one).id == FIRST_MARKER + 1);
    received = niw_receive(other, 1, marker, sizeof marker, response, sizeof response);
    CHECK(received.what == NIW_RECEIVED_RESPOND && received.number == NIW_FRAME && response[14] == 2 && response[16] == 2);
    received = niw_receive(one, 1, response, sizeof response, marker, sizeof marker);
    CHECK(received.what == NIW_RECEIVED_RELEASED && received.number == 1);
    doing = niw_conversation_state(one, agg, 4);
    CHECK(doing.what == NIW_CONVERSATION_FREE && doing.port == 0 && doing.prefers && doing.preferred == 2);
    CHECK(niw_offer(one, agg, data, sizeof data).number == 2);
}

/* It moves back by the last marker, and then no more. */
static void check_last_marker(struct niw_system *one, struct niw_system *other, uint16_t agg) {
    CHECK(niw_move_conversation(one, agg, 4, 1) == NIW_OK);
    turn(one, other, 1);
    CHECK(niw_offer(one, agg, data, sizeof data).number == 1 && !niw_next_marker(one).left && niw_next_marker(one).id == 0);
    CHECK(niw_move_conversation(one, agg, 4, 2) == NIW_MARKERS_SPENT);
    CHECK(niw_set_link(one, 2, false) == NIW_OK && niw_move_conversation(one, agg, 4, 2) == NIW_NOT_DISTRIBUTING);
    CHECK(niw_force(one, agg, 4) == NIW_OK && niw_force(one, agg, 4) == NIW_NOT_ASSIGNED);
    CHECK(niw_set_link(one, 2, true) == NIW_OK);
}

/* So many ticks at once are as many in turn. */
static void check_ticks(void) {
    struct niw_system one = NIW_EMPTY, other = NIW_EMPTY;
    make(&one, 5, 7, 256, 0);
    make(&other, 5, 7, 256, 0);
    CHECK(niw_set_link(&one, 1, true) == NIW_OK && niw_set_link(&other, 1, true) == NIW_OK);
    for (uint32_t count = 0; count <= 12; count++) {
        CHECK(niw_ticks(&one, count) == NIW_OK);
        for (uint32_t i = 0; i < count; i++) CHECK(niw_tick(&other) == NIW_OK);
        CHECK(niw_current_while(&one, 1).number == niw_current_while(&other, 1).number);
        CHECK(niw_ntt(&one, 1).is == niw_ntt(&other, 1).is && niw_state(&one, 1).number == niw_state(&other, 1).number);
        CHECK(count != 4 || (niw_current_while(&one, 1).number == 20 && niw_ntt(&one, 1).is));
    }
    CHECK(niw_receive_state(&one, 1).number == NIW_RECEIVE_DEFAULTED);
    CHECK(niw_ticks(&one, NIW_MOST_TICKS + 1) == NIW_MANY_TICKS && niw_ticks(&one, UINT32_MAX) == NIW_MANY_TICKS);
    CHECK(niw_ticks_until_due(&one).ticks == niw_ticks_until_due(&other).ticks);
    CHECK(niw_ticks(&one, NIW_MOST_TICKS) == NIW_OK);
    CHECK(niw_free(&one) == NIW_OK && niw_free(&other) == NIW_OK);
    CHECK(niw_ticks(&one, NIW_MOST_TICKS + 1) == NIW_MANY_TICKS && niw_ticks(&one, 1) == NIW_NO_SYSTEM);
}

/* How long a host may wait: until periodic_timer has expired, and then not at all, until the LACPDU is sent. */
static void check_waits(void) {
    struct niw_system one = NIW_EMPTY, empty = NIW_EMPTY;
    uint8_t frame[NIW_FRAME];
    CHECK(niw_ticks_until_due(&empty).status == NIW_NO_SYSTEM && !niw_ticks_until_due(&empty).ever);
    make(&one, 5, 7, 256, 0);
    CHECK(niw_ticks_until_due(&one).status == NIW_OK && !niw_ticks_until_due(&one).ever && niw_ticks_until_due(&one).ticks == 0);
    CHECK(niw_set_link(&one, 1, true) == NIW_OK && niw_ticks_until_due(&one).ever && niw_ticks_until_due(&one).ticks == 10);
    CHECK(niw_ticks(&one, 7) == NIW_OK && niw_ticks_until_due(&one).ticks == 3 && niw_due(&one).number == 0);
    CHECK(niw_ticks(&one, 3) == NIW_OK && niw_ticks_until_due(&one).ever && niw_ticks_until_due(&one).ticks == 0);
    CHECK(niw_due(&one).number == 1 && niw_transmit(&one, 1, frame, sizeof frame).what == NIW_SENT_LACPDU);
    CHECK(niw_ticks_until_due(&one).ever && niw_ticks_until_due(&one).ticks == 10);
    CHECK(niw_free(&one) == NIW_OK);
}

/* A view tells what the readers tell. */
static bool is_view_of(struct niw_system *lag, const struct niw_view *view, uint16_t port) {
    struct niw_info partner = niw_partner(lag, port);
    return view->port == port && view->aggregator == niw_choice(lag, port).number && view->up == niw_is_up(lag, port).is
        && view->standby == niw_is_standby(lag, port).is && view->defaulted == niw_defaulted(lag, port).is && view->state == niw_state(lag, port).number
        && view->receive_state == niw_receive_state(lag, port).number && view->mux_state == niw_mux_state(lag, port).number
        && view->port_status == niw_port_status(lag, port).number && view->partner_state == partner.state
        && memcmp(view->partner_mac, partner.system_mac, 6) == 0 && view->partner_priority == partner.system_priority
        && view->partner_key == partner.key && view->partner_port_priority == partner.port_priority
        && view->partner_port == partner.port;
}

/* The masks tell of the ports by their places, at every tick while two systems come up and one link goes down. What there is to show
 * changes twice: at the first LACPDU, after a second, and when wait_while has run out, two seconds later. */
static void check_masks(void) {
    struct niw_system one = NIW_EMPTY, other = NIW_EMPTY;
    struct niw_view views[NIW_MOST_PORTS + 1], before[NIW_MOST_PORTS + 1];
    unsigned changes = 0;
    memset(views, 0xa5, sizeof views);
    make(&one, 5, 7, 256, 0);
    make(&other, 6, 9, 256, 0);
    CHECK(niw_views(&one, views, NIW_MOST_PORTS).number == 3 && niw_views(&one, views, NIW_MOST_PORTS + 1).number == 0);
    CHECK(niw_set_link(&one, 2, true) == NIW_OK && niw_views(&one, views, NIW_MOST_PORTS).number == 2 && views[1].up && !views[0].up);
    CHECK(niw_set_link(&one, 1, true) == NIW_OK && niw_set_link(&other, 1, true) == NIW_OK);
    CHECK(niw_set_link(&other, 2, true) == NIW_OK && niw_views(&one, views, NIW_MOST_PORTS).number == 1);
    for (int tick = 0; tick < 60; tick++) {
        uint64_t mask, due = niw_due(&one).number;
        CHECK(due == (niw_is_due(&one, 1).is ? 1u : 0u) + (niw_is_due(&one, 2).is ? 2u : 0u));
        turn(&one, &other, 1);
        memcpy(before, views, sizeof views);
        mask = niw_views(&one, views, NIW_MOST_PORTS).number;
        CHECK(mask == (memcmp(&before[0], &views[0], sizeof *views) != 0 ? 1u : 0u) + (memcmp(&before[1], &views[1], sizeof *views) != 0 ? 2u : 0u));
        CHECK(is_view_of(&one, &views[0], 1) && is_view_of(&one, &views[1], 2));
        CHECK(memcmp(&before[2], &views[2], sizeof *views * (NIW_MOST_PORTS - 1)) == 0);
        changes += mask != 0;
    }
    CHECK(changes == 2 && views[0].port_status == NIW_PORT_STATUS_DISTRIBUTING && views[0].partner_key == 9);
    CHECK(niw_set_link(&one, 2, false) == NIW_OK && niw_views(&one, views, NIW_MOST_PORTS).number >= 2 && !views[1].up);
    CHECK(niw_restart(&one) == NIW_OK && niw_views(&one, views, NIW_MOST_PORTS).number == 3 && niw_due(&one).number == 0);
    CHECK(niw_free(&one) == NIW_OK && niw_free(&other) == NIW_OK);
}

/* A buffer may have more room than is asked: what is written stands at its front, and the rest is as it was. */
static void check_room(void) {
    struct niw_system one = NIW_EMPTY;
    uint8_t frame[NIW_FRAME + 40], before[NIW_FRAME + 40];
    uint16_t numbers[NIW_MOST_PORTS + 3];
    struct niw_sent sent;
    memset(before, 0xa5, sizeof before);
    memcpy(frame, before, sizeof frame);
    memset(numbers, 0xa5, sizeof numbers);
    make(&one, 5, 7, 256, 0);
    CHECK(niw_ports(&one, numbers, NIW_MOST_PORTS + 3).number == 2 && numbers[0] == 1 && numbers[1] == 2 && numbers[2] == 0xa5a5);
    CHECK(niw_distributing(&one, 1, numbers, NIW_MOST_PORTS + 3).number == 0 && numbers[0] == 1);
    CHECK(niw_set_link(&one, 1, true) == NIW_OK);
    sent = niw_transmit(&one, 1, frame, sizeof frame);
    CHECK(sent.status == NIW_OK && !sent.is && sent.what == NIW_SENT_NOTHING && sent.octets == 0);
    CHECK(niw_ticks(&one, 10) == NIW_OK && niw_due(&one).number == 1);
    sent = niw_transmit(&one, 1, frame, NIW_FRAME - 1);
    CHECK(sent.status == NIW_BUFFER && !sent.is && sent.what == NIW_SENT_NOTHING && sent.octets == 0);
    sent = niw_transmit(&one, 7, frame, sizeof frame);
    CHECK(sent.status == NIW_NO_PORT && !sent.is && memcmp(frame, before, sizeof frame) == 0 && niw_due(&one).number == 1);
    sent = niw_transmit(&one, 1, frame, sizeof frame);
    CHECK(sent.status == NIW_OK && sent.is && sent.what == NIW_SENT_LACPDU && sent.octets == NIW_FRAME && frame[14] == 1);
    CHECK(memcmp(frame + NIW_FRAME, before, 40) == 0 && niw_due(&one).number == 0 && niw_free(&one) == NIW_OK);
}

/* Each number has its own text, and those beyond have none. */
static void check_texts(void) {
    static const uint8_t states[] = {0x00, 0x01, 0x3f, 0x45, 0x80, 0xff};
    static const char *const written[] = {"", "ACTIVITY", "ACTIVITY TIMEOUT AGGREGATION SYNCHRONIZATION COLLECTING DISTRIBUTING",
        "ACTIVITY AGGREGATION DEFAULTED", "EXPIRED",
        "ACTIVITY TIMEOUT AGGREGATION SYNCHRONIZATION COLLECTING DISTRIBUTING DEFAULTED EXPIRED"};
    char text[NIW_STATE_TEXT_ROOM + 1];
    for (uint32_t i = 0; i <= NIW_ALL_FULL; i++)
        for (uint32_t j = 0; j < i; j++) CHECK(strcmp(niw_status_text(i), niw_status_text(j)) != 0);
    CHECK(strcmp(niw_status_text(NIW_MANY_TICKS + 1), "unknown") == 0 && strcmp(niw_status_text(UINT32_MAX), "unknown") == 0);
    CHECK(strcmp(niw_status_text(NIW_NO_MEMORY), "out of memory") == 0 && strcmp(niw_reason_text(0), "unknown") == 0);
    CHECK(strstr(niw_reason_text(NIW_REASON_PORT_NUMBER), "number") && strcmp(niw_reason_text(77), "unknown") == 0);
    CHECK(strcmp(niw_port_status_text(NIW_PORT_STATUS_LINK_DOWN), "the link is down") == 0);
    CHECK(strcmp(niw_port_status_text(NIW_PORT_STATUS_HELD), "the host holds it") == 0 && strcmp(niw_port_status_text(NIW_PORT_STATUS_HELD + 1), "unknown") == 0);
    CHECK(strcmp(niw_receive_state_text(NIW_RECEIVE_DEFAULTED), "DEFAULTED") == 0 && strcmp(niw_receive_state_text(5), "unknown") == 0);
    CHECK(strcmp(niw_mux_state_text(NIW_MUX_ATTACHED), "ATTACHED") == 0 && strcmp(niw_mux_state_text(4), "unknown") == 0);
    CHECK(strcmp(niw_churn_state_text(NIW_CHURN_MONITOR), "CHURN_MONITOR") == 0 && strcmp(niw_churn_state_text(3), "unknown") == 0);
    CHECK(strcmp(niw_churn_state_text(NIW_CHURN_NO_CHURN), "NO_CHURN") == 0 && strcmp(niw_churn_state_text(NIW_CHURN_CHURN), "CHURN") == 0);
    for (size_t i = 0; i < sizeof states; i++) {
        size_t needed = strlen(written[i]) + 1;
        memset(text, 'x', sizeof text);
        CHECK(niw_state_text(states[i], text, needed - 1) == needed && text[0] == 'x' && niw_state_text(states[i], NULL, 99) == needed);
        CHECK(niw_state_text(states[i], text, needed) == needed && strcmp(text, written[i]) == 0 && text[needed] == 'x');
    }
    CHECK(strlen(written[5]) + 1 == NIW_STATE_TEXT_ROOM && strcmp(niw_state_name(8), "unknown") == 0);
    for (unsigned bit = 0; bit < 8; bit++) CHECK(strstr(written[5], niw_state_name(bit)) != NULL);
}

/* Each algorithm puts conversations on the ports that its definition says, of two that distribute; another number is refused. */
static void check_algorithms(void) {
    static const uint16_t conversations[] = {0, 1, 2, 15, 16, 17, 32, 48, 255, 256, 257, 272, 4095};
    for (uint16_t algorithm = NIW_BY_NUMBER; algorithm <= NIW_BY_FIRST; algorithm++) {
        struct niw_system one = NIW_EMPTY, other = NIW_EMPTY;
        uint16_t agg;
        the_algorithm = algorithm;
        make(&one, 5, 7, 4096, 0);
        the_algorithm = NIW_BY_NUMBER;
        make(&other, 6, 9, 4096, 0);
        bring_up(&one, &other);
        CHECK(niw_restart(&other) == NIW_OK && niw_distributes(&one, 1).is && niw_distributes(&one, 2).is);
        agg = (uint16_t)niw_choice(&one, 1).number;
        for (size_t i = 0; i < sizeof conversations / sizeof *conversations; i++) {
            uint16_t conv = conversations[i], place = 0;
            uint8_t frame[60] = {2, 0, 0, 0, (uint8_t)(conv >> 8), (uint8_t)conv, 2, 0, 0, 0, 0, 0, 0x08, 0x00};
            if (algorithm == NIW_BY_NUMBER) place = conv % 2;
            if (algorithm == NIW_BY_SUM) place = (uint16_t)((conv + conv / 16 + conv / 256) % 2);
            CHECK(niw_conversation(&one, frame, sizeof frame).number == conv);
            CHECK(niw_offer(&one, agg, frame, sizeof frame).number == place + 1u);
        }
        CHECK(niw_load(&one, 2).number == (algorithm == NIW_BY_FIRST ? 0 : 6));
        CHECK(niw_free(&one) == NIW_OK && niw_free(&other) == NIW_OK);
    }
}

/* One link may be a member: the other is STANDBY, in WAITING, and takes its place when the first is down. */
static void check_limit(void) {
    struct niw_system one = NIW_EMPTY, other = NIW_EMPTY;
    uint16_t numbers[NIW_MOST_PORTS] = {0}, agg;
    struct niw_view views[NIW_MOST_PORTS];
    memset(views, 0, sizeof views);
    make(&one, 3, 7, 256, 1);
    make(&other, 4, 9, 256, 1);
    bring_up(&one, &other);
    agg = (uint16_t)niw_choice(&one, 1).number;
    CHECK(agg >= 1 && niw_choice(&one, 2).number == agg && !niw_is_standby(&one, 1).is && niw_is_standby(&one, 2).is);
    CHECK(niw_port_status(&one, 2).number == NIW_PORT_STATUS_STANDBY && niw_port_status(&one, 1).number == NIW_PORT_STATUS_DISTRIBUTING);
    CHECK(niw_distributing(&one, agg, numbers, NIW_MOST_PORTS).number == 1 && numbers[0] == 1);
    CHECK(niw_mux_state(&one, 2).number == NIW_MUX_WAITING && niw_is_standby(&other, 2).is);
    CHECK(niw_views(&one, views, NIW_MOST_PORTS).number == 3 && is_view_of(&one, &views[0], 1) && is_view_of(&one, &views[1], 2));
    CHECK(niw_set_link(&one, 1, false) == NIW_OK && niw_set_link(&other, 1, false) == NIW_OK);
    CHECK(niw_choice(&one, 1).number == 0 && !niw_is_standby(&one, 1).is && !niw_is_standby(&one, 2).is);
    turn(&one, &other, 20);
    CHECK(niw_distributing(&one, agg, numbers, NIW_MOST_PORTS).number == 1 && numbers[0] == 2);
    bring_up(&one, &other);
    CHECK(niw_is_standby(&one, 1).is && !niw_is_standby(&one, 2).is && niw_choice(&one, 1).number == agg);
    CHECK(niw_free(&one) == NIW_OK && niw_free(&other) == NIW_OK);
}

int main(void) {
    struct niw_system one = NIW_EMPTY, other = NIW_EMPTY;
    uint8_t spare[NIW_FRAME];
    uint16_t agg;
    unsigned asked;
    CHECK(!one.live && !one.at);
    make(&one, 1, 7, 256, 0);
    make(&other, 2, 9, 256, 0);
    check_refusals(&one);
    check_no_port(&one);
    check_refused_makes();
    check_refused_queues();
    check_refused_limits();
    check_fields();
    asked = askings;
    check_first_frame(&one);
    bring_up(&one, &other);
    check_distributing(&one);
    agg = (uint16_t)niw_choice(&one, 1).number;
    check_conversation(&one, &other, agg);
    check_move(&one, &other, agg);
    check_last_marker(&one, &other, agg);
    CHECK(niw_offer_conversation(&one, agg, 9).number == 1 && niw_force_port(&one, 1).status == NIW_OK);
    CHECK(niw_configure(&one, 1, &(struct niw_change){8, 0x2019, false}).is && niw_choice(&one, 1).number == 0);
    CHECK(niw_receive(&one, 1, data, NIW_SHORTEST_FRAME, spare, sizeof spare).status == NIW_OK);
    CHECK(niw_restart(&one) == NIW_OK && !niw_is_up(&one, 1).is && niw_next_marker(&one).id == FIRST_MARKER);
    CHECK(askings == asked && blocks > 0);
    check_limit();
    check_plane();
    check_ticks();
    check_waits();
    check_masks();
    check_room();
    check_algorithms();
    check_payloads();
    check_texts();
    CHECK(niw_free(&one) == NIW_OK && !one.live && niw_free(&one) == NIW_NO_SYSTEM && niw_free(&other) == NIW_OK && blocks == 0);
    return tell_checks();
}
