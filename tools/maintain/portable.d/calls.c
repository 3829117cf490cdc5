/* Random calls of every function of lag.h on two systems with cables, a third one and queues, and a hash of all that they answer, write and ask of
 * malloc: equal in each build of the library, but for one by rustc how much it asks for. calls.h has a function that mixes each struct, and a call of each function; it is written from the
 * sources of the interface.
 *
 *     calls COUNT [granted]
 *
 * Linked by -Wl,--wrap=malloc,--wrap=realloc, so that memory can be refused; by `granted` none is. By -DNIW_POOL the library has a pool of its own,
 * and no word is wanted. */
#include "lag.h"

#include <stdio.h>
#include <stdlib.h>
#include <string.h>

enum { SYSTEMS = 3, QUEUES = 2, PORTS = 6, LIST = 4096, MANY = 96 };

static uint64_t state = 88172645463325252u, hash = 14695981039346656037u;
/* The same without how many octets are asked of malloc: rustc orders the fields of a struct as it likes. */
static uint64_t without_sizes = 14695981039346656037u;
static struct niw_system systems[SYSTEMS] = {NIW_EMPTY, NIW_EMPTY, NIW_EMPTY};
static struct niw_queue queues[QUEUES] = {NIW_EMPTY, NIW_EMPTY};
static struct niw_churn churns[2];
static struct niw_counters counted[2];
static struct niw_pdu pdus[2];
static struct niw_saved last[PORTS], to_resume[MANY];
static struct niw_port ports_of_config[MANY];
static struct niw_carried carried_list[LIST];
static struct niw_view view_list[MANY];
static uint16_t keys_of_config[MANY], number_list[LIST];
static bool flags[2][LIST];
static uint8_t octets[2][256];
static unsigned long sent;
/* Whether a configuration is that of the first system. */
static bool is_plain;
/* The port that a call names, and a frame that is received on it. */
static uint16_t at_port = 1;
#ifdef NIW_POOL
static uint8_t pool[1 << 22];
#endif
/* The next so many requests for memory are granted, and one is refused; none while it is negative. */
static long granted = -1;
static bool is_granted;

static uint32_t any(uint32_t below) {
    state ^= state << 13;
    state ^= state >> 7;
    state ^= state << 17;
    return (uint32_t)(state >> 33) % below;
}

static bool seldom(uint32_t once_in) { return any(once_in) == 0; }

static uint64_t mixed(uint64_t with, uint64_t value) {
    for (int at = 0; at < 64; at += 8) with = (with ^ (uint8_t)(value >> at)) * 1099511628211u;
    return with;
}

static void mix_one(uint64_t value) {
    hash = (hash ^ value) * 1099511628211u;
    without_sizes = (without_sizes ^ value) * 1099511628211u;
}

static void mix(uint64_t value) {
    hash = mixed(hash, value);
    without_sizes = mixed(without_sizes, value);
}

static void mix_octets(const uint8_t *from, size_t count) {
    for (size_t at = 0; at < count; at++) mix_one(from[at]);
}

static void mix_numbers(const uint16_t *from, size_t count) {
    for (size_t at = 0; at < count; at++) mix_one(from[at]);
}

static void mix_flags(const bool *from, size_t count) {
    for (size_t at = 0; at < count; at++) mix_one(from[at]);
}

void *__real_malloc(size_t size);
void *__real_realloc(void *at, size_t size);
void *__wrap_malloc(size_t size);
void *__wrap_realloc(void *at, size_t size);

/* Memory may be refused from here on. A list that is long is copied where octets stand the other way, and that asks for memory, too. */
static void refuse(bool has_short_lists) { granted = has_short_lists && !is_granted && seldom(3) ? (long)any(6) : -1; }

static bool is_refused(size_t size) {
    if (granted < 0) return false;
    hash = mixed(hash, size);
    without_sizes = mixed(without_sizes, 1);
    return granted-- == 0;
}

void *__wrap_malloc(size_t size) { return is_refused(size) ? NULL : __real_malloc(size); }
void *__wrap_realloc(void *at, size_t size) { return is_refused(size) ? NULL : __real_realloc(at, size); }

/* Values for the parameters of these names. */
static struct niw_system *system_of(void) { return seldom(64) ? NULL : &systems[seldom(16) ? 2 : any(2)]; }
static struct niw_queue *queue_of(void) { return seldom(64) ? NULL : &queues[seldom(8)]; }
static uint16_t port_of(void) { return at_port = (uint16_t)(seldom(64) ? any(65536) : 1 + any(seldom(8) ? PORTS + 1 : PORTS)); }
static uint16_t agg_of(void) { return (uint16_t)(seldom(64) ? any(65536) : seldom(2) ? any(PORTS + 2) : 1); }
static uint16_t conv_of(void) { return (uint16_t)(seldom(32) ? any(65536) : seldom(8) ? any(4096) : any(40)); }
static size_t length_of(size_t right) { return seldom(24) ? any((uint32_t)right + 1) : right; }

/* An empty handle, but seldom. */
static struct niw_system *empty_of(void) {
    if (seldom(6)) return system_of();
    niw_free(&systems[2]);
    return &systems[2];
}

static struct niw_config config_of(void) {
    struct niw_config it = {.priority = 32768, .mac = {2, 0, 0, 0, 0, (uint8_t)(1 + any(2))}, .max_delay = (uint16_t)any(100), .conversations = 256};
    it.first_marker = seldom(8) ? 0xffffffffu - any(20) : any(1000);
    it.max_links = (uint16_t)(seldom(3) ? any(70) : 0);
    it.algorithm = (uint16_t)(seldom(10) ? any(4) : any(2));
    if (is_plain) it = (struct niw_config){.priority = 32768, .mac = {2, 0, 0, 0, 0, 1}, .first_marker = it.first_marker, .conversations = 256};
    if (seldom(16)) it.conversations = (uint16_t)(seldom(2) ? 4096 : any(300));
    return it;
}

/* Ports and keys, for all but a few calls those of the first system. */
static void fill_config(void) {
    is_plain = !seldom(3);
    for (int at = 0; at < MANY; at++) {
        struct niw_port *it = &ports_of_config[at];
        memset(it, 0, sizeof *it);
        it->number = (uint16_t)(!is_plain && seldom(200) ? any(9) : (uint32_t)at + 1);
        it->priority = (uint16_t)(!is_plain && seldom(4) ? any(65536) : 128);
        it->mac[0] = 2;
        it->mac[5] = (uint8_t)at;
        it->key = keys_of_config[at] = (uint16_t)(!is_plain && seldom(12) ? 8 : 7);
        it->aggregatable = is_plain || !seldom(20);
        it->active = is_plain || !seldom(8);
        it->short_timeout = is_plain || !seldom(4);
    }
}

static size_t count_of(void) { return seldom(40) ? any(MANY) : PORTS; }

static void fill_saved(void) {
    for (int at = 0; at < MANY; at++) {
        to_resume[at] = last[at % PORTS];
        to_resume[at].age = seldom(6) ? any(1000) : any(20);
        if (seldom(20)) to_resume[at].port = port_of();
        if (seldom(20)) to_resume[at].aggregator = agg_of();
        if (seldom(20)) to_resume[at].frame[any(124)] = (uint8_t)any(256);
    }
}

/* A frame of the slow protocols, or of data; most name the first system as their partner. */
static uint8_t *frame_of(void) {
    uint8_t *it = octets[0];
    const uint8_t peer = (uint8_t)(seldom(60) ? 3 : 2), port = (uint8_t)(seldom(60) ? 1 + any(PORTS) : at_port);
    const uint8_t head[] = {1, 0x80, 0xc2, 0, 0, 2, 2, 0, 0, 0, 9, 9, 0x88, 9, 1, 1, 1, 20, 0x80, 0, 2, 0, 0, 0, 0, peer, 0, 7, 0, 128, 0, port, 0x3f};
    const uint8_t back[] = {2, 20, 0x80, 0, 2, 0, 0, 0, 0, 1, 0, 7, 0, 128, 0, port, 0x3f, 0, 0, 0, 3, 16};
    memset(it, 0, 256);
    memcpy(it, head, sizeof head);
    memcpy(it + 36, back, sizeof back);
    if (seldom(20)) it[32] = (uint8_t)any(256);
    if (seldom(20)) it[52] = (uint8_t)any(256);
    if (seldom(8)) {
        const uint8_t marker[] = {2, 1, (uint8_t)(1 + any(2)), 16, 0, port, 2, 0, 0, 0, 0, 1, 0, 0, 0, (uint8_t)any(200)};
        memset(it + 14, 0, 110);
        memcpy(it + 14, marker, sizeof marker);
    } else if (seldom(8)) {
        it[12] = 8;
        it[13] = 0;
    }
    if (seldom(20)) it[any(124)] = (uint8_t)any(256);
    return seldom(64) ? NULL : it;
}

static void fill_lists(void) {
    for (int at = 0; at < 300; at++) {
        number_list[at] = (uint16_t)(seldom(4) ? any(9) : 1 + any(PORTS));
        carried_list[at].port = (uint16_t)any(PORTS + 1);
        carried_list[at].load = seldom(30) ? 0xffffffffu : any(1000);
        flags[0][at] = seldom(3);
    }
}

static struct niw_pdu *pdu_of(void) {
    struct niw_pdu *it = &pdus[any(2)];
    if (seldom(4)) it->subtype = (uint8_t)any(4);
    if (seldom(4)) it->tlv_type = (uint8_t)any(4);
    if (seldom(4)) it->actor.key = (uint16_t)any(65536);
    if (seldom(4)) it->transaction_id = any(1u << 31);
    return seldom(64) ? NULL : it;
}

#include "calls.h"

/* Puts a system into an empty handle. */
static void make(int which) {
    struct niw_config it = {.priority = 32768, .mac = {2, 0, 0, 0, 0, (uint8_t)(1 + which)}, .first_marker = 1, .conversations = 256};
    struct niw_made made;
    fill_config();
    for (int at = 0; at < PORTS; at++) ports_of_config[at].number = (uint16_t)(at + 1);
    made = niw_new(&systems[which], &it, keys_of_config, PORTS, ports_of_config, PORTS);
    mix(made.status);
    for (uint16_t port = 1; port <= PORTS; port++) mix(niw_set_link(&systems[which], port, true));
}

/* A frame goes along a cable between the first two systems; some are lost. */
static void carry(int from, uint16_t port) {
    uint8_t frame[NIW_FRAME], response[NIW_FRAME];
    struct niw_received got;
    for (struct niw_sent it; it = niw_transmit(&systems[from], port, frame, sizeof frame), it.is; sent++) {
        mix_octets(frame, sizeof frame);
        if (seldom(16)) continue;
        got = niw_receive(&systems[1 - from], port, frame, sizeof frame, response, sizeof response);
        mix(got.status + 64 * got.what + 4096 * (uint64_t)got.number);
        if (from && got.what == NIW_RECEIVED_TOOK_LACPDU) {
            last[port - 1].port = port;
            last[port - 1].aggregator = seldom(3) ? 0 : (uint16_t)niw_choice(&systems[0], port).number;
            memcpy(last[port - 1].frame, frame, sizeof frame);
        }
        if (got.what != NIW_RECEIVED_RESPOND || seldom(16)) continue;
        mix_octets(response, sizeof response);
        got = niw_receive(&systems[from], port, response, sizeof response, frame, sizeof frame);
        mix(got.status + 64 * got.what + 4096 * (uint64_t)got.number);
    }
}

int main(int argc, char **argv) {
    const unsigned long count = argc > 1 ? strtoul(argv[1], NULL, 10) : 20000;
    is_granted = argc > 2;
#ifdef NIW_POOL
    is_granted = true;
    niw_give_memory(pool + 1, sizeof pool - 1);
#endif
    for (unsigned long call = 0; call < count; call++) {
        for (int which = 0; which < 2; which++) {
            if (!systems[which].live && seldom(4)) make(which);
        }
        one_call(any(CALLS));
        if (seldom(3)) {
            mix(niw_tick(&systems[0]));
            mix(niw_tick(&systems[1]));
        }
        for (uint16_t port = 1; port <= PORTS; port++) {
            carry(0, port);
            carry(1, port);
        }
    }
    for (int which = 0; which < SYSTEMS; which++) mix(niw_free(&systems[which]));
    for (int which = 0; which < QUEUES; which++) mix(niw_queue_free(&queues[which]));
    printf("%lu calls%s, %lu frames, %08lx%08lx", count, is_granted ? " with all memory" : "", sent, (unsigned long)(hash >> 32), (unsigned long)(hash & 0xffffffffu));
    printf(", without sizes %08lx%08lx\n", (unsigned long)(without_sizes >> 32), (unsigned long)(without_sizes & 0xffffffffu));
    return 0;
}
