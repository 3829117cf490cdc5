/* The conversation of a frame of the host: frames of one keep their order. */
#include "lagd.h"

#include <netinet/in.h>

struct frame {
    const uint8_t *octets;
    size_t length;
};

#include "hash.h"
#include "tap.h"

_Static_assert(CONVERSATIONS == NIW_FEW_CONVERSATIONS && MOST_MEMBERS == NIW_MOST_PORTS, "the tables have room for what the library has");

static __always_inline bool read_octets(const struct frame *frame, uint64_t at, void *octets, uint32_t count) {
    if (count > frame->length || at > frame->length - count) return false;
    memcpy(octets, frame->octets + at, count);
    return true;
}

static uint64_t hash_of(const struct settings *settings, const struct frame *frame) {
    const uint64_t start = HASH_START ^ settings->hash_seed;
    struct place place = {0, 0};
    union header ethernet;
    uint8_t tag[2] = {0};
    (void)read_octets(frame, 0, &ethernet, ETH_HLEN);
    if (settings->hash == HASH_VLAN_SRCMAC) {
        if (is_tag(number_at(ethernet.octets + 2 * ETH_ALEN))) (void)read_octets(frame, ETH_HLEN, tag, sizeof tag);
        return add_vlan_and_source(&ethernet, number_at(tag), start);
    }
    enter_ethernet(frame, &place);
    return add_headers(frame, ethernet.words, &place, settings->hash, start);
}

/* The conversation of a frame of 14 octets or more, from 0 to CONVERSATIONS - 1. */
struct niw_number conversation_of(struct core *core, const uint8_t *frame, size_t length) {
    const struct frame whole = {frame, length};
    if (core->settings->hash == HASH_LAYER2 || length < ETH_HLEN)
        return niw_conversation(&core->system, frame, length < LONGEST_SHOWN ? length : LONGEST_SHOWN);
    return (struct niw_number){.status = NIW_OK, .number = conversation_in(hash_of(core->settings, &whole))};
}
