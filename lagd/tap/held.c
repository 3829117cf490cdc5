/* Frames of conversations that are held. The library has a queue of each conversation, of numbers of slots: it tells which frame is next,
 * how many wait, and whether one more may. The frames are here, in the slots of one block that is taken at the start: small ones, and
 * large ones for those of several segments. */
#include "tap.h"

#include <sys/mman.h>

/* How many frames of a conversation wait at most, and how many of all. */
#define MOST_OF_ONE 2048
#define MOST_WAIT 32768
/* A number of a slot has its place in the pool, from 1 on, and this bit in the pool of large ones. */
#define NONE 0
#define LARGE 0x80000000u
#define MOST_LARGE 1024
/* The octets of a packet that a small slot takes. */
#define SMALL_ROOM 1536

struct slot {
    uint32_t next; /* of those that are idle, or on their way */
    uint32_t length;
    uint64_t came; /* the time at which the frame came */
    uint8_t packet[];
};

static struct pool *pool_of(struct held *own, uint32_t at) {
    return at & LARGE ? &own->large : &own->small;
}

static struct slot *slot_of(struct held *own, uint32_t at) {
    const struct pool *pool = pool_of(own, at);
    return (struct slot *)(void *)(pool->slots + (size_t)((at & ~LARGE) - 1) * pool->octets);
}

static size_t slot_octets(size_t room) {
    return (sizeof(struct slot) + room + 15) / 16 * 16;
}

/* Takes all memory. Its pages are in use once they are written. */
void start_held_or_stop(struct core *core, struct held *own) {
    own->small = (struct pool){.octets = slot_octets(SMALL_ROOM), .most = MOST_WAIT};
    own->large = (struct pool){.octets = slot_octets(packet_room()), .most = MOST_LARGE};
    size_t before = own->small.octets * MOST_WAIT, behind = own->large.octets * MOST_LARGE;
    own->small.slots = mmap(NULL, before + behind, PROT_READ | PROT_WRITE, MAP_PRIVATE | MAP_ANONYMOUS | MAP_NORESERVE, -1, 0);
    if (own->small.slots == MAP_FAILED) stop(REFUSED, "no room for held frames", strerror(errno));
    own->large.slots = own->small.slots + before;
    if (!is_done(core, niw_queue_new(&own->queues, CONVERSATIONS, MOST_WAIT, MOST_OF_ONE), "niw_queue_new")) return;
    own->octets = before + behind;
}

/* The daemon ends: once the library has no number of a slot, the memory goes back. */
void end_held(struct core *core, struct held *own) {
    if (own->octets == 0 || !is_done(core, niw_queue_free(&own->queues), "niw_queue_free")) return;
    (void)munmap(own->small.slots, own->octets);
    own->octets = 0;
}

static uint32_t claim_slot(struct held *own, struct pool *pool) {
    uint32_t at = pool->idle;
    if (at != NONE)
        pool->idle = slot_of(own, at)->next;
    else if (pool->used < pool->most)
        at = ++pool->used | (pool == &own->large ? LARGE : 0);
    return at;
}

static void free_slot(struct held *own, uint32_t at) {
    struct pool *pool = pool_of(own, at);
    slot_of(own, at)->next = pool->idle;
    pool->idle = at;
}

/* Writes how many frames of a conversation wait; answers whether that is known. While no frame waits at all, the library is not asked. */
bool count_held(struct core *core, struct held *own, uint16_t number, uint64_t *waiting) {
    *waiting = 0;
    return !own->any_waits || is_told(core, niw_queue_waiting(&own->queues, number), "niw_queue_waiting", waiting);
}

bool none_held(struct core *core, struct held *own, uint16_t number) {
    uint64_t waiting;
    return count_held(core, own, number, &waiting) && waiting == 0;
}

bool count_all_held(struct core *core, struct held *own, uint64_t *waiting) {
    struct niw_counts counts = niw_queue_counts(&own->queues);
    *waiting = counts.waiting;
    return is_done(core, counts.status, "niw_queue_counts");
}

unsigned count_frames_waiting(struct plane *plane) {
    uint64_t waiting;
    return count_all_held(plane->tap->core, &plane->tap->held, &waiting) ? (unsigned)waiting : 0;
}

/* The slot of a frame that the library tells, or NONE where it tells none. */
static uint32_t slot_told(struct core *core, const struct niw_queued *queued, const char *call) {
    return is_done(core, queued->status, call) && queued->is ? (uint32_t)queued->frame : NONE;
}

/* Writes the time at which the oldest frame of a conversation came; answers whether one waits. */
bool oldest_held(struct core *core, struct held *own, uint16_t number, uint64_t *came) {
    if (!own->any_waits) return false;
    struct niw_queued queued = niw_queue_oldest(&own->queues, number);
    uint32_t at = slot_told(core, &queued, "niw_queue_oldest");
    if (at != NONE) *came = slot_of(own, at)->came;
    return at != NONE;
}

/* Puts a packet that came at a time behind those of its conversation; answers whether there was room. */
bool put_held(struct core *core, struct held *own, uint16_t number, uint64_t came, const uint8_t *packet, size_t length) {
    uint32_t at = claim_slot(own, length > SMALL_ROOM ? &own->large : &own->small);
    if (at == NONE) return false;
    uint32_t status = niw_queue_put(&own->queues, number, at);
    if (status == NIW_CONVERSATION_FULL || status == NIW_ALL_FULL || !is_done(core, status, "niw_queue_put")) {
        free_slot(own, at);
        return false;
    }
    struct slot *slot = slot_of(own, at);
    slot->length = (uint32_t)length;
    slot->came = came;
    memcpy(slot->packet, packet, length);
    own->any_waits = true;
    return true;
}

/* Loses the oldest frame of a conversation; answers whether one waits. */
bool drop_held(struct core *core, struct held *own, uint16_t number) {
    struct niw_queued queued = niw_queue_drop(&own->queues, number);
    uint32_t at = slot_told(core, &queued, "niw_queue_drop");
    if (at != NONE) free_slot(own, at);
    return at != NONE;
}

/* Takes the oldest frame of a conversation out, to be sent; answers NULL where none is told. Its packet stays there until free_left. */
uint8_t *remove_held(struct core *core, struct held *own, uint16_t number, size_t *length) {
    struct niw_queued queued = niw_queue_next(&own->queues, number);
    uint32_t at = slot_told(core, &queued, "niw_queue_next");
    if (at == NONE) return NULL;
    struct slot *slot = slot_of(own, at);
    slot->next = own->leaving;
    own->leaving = at;
    *length = slot->length;
    return slot->packet;
}

/* All that was on its way was sent. */
void free_left(struct held *own) {
    while (own->leaving != NONE) {
        uint32_t at = own->leaving;
        own->leaving = slot_of(own, at)->next;
        free_slot(own, at);
    }
}
