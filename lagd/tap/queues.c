/* The queues of a member, where it keeps all of them: by which one a conversation goes, and the markers of each. A frame in one queue may
 * overtake those in others. So a marker goes by each queue that may have frames before it, with the number of the queue in its
 * identifier, and the library has the last of its responses. */
#include "segments.h"

/* Where a Marker PDU has the identifier of its requester (IEEE 802.1AX-2014, 6.5.3.3), and which of its bits are the queue. */
#define IDENTIFIER_AT (ETH_HLEN + 12)
#define QUEUE_SHIFT 28
#define IDENTIFIER_BITS ((1u << QUEUE_SHIFT) - 1)
#define LONGEST_FLIGHT 3500

static uint32_t bits_of_queues(unsigned count) {
    return (1u << count) - 1;
}

/* A member is taken up: nobody knows what its queues have. */
void begin_queues(struct queues *queues, unsigned count) {
    queues->count = count;
    queues->dirty = bits_of_queues(count);
    for (size_t i = 0; i < MOST_FLIGHTS; i++)
        if (queues->flights[i].waiting != 0) queues->flights[i].waiting = bits_of_queues(count);
}

/* Has a frame go by a queue of a member, if there are several. */
static void set_mark(struct queues *queues, unsigned queue, struct msghdr *message) {
    uint32_t mark = QUEUE_MARK | (queue + 1);
    if (queues->count < 2) return;
    message->msg_control = queues->marks[queue];
    message->msg_controllen = sizeof queues->marks[queue];
    struct cmsghdr *head = CMSG_FIRSTHDR(message);
    head->cmsg_len = CMSG_LEN(sizeof mark);
    head->cmsg_level = SOL_SOCKET;
    head->cmsg_type = SO_MARK;
    memcpy(CMSG_DATA(head), &mark, sizeof mark);
}

/* Has a frame of a conversation go by its queue, as the programs of the kernel have it. */
void mark_conversation(struct queues *queues, uint16_t number, struct msghdr *message) {
    unsigned queue = number % MOST_QUEUES % queues->count;
    queues->dirty |= 1u << queue;
    set_mark(queues, queue, message);
}

void set_identifier(uint8_t *frame, uint32_t id) {
    write32(frame + IDENTIFIER_AT, id);
}

/* Sends the marker of a flight by each queue that has no response yet; answers whether all went. */
static bool send_flight(struct core *core, const struct member *member, struct link *link, struct queues *queues, const struct flight *flight,
    const uint8_t *marker) {
    uint8_t frame[NIW_FRAME];
    bool done = true;
    memcpy(frame, marker, sizeof frame);
    for (unsigned queue = 0; queue < MOST_QUEUES; queue++) {
        struct msghdr message = {0};
        if (!(flight->waiting >> queue & 1)) continue;
        set_identifier(frame, (flight->id & IDENTIFIER_BITS) | (uint32_t)queue << QUEUE_SHIFT);
        set_mark(queues, queue, &message);
        done = give_marker(core, member, link, frame, &message) && done;
    }
    return done;
}

/* The place of the next flight: a free one, or that of the oldest. */
static struct flight *next_flight(struct queues *queues) {
    struct flight *oldest = &queues->flights[0];
    for (size_t i = 0; i < MOST_FLIGHTS; i++) {
        struct flight *flight = &queues->flights[i];
        if (flight->waiting == 0) return flight;
        if (flight->place < oldest->place) oldest = flight;
    }
    return oldest;
}

/* The queues with frames of which no response has told yet. Where the kernel passes frames on, that is any: how many there are is seen
 * anew, since it goes by as many as there are now. */
static uint32_t read_queues_and_find_unanswered(const struct member *member, int index, struct queues *queues) {
    uint32_t found = queues->dirty;
    for (size_t i = 0; i < MOST_FLIGHTS; i++) found |= queues->flights[i].waiting;
    if (is_fast(member)) {
        unsigned now = count_sending_queues(index);
        if (now > MOST_QUEUES) now = MOST_QUEUES;
        if (now > queues->count && queues->count > 1) queues->count = now;
        found = bits_of_queues(queues->count);
    }
    return found != 0 ? found : 1;
}

/* The queues of a flight that is too old for a response have frames of which nothing tells. */
static void end_old_flights(struct queues *queues, uint64_t time) {
    for (size_t i = 0; i < MOST_FLIGHTS; i++) {
        struct flight *flight = &queues->flights[i];
        if (flight->waiting == 0 || time - flight->since <= LONGEST_FLIGHT) continue;
        queues->dirty |= flight->waiting;
        flight->waiting = 0;
    }
}

/* Sends a marker by each queue that may have frames before it, or each that may still get a response again by those that have none; answers whether all
 * of it went. */
bool send_by_queues(struct tap_plane *tap, struct link *link, const uint8_t *marker, bool again) {
    const struct member *member = &tap->members[link->settings.number - 1];
    struct queues *queues = &tap->queues[link->settings.number - 1];
    bool done = true;
    if (!again) {
        uint32_t waiting = read_queues_and_find_unanswered(member, link->index, queues);
        struct flight *place = next_flight(queues);
        *place = (struct flight){read32(marker + IDENTIFIER_AT), waiting, tap->carry->time, queues->sent++};
        queues->dirty = 0;
        return send_flight(tap->core, member, link, queues, place, marker);
    }
    end_old_flights(queues, tap->carry->time);
    for (size_t i = 0; i < MOST_FLIGHTS; i++) done = send_flight(tap->core, member, link, queues, &queues->flights[i], marker) && done;
    return done;
}

/* A response to the marker of a queue came: answers whether it is the last one that was missing, and gives back the identifier of the library. */
bool note_queue_response(struct queues *queues, uint32_t *id) {
    uint32_t bit = 1u << (*id >> QUEUE_SHIFT);
    for (size_t i = 0; i < MOST_FLIGHTS; i++) {
        struct flight *flight = &queues->flights[i];
        if (!(flight->waiting & bit) || ((flight->id ^ *id) & IDENTIFIER_BITS) != 0) continue;
        flight->waiting &= ~bit;
        *id = flight->id;
        return flight->waiting == 0;
    }
    return false;
}
