/* Frames of the slow protocols that come: which are looked at, whose LACPDUs are taken, and what becomes of them. */
#include "lagd.h"

#include <linux/if_packet.h>
#include <net/ethernet.h>

#define LONGEST_FRAME 2048
/* Where an LACPDU has its actor's system priority and system (IEEE 802.1AX-2014, 6.4.2.3). */
#define ACTOR_SYSTEM (ETH_HLEN + 4)
/* The octets of a PDU behind the Ethernet header. What has fewer is for the library to refuse. */
#define PDU 110
/* How many ticks there are between two lines about strangers on a link. */
#define STRANGERS_TICKS (10 * SECOND)

static const uint8_t GROUP[6] = {0x01, 0x80, 0xc2, 0x00, 0x00, 0x02};

/* The system that an LACPDU names as its actor; answers whether the frame is one. */
static bool actor_of(const struct arrival *arrival, struct system_id *actor) {
    const uint8_t *at = arrival->frame + ACTOR_SYSTEM;
    if (arrival->length < ETH_HLEN + PDU || arrival->frame[SUBTYPE_AT] != SUBTYPE_LACP) return false;
    actor->priority = (uint16_t)(at[0] << 8 | at[1]);
    memcpy(actor->mac, at + 2, sizeof actor->mac);
    return true;
}

/* The link went down, or its partner is silent for so long that the port runs on defaults: who speaks first next is the partner, where that
 * holds. */
void forget_partner(const struct settings *settings, struct link *link) {
    link->pinned = settings->policy == PARTNER_GIVEN;
    if (link->pinned) link->partner = settings->partner;
    link->heard = false;
}

/* An LACPDU names another system than the partner. */
static void note_stranger(struct strangers *own, const struct system_id *system, const uint8_t *source) {
    own->seen = true;
    own->system = *system;
    memcpy(own->source, source, sizeof own->source);
}

/* An LACPDU of this system was taken. */
void note_lacpdu_and_pin_partner(const struct settings *settings, struct link *link, const struct system_id *actor, const uint8_t *frame) {
    memcpy(link->lacpdu, frame, sizeof link->lacpdu);
    link->lacpdu_at = boottime();
    if (link->heard && !is_same_system(&link->actor, actor)) {
        link->counts[PARTNER_CHANGES]++;
        note_stranger(&link->strangers, &link->actor, link->source);
    }
    link->heard = true;
    link->actor = *actor;
    memcpy(link->source, frame + ETH_ALEN, sizeof link->source);
    struct system_id own = own_system(settings);
    if (settings->policy != PARTNER_FIRST || link->pinned || is_same_system(actor, &own)) return;
    link->pinned = true;
    link->partner = *actor;
}

/* Hands a frame to the library, and sends the response to a marker, if there were not too many within a second. */
static void give_to_library_and_answer(struct protocol *protocol, struct link *link, const struct arrival *arrival, const struct system_id *actor) {
    uint8_t response[NIW_FRAME];
    struct niw_received received = niw_receive(&protocol->core->system, link->settings.number, arrival->frame, arrival->length, response,
        sizeof response);
    if (!is_done(protocol->core, received.status, "niw_receive")) return;
    if (received.what == NIW_RECEIVED_DISABLED) link->counts[DISABLED_RECEIVED]++;
    if (!is_done(protocol->core, niw_count_received(&link->counters, arrival->frame, arrival->length, received.what), "niw_count_received"))
        return;
    if (received.what == NIW_RECEIVED_TOOK_LACPDU && actor) note_lacpdu_and_pin_partner(protocol->settings, link, actor, arrival->frame);
    if (received.what != NIW_RECEIVED_RESPOND) return;
    const struct queueing *queueing = protocol->plane->queueing;
    const unsigned most = protocol->settings->marker_responses * queueing->markers_at_once;
    if (!spend_answer(link, arrival, most) || !queueing->answer(protocol->plane->tap, link, response))
        note_odd_marker(link, arrival, RESPONSES_UNSENT);
}

void accept_response(struct protocol *protocol, struct link *link, const struct arrival *arrival) {
    give_to_library_and_answer(protocol, link, arrival, NULL);
    CALL(protocol->plane->carrying->note_response, protocol->plane, link);
}

/* Whether the actor of an LACPDU may be the partner of a link; writes which system it is. */
bool may_be_partner(const struct link *link, const uint8_t *frame, struct system_id *actor) {
    struct arrival arrival = {.frame = frame, .length = NIW_FRAME};
    return actor_of(&arrival, actor) && (!link->pinned || is_same_system(actor, &link->partner));
}

/* Takes a frame for the library: a response to a marker goes by the plane. The slow protocols have one address, which no bridge passes on: a frame to
 * any other one comes from anybody. Theirs have no VLAN tag: the kernel calls one with a tag another host's, or shows it as of the VLAN's interface. */
void accept_frame(struct protocol *protocol, struct link *link, const struct arrival *arrival) {
    struct system_id actor;
    struct niw_pdu response;
    if (arrival->length < ETH_HLEN || memcmp(arrival->frame, GROUP, sizeof GROUP) != 0) {
        link->counts[ELSEWHERE_RECEIVED]++;
        return;
    }
    if (arrival->packet_type != PACKET_MULTICAST || arrival->index != link->index || arrival->tagged) {
        link->counts[TAGGED_RECEIVED]++;
        return;
    }
    bool is_lacpdu = actor_of(arrival, &actor);
    if (is_lacpdu && link->up && link->pinned && !is_same_system(&actor, &link->partner)) {
        link->counts[FOREIGN_RECEIVED]++;
        note_stranger(&link->strangers, &actor, arrival->frame + 6);
        return;
    }
    bool is_response = link->up && read_response(protocol->core, arrival, &response);
    if (is_response && !is_partners_response(protocol->settings, link, arrival, &response)) {
        note_odd_marker(link, arrival, FOREIGN_RESPONSES);
        return;
    }
    if (is_response)
        protocol->plane->queueing->accept_response(protocol->plane->tap, link, arrival, response.transaction_id);
    else
        give_to_library_and_answer(protocol, link, arrival, is_lacpdu ? &actor : NULL);
}

/* What the kernel tells beside a frame; zeros where it does not. */
struct tpacket_auxdata aux_of(const struct msghdr *message) {
    struct msghdr copy = *message; /* CMSG_NXTHDR takes none that is const */
    struct tpacket_auxdata aux = {0};
    for (struct cmsghdr *head = CMSG_FIRSTHDR(&copy); head; head = CMSG_NXTHDR(&copy, head)) {
        size_t room = message->msg_controllen - (size_t)((const uint8_t *)head - (const uint8_t *)message->msg_control);
        if (head->cmsg_len > room) break;
        if (head->cmsg_level == SOL_PACKET && head->cmsg_type == PACKET_AUXDATA && head->cmsg_len >= CMSG_LEN(sizeof aux))
            memcpy(&aux, CMSG_DATA(head), sizeof aux);
    }
    return aux;
}

void receive_frames(struct protocol *protocol, uint16_t port) {
    struct link *link = &protocol->ports->links[port - 1];
    uint8_t frame[LONGEST_FRAME];
    for (int turn = 0; turn < MOST_TAKEN && link->socket >= 0; turn++) {
        union {
            struct cmsghdr head;
            uint8_t room[CMSG_SPACE(sizeof(struct tpacket_auxdata))];
        } more;
        struct sockaddr_ll from = {0};
        struct iovec part = {frame, sizeof frame};
        struct msghdr message = {&from, sizeof from, &part, 1, &more, sizeof more, 0};
        ssize_t got = recvmsg(link->socket, &message, 0);
        struct arrival arrival = {frame, (size_t)got, from.sll_pkttype, from.sll_ifindex, false};
        if (got < 0) return;
        if (from.sll_pkttype == PACKET_OUTGOING) continue; /* an old kernel shows what was sent */
        arrival.tagged = (aux_of(&message).tp_status & TP_STATUS_VLAN_VALID) != 0;
        accept_frame(protocol, link, &arrival);
    }
}

/* Tells of strangers on a link, if there are more than were told of: at once, and then every 10 s at most. */
void tell_strangers(struct printer *printer, uint64_t ticks, struct link *link) {
    struct strangers *strangers = &link->strangers;
    uint64_t foreign = link->counts[FOREIGN_RECEIVED], changes = link->counts[PARTNER_CHANGES];
    if (foreign + changes == strangers->reported || ticks < strangers->tell_at) return;
    if (!say(printer, LOG_WARNING | ABOUT_STRANGER,
        "port %u %s: another system speaks, last %s from %s: %" PRIu64 " LACPDUs not taken, %" PRIu64
            " changes of the partner", link->settings.number, link->name, system_text(&strangers->system, TEXT_ROOM),
            mac_text(strangers->source, TEXT_ROOM), foreign, changes))
        return;
    strangers->reported = foreign + changes;
    strangers->tell_at = ticks + STRANGERS_TICKS;
}
