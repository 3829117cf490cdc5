/* Marker PDUs that come: which responses are taken, and how many markers are answered. Who can send frames on a link can name any system
 * in them, and any number. The source of a frame and the number of a marker are what a sender has to know that sees nothing of the link. */
#include "lagd.h"

#include <net/ethernet.h>

/* The milliseconds of a slot. The slots of a second are looked at, and the one that passes, so that no second has more responses. */
#define SLOT 100
/* Which part of the responses others get, while the partner is known. */
#define PART_OF_OTHERS 4
/* How many ticks there are between two lines about Marker PDUs of a link. */
#define LINE_TICKS (10 * SECOND)

/* Whether a frame comes from where LACPDUs were taken from. Before the first one that is not known. */
static bool is_from_partner(const struct link *link, const struct arrival *arrival) {
    return !link->heard || memcmp(arrival->frame + ETH_ALEN, link->source, sizeof link->source) == 0;
}

/* Reads a Marker PDU; answers whether the frame is a marker response. */
bool read_response(struct core *core, const struct arrival *arrival, struct niw_pdu *pdu) {
    if (arrival->length <= SUBTYPE_AT || arrival->frame[SUBTYPE_AT] != SUBTYPE_MARKER) return false;
    struct niw_decoded decoded = niw_decode(arrival->frame + ETH_HLEN, arrival->length - ETH_HLEN, pdu);
    return decoded.status != NIW_BAD_PAYLOAD && is_done(core, decoded.status, "niw_decode") && pdu->tlv_type == NIW_MARKER_RESPONSE;
}

/* Whether a response is the partner's, to a marker of this port and system. The number is for whoever sent the marker. */
bool is_partners_response(const struct settings *settings, const struct link *link, const struct arrival *arrival, const struct niw_pdu *response) {
    return is_from_partner(link, arrival) && response->requester_port == link->settings.number
        && memcmp(response->requester_system, settings->config.mac, sizeof settings->config.mac) == 0;
}

void note_odd_marker(struct link *link, const struct arrival *arrival, enum count count) {
    link->counts[count]++;
    memcpy(link->markers.source, arrival->frame + ETH_ALEN, sizeof link->markers.source);
}

/* Spends an answer on a marker, where one is left: any second has so many of them at most, and a quarter at most for markers that are not
 * the partner's. Answers whether one was. */
bool spend_answer(struct link *link, const struct arrival *arrival, unsigned most) {
    struct answered *answered = &link->markers.answered;
    unsigned partner = 0, others = 0;
    bool other = !is_from_partner(link, arrival);
    uint64_t slot = milliseconds() / SLOT;
    for (uint64_t passed = answered->slot + 1; passed <= slot && passed <= answered->slot + ANSWERED_SLOTS; passed++)
        answered->partner[passed % ANSWERED_SLOTS] = answered->others[passed % ANSWERED_SLOTS] = 0;
    answered->slot = slot;
    for (unsigned i = 0; i < ANSWERED_SLOTS; i++) {
        partner += answered->partner[i];
        others += answered->others[i];
    }
    if (partner + others >= most || (other && others >= most / PART_OF_OTHERS)) return false;
    (other ? answered->others : answered->partner)[answered->slot % ANSWERED_SLOTS]++;
    return true;
}

/* Tells of responses that are not the partner's, and of markers that are not answered: at once, and then every 10 s at most. */
void tell_markers(struct printer *printer, uint64_t ticks, struct link *link) {
    uint64_t foreign = link->counts[FOREIGN_RESPONSES], unanswered = link->counts[RESPONSES_UNSENT];
    if (foreign + unanswered == link->markers.reported || ticks < link->markers.tell_at) return;
    if (!say(printer, LOG_WARNING | ABOUT_MARKERS,
            "port %u %s: Marker PDUs, last from %s: %" PRIu64 " responses that are not the partner's, %" PRIu64 " markers not answered",
            link->settings.number, link->name, mac_text(link->markers.source, TEXT_ROOM), foreign, unanswered))
        return;
    link->markers.reported = foreign + unanswered;
    link->markers.tell_at = ticks + LINE_TICKS;
}
