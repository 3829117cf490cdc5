/* Whether the peer answers markers: it is asked by a marker, whether or not a conversation waits for one. */
#include "tap/tap.h"

/* How long the peer may take, when the marker is sent again, and when a peer that does not answer is asked again, in milliseconds. */
#define PATIENCE 1000
#define AGAIN 200
#define LATER 60000

/* The last daemon found that out of this partner. */
void recall_answering(struct probe *own, const struct carry *carry, enum answering last) {
    if (carry->active == 0 || (last != ANSWERS && last != MUTE)) return;
    reset_if_other_partner(own, carry);
    own->peer = own->reported = last;
}

/* Another partner may answer markers where the last one did not. */
void reset_if_other_partner(struct probe *own, const struct carry *carry) {
    if (carry->active == 0) return;
    const struct niw_view *view = &carry->ports->links[carry->active_ports[0] - 1].view;
    struct system_id partner = partner_of(view);
    if (view->partner_key == own->partner_key && is_same_system(&partner, &own->partner)) return;
    own->partner_key = view->partner_key;
    own->partner = partner;
    own->peer = own->reported = NOT_ASKED;
    own->asking = false;
    own->asked_on = 0;
}

/* Sends a marker behind the data of a port of the active aggregator. There is none while no identifier is left, or the link is down. */
static void withdraw_and_ask_peer(struct carry *carry) {
    struct probe *own = &carry->probe;
    uint8_t marker[NIW_FRAME];
    struct niw_sent asked = niw_probe(&carry->core->system, carry->active_ports[0], marker, sizeof marker);
    if (!is_done(carry->core, asked.status, "niw_probe") || !asked.is) return;
    own->asking = true;
    if (own->peer == NOT_ASKED) own->peer = ASKED;
    own->asked_on = carry->active_ports[0];
    own->asked_at = own->sent_at = carry->time;
    withdraw_and_send_new_marker(carry->plane, &carry->ports->links[own->asked_on - 1], marker);
}

/* It is known whether the peer answers: says so, if that is new. */
static void note_answering(struct printer *printer, struct probe *own, enum answering now) {
    own->asking = false;
    own->peer = now;
    if (own->peer == own->reported) return;
    own->reported = own->peer;
    if (own->peer == ANSWERS)
        (void)say(printer, LOG_NOTICE | ABOUT_MARKERS, "carry %s: the peer answers markers", printer->process->settings->carry);
    else
        (void)say(printer, LOG_WARNING | ABOUT_MARKERS,
            "carry %s: the peer answers no markers, so conversations move once they rested for %u ms", printer->process->settings->carry,
            printer->process->settings->flight);
}

/* The partner sent a response on a link: to the last marker there, however late, or to another one. */
void note_response(struct plane *plane, const struct link *link) {
    struct carry *carry = plane->carry;
    uint16_t port = link->settings.number;
    uint64_t answers;
    if (carry->probe.asked_on != port || !is_told(carry->core, niw_answers(&carry->core->system, port), "niw_answers", &answers)) return;
    if (answers == NIW_ANSWERS_ANSWERED) note_answering(carry->core->printer, &carry->probe, ANSWERS);
}

void pass_probe_tick(struct tap_plane *tap) {
    struct carry *carry = tap->carry;
    struct probe *own = &carry->probe;
    if (own->asking && carry->ports->links[own->asked_on - 1].view.port_status != NIW_PORT_STATUS_DISTRIBUTING) {
        own->asking = false; /* its link went: the peer is asked by another one */
        own->peer = NOT_ASKED;
    } else if (own->asking && carry->time - own->asked_at >= PATIENCE) {
        note_answering(carry->core->printer, &carry->probe, MUTE);
    } else if (own->asking && carry->time - own->sent_at >= AGAIN) {
        own->sent_at = carry->time;
        if (withdraw_and_repeat_marker(tap, own->asked_on)) carry->counts[MARKERS_AGAIN]++;
    }
    if (own->asking || carry->active_count == 0) return;
    if (own->peer == NOT_ASKED || (own->peer == MUTE && carry->time - own->asked_at >= LATER)) withdraw_and_ask_peer(carry);
}
