/* Which aggregator carries the data, and by which ports. */
#include "carry.h"

/* How long data waits for a partner to say that it collects, in milliseconds: it says so as soon as it does. */
#define COLLECTS_WITHIN 1000

/* For how long frames of the peer tell that it has the same aggregator, in milliseconds. */
#define HEARD 3000

/* How long a port may run on defaults before it is started again: at first, and at most. */
#define FIRST_WAKE 10
#define LAST_WAKE 300

/* Writes what a conversation of an aggregator is doing; answers whether the library told it. */
bool ask_state(struct core *core, uint16_t aggregator, uint16_t number, struct niw_assignment *state) {
    *state = niw_conversation_state(&core->system, aggregator, number);
    return is_done(core, state->status, "niw_conversation_state");
}

/* Writes the port of each conversation of an aggregator: 0 where it is free or held there, or there is no aggregator. Answers whether the
 * library told them. */
bool ask_ports(struct core *core, uint16_t aggregator, uint16_t *ports) {
    bool changed[CONVERSATIONS] = {false};
    memset(ports, 0, CONVERSATIONS * sizeof *ports);
    return aggregator == 0
        || is_done(core, niw_conversation_ports(&core->system, aggregator, ports, CONVERSATIONS, changed, CONVERSATIONS).status,
            "niw_conversation_ports");
}

bool is_held(const struct niw_assignment *state) {
    return state->what == NIW_CONVERSATION_WANTED || state->what == NIW_CONVERSATION_FLUSHING;
}

/* Whether a conversation had a frame of late, in the active aggregator. */
bool is_busy(const struct carry *carry, const struct conversation *conversation) {
    bool is_recent = conversation->last != 0 && carry->time - conversation->last < BUSY;
    return conversation->home == carry->active && (conversation->used || is_recent);
}

/* Another aggregator is active: nothing has come in it yet. */
void count_and_forget_heard(struct carry *carry) {
    carry->elsewhere = 0;
    carry->heard_before = ASK(carry->plane->carrying->frames_heard, 0, carry->plane, true);
    carry->heard_at = 0;
}

/* A frame came in an aggregator that is not the active one. If no aggregator has more than that one, the peer may send there. It is looked
 * at once a tick, however many frames come, and only in a tick in which one does: few frames take long. */
void doubt_active_or_follow_peer(struct carry *carry, uint32_t aggregator) {
    if (carry->looked_at == carry->time || carry->active == 0 || aggregator == carry->active) return;
    carry->looked_at = carry->time;
    uint64_t patience = patience_with(carry->protocol, carry->active, (uint16_t)aggregator);
    carry->elsewhere += NIW_TICK_MILLISECONDS;
    if (patience != 0 && carry->elsewhere > patience) follow_peer(carry->core, &carry->protocol->choice, carry->protocol, (uint16_t)aggregator);
    else if (carry->heard_at == 0 || !is_as_good_as_any(carry->core, carry->protocol, (uint16_t)aggregator)) return;
    carry->heard_at = 0;
    carry->plane->changed = true;
}

/* Whether the active aggregator stays where another one has as many ports: the peer has it, too, since its frames come there. Ends that differ
 * come together, if both send or neither does: neither has frames of the other one then, and both take the one with the least group. */
bool heard_peer_lately(const struct plane *plane) {
    const struct carry *carry = plane->carry;
    return carry->heard_at != 0 && carry->time - carry->heard_at < HEARD;
}

/* Writes the ports of the active aggregator that carry, those that are emptied or the others; answers how many. */
static uint16_t list_active_ports(const struct carry *carry, bool emptying, uint16_t ports[static NIW_MOST_PORTS]) {
    uint16_t count = 0;
    EACH_LINK_AS_IS(link, carry->ports)
        if (carry->active != 0 && link->view.aggregator == carry->active && carries(carry->protocol, link) && link->emptying == emptying)
            ports[count++] = link->settings.number;
    return count;
}

/* Notes since when the partner of each port that distributes is to say that it collects: it learns by our LACPDU that it has to. */
static void note_partners_to_collect(uint64_t to_collect_since[static NIW_MOST_PORTS], const struct ports *ports, uint64_t time) {
    EACH_LINK_AS_IS(link, ports) {
        const struct niw_view *view = &link->view;
        uint64_t *since = &to_collect_since[link->settings.number - 1];
        bool due = (view->state & NIW_STATE_DISTRIBUTING) != 0 && !view->defaulted && (view->partner_state & NIW_STATE_COLLECTING) == 0;
        if (!due || *since == 0) *since = due ? time : 0;
    }
}

/* Whether what goes on a port now may come before its partner took the LACPDU by which it collects. One that does not say so in time is believed
 * to collect. */
bool awaits_collecting(const struct carry *carry, uint16_t port) {
    uint64_t since = carry->to_collect_since[port - 1];
    return since != 0 && carry->time - since < COLLECTS_WITHIN;
}

/* Chooses by what the ports are now: the aggregator that carries the data is that of the bundle, unless that is down. */
void choose_ports_and_tell_host(struct plane *plane) {
    struct carry *carry = plane->carry;
    struct bundle now = {0};
    uint16_t before = carry->active;
    read_views_and_count(carry->core, carry->ports);
    choose_aggregator(carry->core, &carry->protocol->choice, carry->protocol, &now);
    carry->active = now.carrying >= carry->settings->min_links ? now.aggregator : 0;
    note_partners_to_collect(carry->to_collect_since, carry->ports, carry->time);
    carry->active_count = list_active_ports(carry, false, carry->active_ports);
    if (carry->active_count == 0) carry->active_count = list_active_ports(carry, true, carry->active_ports); /* while there is no other */
    if (before != 0 && carry->active != 0 && before != carry->active) carry->counts[SWITCHES]++;
    if ((before == 0) != (carry->active == 0))
        (void)say(carry->core->printer, LOG_NOTICE | ABOUT_CARRIER, "carry %s: carrier %s", carry->settings->carry, carry->active ? "on" : "off");
    if (before != carry->active) count_and_forget_heard(carry);
    if (before != carry->active && carry->active != 0) announce_soon(&carry->announce);
    CALL(plane->carrying->tell_host, plane);
}

/* The last daemon carried in this aggregator, and the peer does, too. */
void recall_active_aggregator(struct carry *carry, uint16_t aggregator) {
    for (unsigned i = 0; i < NIW_MOST_PORTS; i++) carry->to_collect_since[i] = 1; /* long ago: what distributes already waits for nothing */
    carry->time = carry->heard_at = milliseconds();
    carry->active = carry->previous = aggregator;
}

/* Another aggregator is active: what is on a port of the previous one leaves it, behind a marker. Its frames wait until it is free there.
 * One for which no marker is left goes on after a rest. Answers whether markers may be due. */
bool leave_previous(struct carry *carry) {
    uint16_t left = carry->previous;
    uint16_t ports[CONVERSATIONS];
    if (carry->active == 0 || carry->active == left) return false;
    carry->previous = carry->active;
    if (!ask_ports(carry->core, left, ports)) return false;
    for (uint16_t number = 0; number < CONVERSATIONS; number++) {
        uint32_t status = ports[number] == 0 ? NIW_OK : niw_leave_conversation(&carry->core->system, left, number);
        if (status != NIW_MARKERS_SPENT && !is_done(carry->core, status, "niw_leave_conversation")) return false;
    }
    return true;
}

void note_heard(struct carry *carry) {
    uint64_t heard = ASK(carry->plane->carrying->frames_heard, 0, carry->plane, false);
    if (heard != carry->heard_before && carry->active != 0) carry->heard_at = carry->time;
    if (heard != carry->heard_before) carry->elsewhere = 0;
    carry->heard_before = heard;
}

/* After calls that may have changed something: the active aggregator, and what goes on in it. */
void settle_carry_or_lose_member(struct plane *plane) {
    if (plane->carry->core->broken || !plane->changed) return;
    plane->changed = false;
    CALL(plane->carrying->settle, plane);
}

/* A port on defaults sends an LACPDU each 30 s only, so a link that was silent for more than 6 s would be long in coming back. As one
 * whose link came up it sends one each second. It is done to ports that carry nothing, after a second, and then after twice as long each
 * time. */
static void wake_port_on_defaults(struct carry *carry, const struct link *link) {
    uint16_t port = link->settings.number;
    bool sleeps = link->up && link->view.receive_state == NIW_RECEIVE_DEFAULTED && (carry->active == 0 || link->view.aggregator != carry->active);
    unsigned *after = &carry->wakes_after[port - 1], *ticks = &carry->on_defaults[port - 1];
    uint64_t load;
    if (link->view.receive_state == NIW_RECEIVE_CURRENT || *after == 0) *after = FIRST_WAKE;
    *ticks = sleeps ? *ticks + 1 : 0;
    if (*ticks < *after || !is_told(carry->core, niw_load(&carry->core->system, port), "niw_load", &load) || load > 0)
        return;
    *after = 2 * *after < LAST_WAKE ? 2 * *after : LAST_WAKE;
    if (!is_done(carry->core, niw_set_link(&carry->core->system, port, false), "niw_set_link")) return;
    if (!is_done(carry->core, niw_set_link(&carry->core->system, port, true), "niw_set_link")) return;
    *ticks = 0;
    carry->counts[WOKEN]++;
}

void begin_carry_tick_and_announce(struct printer *printer, uint64_t *time, unsigned *carrier_ticks, struct announce *announce,
    const struct device *device) {
    *time = milliseconds();
    pass_tap_tick(printer, carrier_ticks, device);
    pass_announcing_tick(printer, announce, device);
}

void end_carry_tick_and_wake_ports(struct carry *carry) {
    EACH_LINK_AS_IS(link, carry->ports)
        if (!carry->core->broken) wake_port_on_defaults(carry, link);
    carry->plane->changed = carry->to_balance = true;
}
