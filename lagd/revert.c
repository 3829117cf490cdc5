/* Under max-links: a port that stands by takes the place of one with a higher identifier, and where the limit sinks, those with the highest
 * ones stand by. The library lets no port that is in use give way (IEEE 802.1AX-2014, 6.4.14 leaves that open), so it is held, which takes
 * it out of its aggregator, and let go, to stand by. */
#include "lagd.h"

/* The identifier of a port: its priority, and then its number (6.3.4). */
static uint32_t identifier_of(const struct link *link) {
    return (uint32_t)link->settings.priority << 16 | link->settings.number;
}

/* The port that stands by in an aggregator and takes the next place there, or NULL. */
static const struct link *next_of(const struct ports *ports, uint16_t aggregator) {
    const struct link *next = NULL;
    EACH_LINK_AS_IS(link, ports)
        if (link->view.aggregator == aggregator && link->view.standby && (!next || identifier_of(link) < identifier_of(next)))
            next = link;
    return next;
}

/* The port in use that gives way first in an aggregator with more of them than so many, or NULL. */
static const struct link *last_beyond(const struct ports *ports, uint16_t aggregator, uint16_t most) {
    const struct link *last = NULL;
    unsigned count = 0;
    EACH_LINK_AS_IS(link, ports) {
        if (link->view.aggregator != aggregator || link->view.standby || !link->up) continue;
        count++;
        if (!last || identifier_of(last) < identifier_of(link)) last = link;
    }
    return count > most ? last : NULL;
}

/* Whether each port in use distributes: where one is without data, a second one may not be. */
static bool all_distribute(const struct ports *ports, uint16_t aggregator) {
    bool all = true;
    EACH_LINK_AS_IS(link, ports)
        if (link->view.aggregator == aggregator && !link->view.standby) all = all && link->view.mux_state == NIW_MUX_COLLECTING_DISTRIBUTING;
    return all;
}

/* Whether a port that stands by would distribute at once: its partner speaks, and has selected it. A partner with a limit of its own may
 * have selected other links. */
static bool would_distribute(struct core *core, const struct link *link) {
    uint64_t ticks;
    return link->view.receive_state == NIW_RECEIVE_CURRENT && (link->view.partner_state & NIW_STATE_SYNCHRONIZATION)
        && is_told(core, niw_wait_while(&core->system, link->settings.number), "niw_wait_while", &ticks) && ticks == 0;
}

/* Holds the ports that are too many under a limit, which are marked; answers whether that is done. */
static bool hold_surplus(struct core *core, struct ports *ports, uint16_t aggregators, uint16_t most, bool *marked) {
    for (uint16_t aggregator = 1; aggregator <= aggregators; aggregator++)
        for (const struct link *last; (last = last_beyond(ports, aggregator, most));) {
            if (!is_done(core, niw_hold(&core->system, last->settings.number, true), "niw_hold")) return false;
            marked[last->settings.number - 1] = true;
            read_views_and_count(core, ports);
        }
    return true;
}

/* An aggregator has no more links than so many from now on; 0: any number. Where the limit sinks, what is too many stands by. */
void limit_links(struct protocol *protocol, uint16_t most) {
    bool marked[NIW_MOST_PORTS] = {false};
    if (most == protocol->settings->config.max_links) return;
    read_views_and_count(protocol->core, protocol->ports);
    if (most != 0 && !hold_surplus(protocol->core, protocol->ports, protocol->aggregator_count, most, marked)) return;
    if (!is_done(protocol->core, niw_set_max_links(&protocol->core->system, most), "niw_set_max_links")) return;
    protocol->settings->config.max_links = most;
    EACH_LINK_AS_IS(link, protocol->ports)
        if (marked[link - protocol->ports->links] && !apply_hold(protocol->core, link, protocol->halt.down)) return;
}

/* A second passed. One port gives way at most: it leaves its aggregator, and comes back to stand by. What is on its way there leaves it behind a
 * marker. */
void pass_revert_second(struct protocol *protocol) {
    if (!protocol->settings->revert || protocol->halt.down) return;
    read_views_and_count(protocol->core, protocol->ports);
    for (uint16_t aggregator = 1; aggregator <= protocol->aggregator_count; aggregator++) {
        const struct link *next = next_of(protocol->ports, aggregator), *last = last_beyond(protocol->ports, aggregator, 0);
        if (!next || !last || identifier_of(next) >= identifier_of(last)) continue;
        if (!all_distribute(protocol->ports, aggregator) || !would_distribute(protocol->core, next)) continue;
        if (!is_done(protocol->core, niw_hold(&protocol->core->system, last->settings.number, true), "niw_hold")) return;
        if (!apply_hold(protocol->core, last, protocol->halt.down)) return;
        (void)say(protocol->core->printer, LOG_NOTICE | ABOUT_PORT, "port %u %s: it makes way for port %u %s", last->settings.number, last->name,
            next->settings.number, next->name);
        send_due_and_read_views(protocol);
        return;
    }
}
