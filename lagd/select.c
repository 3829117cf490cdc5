/* Which aggregator carries: what each is worth by `select`, and that of a peer which sends in another one alone. */
#include "lagd.h"

#include <linux/ethtool.h>

/* For how long the peer may send in another aggregator alone, in milliseconds of ticks in which a frame came there. */
#define PATIENCE 3000

/* A system as a number: the lower one is the better one (IEEE 802.1AX-2014, 6.3.2). */
static uint64_t system_as_number(uint16_t priority, const uint8_t *mac) {
    uint64_t number = priority;
    for (unsigned i = 0; i < 6; i++) number = number << 8 | mac[i];
    return number;
}

/* What an aggregator is worth: all 0 where none of its ports carries. The identifier of a port is that of the end with the better system, so that
 * both ends put ports into the same order. */
struct worth worth_of(const struct protocol *protocol, uint16_t aggregator) {
    uint64_t own = system_as_number(protocol->settings->config.priority, protocol->settings->config.mac);
    struct worth worth = {0};
    EACH_LINK(link, protocol->ports) {
        const struct niw_view *view = &link->view;
        if (aggregator == 0 || view->aggregator != aggregator || !carries(protocol, link)) continue;
        uint64_t other = system_as_number(view->partner_priority, view->partner_mac);
        bool is_own = view->defaulted || own < other;
        uint64_t system = is_own ? own : other;
        uint32_t port = is_own ? (uint32_t)link->settings.priority << 16 | link->settings.number
                               : (uint32_t)view->partner_port_priority << 16 | view->partner_port;
        worth.has_partner = worth.has_partner || !view->defaulted;
        worth.partner = other;
        if (link->has_speed && link->speed.megabits != (uint32_t)SPEED_UNKNOWN) worth.megabits += link->speed.megabits;
        if (worth.links++ > 0 && (system > worth.system || (system == worth.system && port >= worth.port))) continue;
        worth.system = system;
        worth.port = port;
    }
    return worth;
}

/* Whether an aggregator is worth more than another one, which carried last if it `stays`. */
static bool is_worth_more(const struct settings *settings, const struct worth *one, const struct worth *other, bool stays) {
    bool enough = one->links >= settings->min_links;
    if (one->has_partner != other->has_partner) return one->has_partner;
    if (enough != (other->links >= settings->min_links)) return enough;
    if (settings->select == SELECT_BANDWIDTH && one->megabits != other->megabits) return one->megabits > other->megabits;
    if (settings->select == SELECT_BANDWIDTH && (one->links != other->links || stays)) return one->links > other->links;
    if (settings->select == SELECT_PRIORITY_STABLE && stays) return false;
    return one->system != other->system ? one->system < other->system : one->port < other->port;
}

/* The aggregator that is worth most, where `before` carried last. */
static uint16_t best_after(const struct protocol *protocol, uint16_t before) {
    struct worth best = worth_of(protocol, before);
    uint16_t chosen = best.links > 0 ? before : 0;
    EACH_LINK(link, protocol->ports) {
        uint16_t aggregator = link->view.aggregator;
        if (aggregator == chosen || !carries(protocol, link)) continue;
        struct worth now = worth_of(protocol, aggregator);
        if (now.links == 0 || (chosen != 0 && !is_worth_more(protocol->settings, &now, &best, chosen == before))) continue;
        best = now;
        chosen = aggregator;
    }
    return chosen;
}

/* The aggregator that carries, where `before` carried last; 0 for none. The library takes one on defaults only where none has a partner. If
 * a partner is required, its links do not carry, and the answer is 0. */
static uint16_t aggregator_after(struct core *core, const struct protocol *protocol, uint16_t before) {
    uint64_t aggregator;
    if (protocol->settings->select != SELECT_COUNT) return best_after(protocol, before);
    if (!is_told(core, niw_active_aggregator(&core->system, before), "niw_active_aggregator", &aggregator)) return 0;
    return worth_of(protocol, (uint16_t)aggregator).links > 0 ? (uint16_t)aggregator : 0;
}

/* Chooses the aggregator whose ports carry, and remembers it. By count the one that is kept stays among equals, whoever calls; else, of equals, it
 * is the one with the least group, so that the other end chooses it, too. Otherwise best_after chooses, and one in which the peer alone sends is
 * chosen as long as it carries. */
void choose_aggregator(struct core *core, struct choice *own, const struct protocol *protocol, struct bundle *now) {
    struct worth followed = worth_of(protocol, own->followed);
    bool stays = protocol->settings->select == SELECT_PRIORITY_STABLE || ASK(protocol->plane->carrying->keeps_aggregator, true, protocol->plane);
    if (protocol->settings->select == SELECT_COUNT || !followed.has_partner || followed.links < protocol->settings->min_links) own->followed = 0;
    own->last = now->aggregator = own->followed != 0 ? own->followed : aggregator_after(core, protocol, stays ? own->last : 0);
    now->carrying = worth_of(protocol, now->aggregator).links;
}

/* Whether no aggregator is preferred to this one, were it the one that carried last. By count none has a partner where this one has none, or more
 * ports. */
bool is_as_good_as_any(struct core *core, const struct protocol *protocol, uint16_t aggregator) {
    return aggregator != 0 && aggregator_after(core, protocol, aggregator) == aggregator;
}

/* For how long the partner of the active aggregator may send in another one alone until this end goes there, as PATIENCE has it; 0: for ever.
 * The end with the better system waits for longer, so that not both go. */
uint64_t patience_with(const struct protocol *protocol, uint16_t active, uint16_t other) {
    struct worth now = worth_of(protocol, active), next = worth_of(protocol, other);
    uint64_t own = system_as_number(protocol->settings->config.priority, protocol->settings->config.mac);
    if (protocol->settings->select == SELECT_COUNT || !next.has_partner || now.partner != next.partner) return 0;
    return own < now.partner ? 2 * PATIENCE : PATIENCE;
}

/* The peer sends in an aggregator that this end does not prefer, and in no other one: both ends go by it, or no data would arrive. */
void follow_peer(struct core *core, struct choice *own, const struct protocol *protocol, uint16_t aggregator) {
    own->last = aggregator;
    own->followed = aggregator_after(core, protocol, 0) == aggregator ? 0 : aggregator;
    if (own->followed == 0)
        (void)say(core->printer, LOG_NOTICE | ABOUT_BUNDLE, "bundle %s: the peer sends in aggregator %u: it carries",
            protocol->settings->name, aggregator);
    else
        (void)say(core->printer, LOG_WARNING | ABOUT_BUNDLE,
            "bundle %s: the peer sends in aggregator %u: it carries, whatever select=%s prefers", protocol->settings->name, aggregator,
            SELECTIONS[protocol->settings->select]);
}
