/* A link that comes back while others carry: it is up once its carrier was steady for a while. And one that goes for a moment: it stays up. */
#include "lagd.h"

/* Chooses the aggregator: answers whether so few links carry there that none may be kept waiting. One on defaults may lead nowhere. */
static bool choose_and_find_few(struct protocol *protocol) {
    struct bundle now = {0};
    unsigned sure = 0;
    choose_aggregator(protocol->core, &protocol->choice, protocol, &now);
    EACH_LINK(link, protocol->ports)
        sure += now.aggregator != 0 && link->view.aggregator == now.aggregator && carries(protocol, link) && !link->view.defaulted;
    return sure < protocol->settings->min_links;
}

/* Answers whether a link that waits has waited long enough: before its time is over, the aggregator is chosen for that. */
static bool choose_aggregator_and_whether_over(struct protocol *protocol, const struct link *link) {
    return milliseconds() - link->steady_since >= protocol->settings->wait_to_restore * (uint64_t)1000 || choose_and_find_few(protocol);
}

void set_waiting(struct link *link, bool waits) {
    link->changed = link->changed || link->waits != waits;
    link->waits = waits;
}

/* The carrier of a link is there, and was so since the last call; answers whether the link is up, or has to wait. What is there at the start
 * does not wait. */
bool choose_aggregator_and_set_waiting(struct protocol *protocol, struct link *link) {
    if (link->up || !protocol->process->has_started) return true;
    if (!link->waits) link->steady_since = milliseconds();
    set_waiting(link, !choose_aggregator_and_whether_over(protocol, link));
    return !link->waits;
}

/* The carrier of a link is there, and had not gone since the last call. One that came back a moment ago may go again as soon: only where it was
 * steady for as long as it may be away, it may be so anew. */
void note_carrier(const struct settings *settings, struct link *link) {
    uint64_t now = milliseconds();
    if (now - link->returned_at >= settings->delay_down) link->carried_at = now;
}

/* Whether a carrier was not steady for as long as delay-down has it. */
static bool is_away_too_long(uint16_t delay_down, const struct link *link) {
    return milliseconds() - link->carried_at >= delay_down;
}

/* Answers whether a link waits no longer, as choose_aggregator_and_whether_over does: the kernel is asked then whether its carrier is still there, or
 * away. */
bool choose_aggregator_and_whether_waited(struct protocol *protocol, const struct link *link) {
    return (link->waits && choose_aggregator_and_whether_over(protocol, link))
        || (link->away && is_away_too_long(protocol->settings->delay_down, link));
}

/* The kernel told of a link whether its carrier is there, and whether it was lost since: answers whether the link stays up all the same. What is
 * there at the start counts as steady. For the library its port is operable for so long (port_enabled of IEEE 802.1AX-2014, 6.4.12, leaves to the
 * hardware when it is not). */
bool note_whether_stays_up(const struct process *process, struct link *link, bool carrier, bool lost) {
    bool spared = link->up && (lost || !carrier) && !is_away_too_long(process->settings->delay_down, link);
    if (carrier && (lost || link->away || (!link->up && !link->waits && process->has_started))) link->returned_at = milliseconds();
    if (carrier) note_carrier(process->settings, link);
    if (!spared && !carrier) return false;
    link->changed = link->changed || link->away != !carrier;
    link->away = !carrier;
    return spared;
}
