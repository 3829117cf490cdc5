/* What is told of ports: how each one is, and a line for each change. */
#include "lagd.h"

/* The status of a port, with what the library does not know of it. */
static uint8_t status_of(const struct protocol *protocol, const struct link *link) {
    uint8_t status = link->view.port_status;
    if (link->socket < 0) return link->outside ? OUTSIDE : MISSING;
    if (protocol->halt.down) return DEVICE_DOWN;
    if (link->leaving) return LEAVES;
    if (link->waits) return RESTORING;
    if (status != NIW_PORT_STATUS_DISTRIBUTING) return status;
    if (link->view.defaulted && protocol->settings->partner_required) return PARTNER_WANTED;
    if (link->away) return AWAY;
    return link->view.defaulted ? WITHOUT_PARTNER : status;
}

bool carries(const struct protocol *protocol, const struct link *link) {
    uint8_t status = status_of(protocol, link);
    return status == NIW_PORT_STATUS_DISTRIBUTING || status == WITHOUT_PARTNER || status == AWAY;
}

uint16_t count_away(const struct ports *ports) {
    uint16_t count = 0;
    EACH_LINK_AS_IS(link, ports) count = (uint16_t)(count + link->away);
    return count;
}

struct facts facts_of(const struct protocol *protocol, const struct link *link) {
    const struct niw_view *view = &link->view;
    return (struct facts){
        .status = status_of(protocol, link),
        .aggregator = view->aggregator,
        .defaulted = view->defaulted,
        .partner = partner_of(view),
        .partner_key = view->partner_key,
        .partner_port = view->partner_port,
        .trouble = link->trouble,
    };
}

/* Counts what became of a port. Its link that comes up has it EXPIRED, as one does of which no LACPDU came in time. */
static void count_change(uint64_t counts[static COUNTS], const struct niw_view *before, const struct niw_view *now) {
    if (now->receive_state == NIW_RECEIVE_EXPIRED && before->receive_state == NIW_RECEIVE_CURRENT) counts[EXPIRED]++;
    if (now->receive_state == NIW_RECEIVE_DEFAULTED && before->receive_state != NIW_RECEIVE_DEFAULTED) counts[DEFAULTED]++;
    if (now->mux_state == NIW_MUX_COLLECTING_DISTRIBUTING && before->mux_state != NIW_MUX_COLLECTING_DISTRIBUTING) counts[DISTRIBUTED]++;
}

void read_views_and_count(struct core *core, struct ports *ports) {
    struct niw_view views[NIW_MOST_PORTS];
    uint64_t changed;
    if (!is_told(core, niw_views(&core->system, views, NIW_MOST_PORTS), "niw_views", &changed)) return;
    EACH_LINK(link, ports) {
        const struct niw_view *now = &views[link->settings.number - 1];
        if (!(changed >> (link->settings.number - 1) & 1)) continue;
        count_change(link->counts, &link->view, now);
        link->view = *now;
        link->changed = true;
    }
}

static bool is_same_facts(const struct facts *one, const struct facts *other) {
    return one->status == other->status && one->aggregator == other->aggregator && one->defaulted == other->defaulted
        && one->trouble == other->trouble && is_same_system(&one->partner, &other->partner) && one->partner_key == other->partner_key
        && one->partner_port == other->partner_port;
}

static bool find_holder_and_print_facts(struct printer *printer, const struct ports *ports, const struct link *link, const struct facts *facts,
    bool watchers_told) {
    char whose[96] = "no partner", system[32], trouble[128] = "", holder[HOLDER_ROOM];
    int level = (facts->status == NIW_PORT_STATUS_DISTRIBUTING ? LOG_NOTICE : LOG_WARNING) | (watchers_told ? WATCHED : 0) | ABOUT_PORT;
    if (!facts->defaulted)
        snprintf(whose, sizeof whose, "partner %s key %u port %u", system_text(&facts->partner, system), facts->partner_key, facts->partner_port);
    if (link->trouble == EADDRINUSE)
        snprintf(trouble, sizeof trouble, ", another lagd has the interface: %s", holder_of(ports, link->index, holder));
    else if (link->trouble)
        snprintf(trouble, sizeof trouble, ", %s", strerror(link->trouble));
    return say(printer, level, "port %u %s: %s, aggregator %u, %s%s", link->settings.number, link->name, status_text(facts->status),
        facts->aggregator, whose, trouble);
}

/* Looks at a port, and prints it if it changed; answers whether it did. What could not be printed is looked at again. */
bool print_change(struct core *core, const struct protocol *protocol, struct link *link) {
    struct facts facts = facts_of(protocol, link);
    bool same = link->reported && is_same_facts(&facts, &link->printed), watched = link->watched && is_same_facts(&facts, &link->shown);
    if (!core->printer->process->has_started || !link->used) return false;
    if (!same && !watched) {
        link->changed_at = time(NULL);
        write_report_and_tell_watchers(core, protocol->control, link);
    }
    link->watched = true;
    link->shown = facts;
    link->changed = !same && !find_holder_and_print_facts(core->printer, protocol->ports, link, &facts, watched);
    if (same || link->changed) return false;
    link->reported = true;
    link->printed = facts;
    return true;
}

/* Prints the ports that changed. What is printed too often is printed later. */
void print_changes_strangers_and_markers(struct core *core, const struct protocol *protocol, struct ports *ports) {
    EACH_LINK(link, ports) {
        if (link->changed && link->lines_left > 0 && print_change(core, protocol, link)) link->lines_left--;
        tell_strangers(core->printer, protocol->ticks, link);
        tell_markers(core->printer, protocol->ticks, link);
    }
}
