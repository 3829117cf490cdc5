/* A file that is read again: what the library can change is changed, and of the rest a line says that it needs a restart. */
#include "state.h"

/* What cannot be changed without a restart, or NULL. */
static const char *restart_for(const struct settings *now, const struct keys *keys, const struct settings *wanted) {
    for (const struct key *key = BUNDLE_KEYS; key->name; key++)
        if (key->restart && !is_same_value(key, wanted, now)) return key->restart;
    for (uint16_t port = 1; port <= wanted->port_count; port++)
        if (wanted->ports[port - 1].name[0] && !has_aggregator(keys, port_of(wanted, port).key)) return "a key that no port had at the start";
    return NULL;
}

/* A port goes from the short timeout to the long one. Its partner, once told, may send its next LACPDU 30 s later (Slow_Periodic_Time, IEEE
 * 802.1AX-2014, 6.4.4), and current_while has the rest of the short timeout: the last LACPDU comes again, as the partner will send it, and starts the
 * timer with the long one. It is kept so for the next daemon. No frame came, so nothing is counted. An LACPDU that is too old for the short timeout
 * does not come again, nor one whose actor may no longer be the partner. Answers whether the library took that. */
static bool take_lacpdu_again(struct core *core, struct link *link) {
    uint16_t port = link->settings.number;
    uint8_t response[NIW_FRAME];
    struct system_id actor;
    if (link->view.receive_state != NIW_RECEIVE_CURRENT || !lacpdu_holds(boottime(), link->lacpdu_at, true)
        || !may_be_partner(link, link->lacpdu, &actor))
        return true;
    link->lacpdu[PARTNER_STATE] &= (uint8_t)~NIW_STATE_TIMEOUT;
    struct niw_received received = niw_receive(&core->system, port, link->lacpdu, sizeof link->lacpdu, response, sizeof response);
    return is_done(core, received.status, "niw_receive");
}

/* Gives a port what the library can change; answers whether anything differs. The aggregators keep the keys that they were made with: a port
 * that is given another key keeps the one that it has. */
bool change_port(struct protocol *protocol, struct link *link, const struct settings *wanted) {
    uint16_t port = link->settings.number;
    struct niw_port *now = &link->settings, next = port_of(wanted, port);
    struct niw_change change = {.priority = next.priority, .aggregatable = next.aggregatable};
    bool hold = wants_hold(wanted, port);
    read_views_and_count(protocol->core, protocol->ports);
    if (has_aggregator(&protocol->keys, next.key)) link->key = next.key;
    change.key = choose_key(&protocol->keys, protocol->ports, protocol->settings, link);
    struct niw_truth answer = niw_configure(&protocol->core->system, port, &change);
    bool changed = is_done(protocol->core, answer.status, "niw_configure") && answer.is;
    if (changed) {
        now->key = change.key;
        now->priority = change.priority;
        now->aggregatable = change.aggregatable;
    }
    if ((next.active != now->active || next.short_timeout != now->short_timeout)
        && is_done(protocol->core, niw_set_mode(&protocol->core->system, port, next.active, next.short_timeout), "niw_set_mode")
        && (!now->short_timeout || next.short_timeout || take_lacpdu_again(protocol->core, link))) {
        now->active = next.active;
        now->short_timeout = next.short_timeout;
        changed = true;
    }
    if (link->held == hold) return changed;
    link->held = hold;
    return begin_emptying_or_apply_hold(protocol, link) || changed;
}

/* Who may be the partner changes for each link at once. One that is no longer pinned is so by who speaks next. */
static void change_policy(struct settings *now, struct ports *ports, const struct settings *wanted) {
    bool same = wanted->policy == now->policy && is_same_system(&wanted->partner, &now->partner);
    now->policy = wanted->policy;
    now->partner = wanted->partner;
    if (same) return;
    EACH_LINK(link, ports) {
        forget_partner(now, link);
        if (now->policy != PARTNER_FIRST || !link->up || link->view.defaulted) continue;
        link->pinned = true;
        link->partner = partner_of(&link->view);
    }
}

/* A port is another one than it was: it goes, comes or changes. Answers whether anything differs. */
static bool join_leave_or_change_port_and_drain(struct protocol *protocol, uint16_t port, const struct settings *wanted) {
    struct link *link = &protocol->ports->links[port - 1];
    bool was_leaving = link->leaving, is_wanted = wanted->ports[port - 1].name[0] != 0;
    if (!link->used && (!is_wanted || !has_aggregator(&protocol->keys, port_of(wanted, port).key))) return false;
    if (!link->used) {
        join_port_and_ask_now(protocol, link, &wanted->ports[port - 1]);
        return true;
    }
    if (!is_wanted && wanted->follow && link->socket >= 0) {
        link->followed = true;
        return false;
    }
    if (!is_wanted) {
        leave_port(protocol, link);
        return !was_leaving;
    }
    stay_port(protocol, link);
    link->followed = false;
    protocol->settings->ports[port - 1] = wanted->ports[port - 1];
    return change_port(protocol, link, wanted) || was_leaving;
}

/* Takes what can be changed; answers how many ports have something else now. */
static unsigned apply_settings(struct protocol *protocol, const struct settings *wanted) {
    struct settings *now = protocol->settings;
    bool alike = true; /* whether data is carried in the same way: what only one way has is taken with it, at a restart */
    unsigned changed = 0;
    for (const struct key *key = BUNDLE_KEYS; key->name; key++)
        alike = alike && (key->change != WAY_OF_DATA || is_same_value(key, wanted, now));
    now->active = wanted->active;
    now->short_timeout = wanted->short_timeout;
    now->port_priority = wanted->port_priority;
    if (has_aggregator(&protocol->keys, wanted->key)) now->key = wanted->key;
    change_policy(now, protocol->ports, wanted);
    for (uint16_t port = 1; port <= protocol->ports->slots; port++) changed += join_leave_or_change_port_and_drain(protocol, port, wanted);
    limit_links(protocol, wanted->config.max_links);
    if (wanted->select != now->select) ask_links(&protocol->changes, protocol->ports); /* for their speeds */
    for (const struct key *key = BUNDLE_KEYS; key->name; key++)
        if (key->change == AT_ONCE || (key->change == WITH_DATA && alike)) copy_setting(key, wanted, now);
    EACH_LINK(link, protocol->ports) {
        link->changed = true;
        if (wanted->select != SELECT_BANDWIDTH && !now->key_by_speed) link->has_speed = false; /* nobody reads it any more */
    }
    return changed;
}

/* Reads a file; answers whether it is right. The system that an interface gave its address at the start keeps it. */
static bool read_file_again(struct process *process, const char *file, struct settings *wanted) {
    if (!read_bundle_file(&process->printer, &process->words, file, wanted)) return false;
    if (!wanted->system_auto || !process->settings->system_auto) return true;
    memcpy(wanted->config.mac, process->settings->config.mac, sizeof wanted->config.mac);
    return check_whole_bundle(&process->printer, file, wanted);
}

/* Reads the file again. One that is wrong changes nothing. */
void reload(struct protocol *protocol, const char *file) {
    struct settings wanted;
    notify("RELOADING=1");
    if (!read_file_again(protocol->process, file, &wanted)) {
        complain(protocol->core->printer, "%s: the file is wrong, and nothing is changed", file);
    } else if (!place_ports(protocol->process, protocol->ports, &wanted)) {
        (void)say(protocol->core->printer, LOG_WARNING | ABOUT_RESTART,
            "%s: more ports than there is room for: a restart of this bundle is needed, and nothing is changed", file);
    } else {
        const char *rest = restart_for(protocol->settings, &protocol->keys, &wanted);
        unsigned changed = apply_settings(protocol, &wanted);
        (void)say(protocol->core->printer, LOG_NOTICE | ABOUT_RELOAD, "%s: read again, %u ports changed", file, changed);
        if (rest) (void)say(protocol->core->printer, LOG_WARNING | ABOUT_RESTART, "%s: %s: a restart of this bundle is needed", file, rest);
        send_due_and_read_views(protocol);
    }
    notify_bundle(&protocol->bundle, READY);
}
