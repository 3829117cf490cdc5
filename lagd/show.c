/* The status as text, laid out as Open vSwitch lays out `ovs-appctl lacp/show`, and as JSON, as each change. */
#include "control.h"

#include <stdarg.h>

/* Adds to the report, as far as there is room. */
void add(struct report *report, const char *format, ...) {
    va_list given;
    va_start(given, format);
    int length = vsnprintf(report->text + report->length, sizeof report->text - report->length, format, given);
    va_end(given);
    report->length += (size_t)length < sizeof report->text - report->length ? (size_t)length : sizeof report->text - report->length - 1;
}

/* Adds a string of JSON. The kernel allows any octets in a name. */
void add_string(struct report *report, const char *text) {
    add(report, "\"");
    for (; *text; text++) {
        unsigned char octet = (unsigned char)*text;
        if (octet < 0x20 || octet > 0x7e || octet == '"' || octet == '\\')
            add(report, "\\u%04x", octet);
        else
            add(report, "%c", octet);
    }
    add(report, "\"");
}

/* A row: in the text `  NAME: VALUE`, in JSON `,"NAME":VALUE`. A form that has no name for it, and a text of no value, do without. */
static void add_row(struct report *report, enum form form, const char *text, const char *json, const char *value) {
    if (form == AS_TEXT && text && value) add(report, "  %s: %s\n", text, value);
    if (form == AS_JSON && json) add(report, ",\"%s\":%s", json, value ? value : "null");
}

/* The same of a value that is a text. */
static void add_text_row(struct report *report, enum form form, const char *text, const char *json, const char *words) {
    const char *name = form == AS_TEXT ? text : json;
    if (!words) add_row(report, form, text, json, NULL);
    if (words && name) add(report, form == AS_TEXT ? "  %s: %s\n" : ",\"%s\":\"%s\"", name, words);
}

static void add_number_row(struct report *report, enum form form, const char *text, const char *json, uint64_t number) {
    char digits[32];
    snprintf(digits, sizeof digits, "%" PRIu64, number);
    add_row(report, form, text, json, digits);
}

static void add_time_row(struct report *report, enum form form, time_t time) {
    char zoned[40];
    snprintf(zoned, sizeof zoned, "%sZ", time_text(time, TEXT_ROOM));
    add_text_row(report, form, "last change", "last_change", time ? zoned : NULL);
}

/* Which aggregator carries, and what each one has of what decides that. */
static void add_selection(struct report *report, const struct protocol *protocol) {
    enum selection by = protocol->settings->select;
    add(report, "  select: %s", SELECTIONS[by]);
    if (protocol->choice.followed != 0)
        add(report, ", but it follows the peer, which sends in aggregator %u alone", protocol->bundle.aggregator);
    for (uint16_t aggregator = 1; aggregator <= protocol->aggregator_count; aggregator++) {
        struct worth worth = worth_of(protocol, aggregator);
        if (worth.links == 0) continue;
        add(report, "; aggregator %u has %u links", aggregator, worth.links);
        if (by == SELECT_BANDWIDTH) add(report, " of %" PRIu64 " Mb/s", worth.megabits);
        if (by >= SELECT_PRIORITY) add(report, ", the best port %u,%u", worth.port >> 16, worth.port & UINT16_MAX);
    }
    add(report, "\n");
}

static void add_text_of_bundle(struct report *report, const struct control *control) {
    const struct settings *settings = control->settings;
    const struct bundle *bundle = &control->protocol->bundle;
    add(report, "---- %s ----\n", settings->name);
    add(report, "  status: %s, %u of %u links carry", BUNDLE_STATE_TEXTS[bundle->state], bundle->carrying, bundle->links);
    EACH_LINK_AS_IS(link, control->ports)
        if (link->away) add(report, ", but the carrier of %s is away", link->name);
    add(report, "\n");
    add(report, "  sys_id: %s\n  sys_priority: %u\n", mac_text(settings->config.mac, TEXT_ROOM), settings->config.priority);
    add(report, "  aggregation key: %u\n  lacp_time: %s\n", settings->key, settings->short_timeout ? "fast" : "slow");
    add(report, "  aggregator: %u\n  min_links: %u\n  max_links: %u\n", bundle->aggregator, settings->min_links, settings->config.max_links);
    add_selection(report, control->protocol);
    add(report, "  partner: %s%s\n", partner_text(settings, TEXT_ROOM), settings->partner_required ? ", required" : "");
    add_time_row(report, AS_TEXT, bundle->changed_at);
    add(report, "  uptime: %" PRIu64 " s, lagd %s\n", seconds_since(control->protocol->began), VERSION);
}

static void add_state(struct report *report, enum form form, uint64_t state) {
    static const char *const names[8] = {"activity", "timeout", "aggregation", "synchronized", "collecting", "distributing", "defaulted", "expired"};
    const char *between = "";
    for (unsigned bit = 0; bit < 8; bit++) {
        if (!(state >> bit & 1)) continue;
        add(report, form == AS_TEXT ? "%s %s" : "%s\"%s\"", between, names[bit]);
        if (form == AS_JSON) between = ",";
    }
    add(report, form == AS_TEXT ? "\n" : "]}");
}

/* One end of a port: its system, port number, priorities, key and state. */
static void add_side(struct report *report, enum form form, const char *whose, const uint8_t *mac, const unsigned numbers[static 4], uint64_t state) {
    if (form == AS_TEXT) {
        add(report, "\n  %s sys_id: %s\n  %s sys_priority: %u\n", whose, mac_text(mac, TEXT_ROOM), whose, numbers[0]);
        add(report, "  %s port_id: %u\n  %s port_priority: %u\n", whose, numbers[1], whose, numbers[2]);
        add(report, "  %s key: %u\n  %s state:", whose, numbers[3], whose);
    } else
        add(report, "\"key\":%u,\"port_priority\":%u,\"port\":%u,\"state\":[", numbers[3], numbers[2], numbers[1]);
    add_state(report, form, state);
}

/* Answers whether the library told something; of what it refuses the report keeps the first call. */
bool note_answer(struct report *report, uint32_t status, const char *call) {
    if (status == NIW_OK) return true;
    if (report->refusal == NIW_OK) {
        report->refusal = status;
        report->refused = call;
    }
    return false;
}

static void add_both_ends(struct report *report, enum form form, const struct niw_actor *own, const struct niw_view *view) {
    if (form == AS_JSON) add(report, ",\"actor\":{");
    add_side(report, form, "actor", own->system_mac, (unsigned[]){own->system_priority, own->port, own->port_priority, own->key}, view->state);
    if (form == AS_JSON)
        add(report, ",\"partner\":{\"defaulted\":%s,\"system_priority\":%u,\"system\":\"%s\",", view->defaulted ? "true" : "false",
            view->partner_priority, mac_text(view->partner_mac, TEXT_ROOM));
    add_side(report, form, "partner", view->partner_mac,
        (unsigned[]){view->partner_priority, view->partner_port, view->partner_port_priority, view->partner_key}, view->partner_state);
}

static void add_strangers(struct report *report, const struct ports *ports, const struct link *link, enum form form) {
    const struct strangers *others = &link->strangers;
    const char *twin = link->twin > 0 ? ports->links[link->twin - 1].name : NULL;
    add_text_row(report, form, "pinned to", "pinned", link->pinned ? system_text(&link->partner, TEXT_ROOM) : NULL);
    if (form == AS_TEXT && twin) add(report, "  partner port: that of %s, too\n", twin);
    if (form == AS_JSON) {
        add_row(report, form, NULL, "same_partner_port", twin ? "" : NULL);
        if (twin) add_string(report, twin);
    }
    if (!others->seen)
        add_row(report, form, NULL, "other_system", NULL);
    else
        add(report, form == AS_TEXT ? "  other system: %s from %s\n" : ",\"other_system\":{\"system\":\"%s\",\"source\":\"%s\"}",
            system_text(&others->system, TEXT_ROOM), mac_text(others->source, TEXT_ROOM));
}

static void add_counts(struct report *report, const struct link *link, enum form form) {
    add(report, form == AS_TEXT ? "\n" : ",\"counters\":{");
    for (unsigned i = 0; i < ALL_COUNTS; i++) {
        if (form == AS_TEXT)
            add(report, "%s %s %" PRIu64 "%s", i % 4 == 0 ? " " : "", COUNT_TEXTS[i].name, count_at(link, i), i % 4 == 3 || i == ALL_COUNTS - 1 ? "\n" : "");
        else
            add(report, "%s\"%s\":%" PRIu64, i ? "," : "", COUNT_TEXTS[i].name, count_at(link, i));
    }
    if (form == AS_JSON) add(report, "}");
}

/* The first fields of the object of a port, which name it. */
static void add_json_name(struct report *report, const struct link *link) {
    add(report, "{\"port\":%u,\"interface\":", link->settings.number);
    add_string(report, link->name);
    add(report, link->socket < 0 ? ",\"index\":null" : ",\"index\":%d", link->index);
    add(report, ",\"key\":%u", link->key);
}

static void add_link(struct report *report, const struct link *link, enum form form, uint16_t delay_down) {
    const char *name = link->socket < 0 ? "missing" : link->away ? "away" : link->up ? "up" : link->waits ? "waiting" : "down";
    char text[64];
    snprintf(text, sizeof text, link->away && form == AS_TEXT ? "%s for %" PRIu64 " of %u ms, while it counts as up" : "%s", name,
        milliseconds() - link->carried_at, delay_down);
    add_text_row(report, form, "link", "link", text);
}

static void add_member(struct report *report, const struct control *control, const struct link *link, enum form form) {
    struct niw_system *system = &control->core->system;
    const uint16_t port = link->settings.number;
    const struct niw_actor own = niw_party(system, port);
    const struct niw_number current_while = niw_current_while(system, port), wait_while = niw_wait_while(system, port);
    const char *receive = niw_receive_state_text(link->view.receive_state), *mux = niw_mux_state_text(link->view.mux_state);
    char text[40];
    if (!note_answer(report, own.status, "niw_party") || !note_answer(report, current_while.status, "niw_current_while")
        || !note_answer(report, wait_while.status, "niw_wait_while"))
        return;
    if (form == AS_TEXT) add(report, "\nmember: %s: %s, %s\n", link->name, receive, mux);
    else add_json_name(report, link);
    add_text_row(report, form, "status", "status", status_text(facts_of(control->protocol, link).status));
    add_row(report, form, "may_enable", "carries", carries(control->protocol, link) ? "true" : "false");
    if (form == AS_TEXT && link->trouble) add(report, "  trouble: %s\n", strerror(link->trouble));
    add_link(report, link, form, control->settings->delay_down);
    add_text_row(report, form, "address", "address", mac_text(link->mac, text));
    add_number_row(report, form, "port_id", NULL, own.port);
    add_number_row(report, form, "port_priority", NULL, own.port_priority);
    add_number_row(report, form, "aggregator", "aggregator", link->view.aggregator);
    add_text_row(report, form, NULL, "receive", receive);
    add_text_row(report, form, NULL, "mux", mux);
    add_number_row(report, form, "current_while", "current_while", current_while.number);
    add_number_row(report, form, "wait_while", "wait_while", wait_while.number);
    add_text_row(report, form, "actor_churn", "actor_churn", niw_churn_state_text(link->churn.actor.state));
    add_text_row(report, form, "partner_churn", "partner_churn", niw_churn_state_text(link->churn.partner.state));
    add_text_row(report, form, "speed", "speed", link->has_speed ? speed_text(&link->speed, text) : NULL);
    add_time_row(report, form, link->changed_at);
    add_strangers(report, control->ports, link, form);
    add_both_ends(report, form, &own, &link->view);
    add_counts(report, link, form);
    CALL(control->plane->carrying->show_member, report, control, link, form);
    if (form == AS_TEXT) return;
    add_row(report, form, NULL, "trouble", "");
    add_string(report, link->trouble ? strerror(link->trouble) : "");
    add(report, "}");
}

void write_text(struct report *report, const struct control *control) {
    add_text_of_bundle(report, control);
    CALL(control->plane->carrying->show, report, control, AS_TEXT);
    EACH_LINK_AS_IS(link, control->ports)
        if (link->used) add_member(report, control, link, AS_TEXT);
}

static void add_json_bundle(struct report *report, const struct control *control) {
    add(report, "\"bundle\":");
    add_string(report, control->settings->name);
    add(report, ",\"state\":\"%s\",\"links\":%u,\"carrying\":%u,\"away\":%u,\"aggregator\":%u",
        BUNDLE_STATE_TEXTS[control->protocol->bundle.state], control->protocol->bundle.links,
        control->protocol->bundle.carrying, count_away(control->ports), control->protocol->bundle.aggregator);
    add_time_row(report, AS_JSON, control->protocol->bundle.changed_at);
}

/* The whole status as JSON, in a line. */
void write_json(struct report *report, const struct control *control) {
    const struct settings *settings = control->settings;
    const char *between = "";
    add(report, "{\"lagd\":\"%s\",", VERSION);
    add_json_bundle(report, control);
    add(report, ",\"system_priority\":%u,\"system\":\"%s\"", settings->config.priority, mac_text(settings->config.mac, TEXT_ROOM));
    add(report, ",\"key\":%u,\"collector_max_delay\":%u", settings->key, settings->config.max_delay);
    add(report, ",\"min_links\":%u,\"max_links\":%u", settings->min_links, settings->config.max_links);
    add(report, ",\"select\":\"%s\",\"follows_peer\":%s,\"seconds\":%" PRIu64 ",", SELECTIONS[settings->select],
        control->protocol->choice.followed != 0 ? "true" : "false", seconds_since(control->protocol->began));
    CALL(control->plane->carrying->show, report, control, AS_JSON);
    add(report, "\"ports\":[");
    EACH_LINK_AS_IS(link, control->ports) {
        if (!link->used) continue;
        add(report, "%s", between);
        add_member(report, control, link, AS_JSON);
        between = ",";
    }
    add(report, "]}\n");
}

/* A change of a port, or of the bundle, where `link` is null, in a line. */
void write_json_event(struct report *report, const struct control *control, const struct link *link) {
    add(report, "{\"time\":\"%sZ\",\"event\":\"%s\",", time_text(time(NULL), TEXT_ROOM), link ? "port" : "bundle");
    if (link) {
        add(report, "\"bundle\":");
        add_string(report, control->settings->name);
        add(report, ",\"port\":");
        add_member(report, control, link, AS_JSON);
    } else {
        add_json_bundle(report, control);
    }
    add(report, "}\n");
}

/* The settings that hold now, as a file has them: without ports that leave, and those that the device alone has. */
void write_config(struct report *report, const struct control *control) {
    const char *value;
    add(report, "# %s\n[Bundle]\n", control->settings->name);
    for (const struct key *key = BUNDLE_KEYS; key->name; key++)
        if ((value = value_to_give(key, control->settings, TEXT_ROOM))) add(report, "%s=%s\n", key->name, value);
    EACH_LINK_AS_IS(link, control->ports) {
        const struct port_settings *port = &control->settings->ports[link - control->ports->links];
        if (!link->used || link->leaving || link->followed) continue;
        add(report, "\n[Port %s]\n", port->name);
        for (const struct key *key = PORT_KEYS; key->name; key++)
            if ((value = value_of_own(key, port, TEXT_ROOM))) add(report, "%s=%s\n", key->name, value);
    }
}
