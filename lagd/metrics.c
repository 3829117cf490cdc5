/* Counts and states in the text form of Prometheus. */
#include "control.h"

void add_head(struct report *report, const char *name, const char *kind, const char *help) {
    add(report, "# HELP lagd_%s %s\n# TYPE lagd_%s %s\n", name, help, name, kind);
}

/* The value of a label: any octet that is not printable ASCII becomes '?'. */
static void add_label(struct report *report, const char *name, const char *text) {
    add(report, "%s=\"", name);
    for (; *text; text++) {
        unsigned char octet = (unsigned char)*text;
        if (octet == '"' || octet == '\\') add(report, "\\");
        add(report, "%c", octet < 0x20 || octet > 0x7e ? '?' : octet);
    }
    add(report, "\"");
}

void add_value_of(struct report *report, const char *name, const char *bundle, uint64_t value) {
    add(report, "lagd_%s{", name);
    add_label(report, "bundle", bundle);
    add(report, "} %" PRIu64 "\n", value);
}

void add_bundle_value(struct report *report, const char *bundle, const char *name, const char *kind, const char *help, uint64_t value) {
    add_head(report, name, kind, help);
    add_value_of(report, name, bundle, value);
}

void add_port_value(struct report *report, const char *bundle, const char *name, const struct link *link, uint64_t value) {
    add(report, "lagd_%s{", name);
    add_label(report, "bundle", bundle);
    add(report, ",");
    add_label(report, "interface", link->name);
    add(report, ",port=\"%u\"} %" PRIu64 "\n", link->settings.number, value);
}

/* A value for each state of the bundle. */
static void add_state_values(struct report *report, const char *bundle, const char *name, const char *kind, const char *help, const uint64_t *values) {
    add_head(report, name, kind, help);
    for (unsigned state = 0; state < BUNDLE_STATES; state++) {
        add(report, "lagd_%s{", name);
        add_label(report, "bundle", bundle);
        add(report, ",state=\"%s\"} %" PRIu64 "\n", BUNDLE_STATE_TEXTS[state], values[state]);
    }
}

/* A metric that each port has; `value` is that of `link`. */
#define ADD_METRIC(report, control, metric, kind, help, link, value) do { \
        add_head(report, metric, kind, help); \
        EACH_LINK_AS_IS(link, (control)->ports) \
            if (link->used) add_port_value(report, (control)->settings->name, metric, link, value); \
    } while (0)

/* What a port has, beside its counts. */
static void add_gauges(struct report *report, const struct control *control) {
    const struct protocol *protocol = control->protocol;
    ADD_METRIC(report, control, "port_link_up", "gauge", "whether the link is up", link, link->up);
    ADD_METRIC(report, control, "port_carrying", "gauge", "whether the port carries", link, carries(protocol, link));
    ADD_METRIC(report, control, "port_has_partner", "gauge", "whether the port has a partner, and does not run on defaults", link, !link->view.defaulted);
    ADD_METRIC(report, control, "port_status", "gauge", "why the port does not distribute: 0 where it does", link, facts_of(protocol, link).status);
    ADD_METRIC(report, control, "port_aggregator", "gauge", "the aggregator of the port, or 0", link, link->view.aggregator);
    ADD_METRIC(report, control, "port_actor_churn", "gauge", "whether the link has been up for 60 s, and the own side not synchronized",
        link, link->churn.actor.state == NIW_CHURN_CHURN);
    ADD_METRIC(report, control, "port_partner_churn", "gauge", "whether the link has been up for 60 s, and the partner not synchronized",
        link, link->churn.partner.state == NIW_CHURN_CHURN);
    ADD_METRIC(report, control, "port_last_change_timestamp_seconds", "gauge", "when the port changed last", link, (uint64_t)link->changed_at);
}

void write_metrics(struct report *report, const struct control *control) {
    const struct bundle *bundle = &control->protocol->bundle;
    const char *name = control->settings->name;
    uint64_t is_so[BUNDLE_STATES] = {0};
    is_so[bundle->state] = 1;
    add_state_values(report, name, "bundle_state", "gauge", "1 for the state of the bundle, 0 for the others", is_so);
    add_state_values(report, name, "bundle_state_changes_total", "counter", "how often the bundle came to be so", bundle->counts);
    add_bundle_value(report, name, "bundle_links", "gauge", "how many links the bundle has", bundle->links);
    add_bundle_value(report, name, "bundle_links_carrying", "gauge", "how many of them carry", bundle->carrying);
    add_bundle_value(report, name, "bundle_links_away", "gauge", "how many count as up by delay-down, while their carriers are away",
        count_away(control->ports));
    add_bundle_value(report, name, "bundle_min_links", "gauge", "with fewer the bundle is down", control->settings->min_links);
    add_bundle_value(report, name, "bundle_last_change_timestamp_seconds", "gauge", "when the state of the bundle changed last",
        (uint64_t)bundle->changed_at);
    add_gauges(report, control);
    for (unsigned count = 0; count < ALL_COUNTS; count++) {
        char metric[64];
        snprintf(metric, sizeof metric, "port_%s_total", COUNT_TEXTS[count].name);
        ADD_METRIC(report, control, metric, "counter", COUNT_TEXTS[count].help, link, count_at(link, count));
    }
    CALL(control->plane->carrying->show, report, control, AS_METRICS);
}
