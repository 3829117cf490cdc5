/* What is told of data: in the status, as JSON, and as metrics. */
#include "control.h"

static const struct count_text CARRY_COUNTERS[] = {EACH_CARRY_COUNT(COUNT_TEXT)};
static const struct count_text MEMBER_COUNTERS[] = {EACH_MEMBER_COUNT(COUNT_TEXT)};

static const char *answering_text(enum answering peer) {
    static const char *const texts[] = {[NOT_ASKED] = "not asked", [ASKED] = "asked", [ANSWERS] = "answered", [MUTE] = "not answered"};
    return texts[peer];
}

void show_markers(struct report *report, const struct control *control) {
    add(report, "markers %s, ", answering_text(control->carry->probe.peer));
}

/* What waits in the daemon, and what does not come there. */
void show_frames_waiting(struct report *report, const struct control *control, enum form form) {
    const struct niw_counts counts = niw_queue_counts(&control->plane->tap->held.queues);
    const uint64_t waiting = counts.waiting;
    unsigned fast = 0;
    if (!note_answer(report, counts.status, "niw_queue_counts")) return;
    for (unsigned i = 0; i < CONVERSATIONS; i++) fast += control->carry->conversations[i].fast.port > 0;
    switch (form) {
    case AS_TEXT: add(report, "\n  waiting: %" PRIu64 ", conversations of the kernel: %u\n", waiting, fast); break;
    case AS_JSON:
        add(report, "\"markers\":\"%s\",\"waiting\":%" PRIu64 ",\"fast_conversations\":%u", answering_text(control->carry->probe.peer),
            waiting, fast);
        break;
    case AS_METRICS:
        add_bundle_value(report, control->settings->name, "carry_waiting", "gauge", "how many frames wait", waiting);
        add_bundle_value(report, control->settings->name, "carry_fast_conversations", "gauge", "how many conversations the kernel passes on", fast);
    }
}

/* What waits where the driver holds no frame. */
void show_waiting_buckets(struct report *report, const struct control *control, enum form form) {
    unsigned waiting = count_waiting_buckets(control->plane->team);
    switch (form) {
    case AS_TEXT: add(report, "\n  waiting: %u conversations, until they are still\n", waiting); break;
    case AS_JSON: add(report, "\"waiting_conversations\":%u", waiting); break;
    case AS_METRICS:
        add_bundle_value(report, control->settings->name, "carry_waiting_conversations", "gauge", "how many conversations wait until they are still",
            waiting);
    }
}

void show_queues(struct report *report, const struct control *control, const struct link *link, enum form form) {
    add(report, form == AS_JSON ? ",\"queues\":%u" : " queues %u", member_queues(&control->plane->tap->members[link->settings.number - 1]));
}

static void write_text_of_carry(struct report *report, const struct control *control) {
    const struct carrying *carrying = control->plane->carrying;
    const struct settings *settings = control->settings;
    const char *carrier = has_carrier(control->device) ? "on" : control->protocol->halt.down ? "off, the device is down" : "off";
    unsigned told = 0;
    add(report, "  carry: %s, carrier %s, hash %s, flight %u ms, ", settings->carry, carrier, HASHES[settings->hash], settings->flight);
    CALL(carrying->show_markers, report, control);
    add(report, "%s%s", control->plane->way, control->plane->queueing->text);
    for (unsigned i = carrying->first_count; i < carrying->end_count; i++)
        add(report, "%s %s %" PRIu64, told++ % 5 == 0 ? "\n  data:" : "", CARRY_COUNTERS[i].name, control->carry->counts[i]);
    CALL(carrying->show_waiting, report, control, AS_TEXT);
}

static void write_json_of_carry(struct report *report, const struct control *control) {
    const struct carrying *carrying = control->plane->carrying;
    add(report, "\"carry\":{\"device\":");
    add_string(report, control->settings->carry);
    add(report, ",\"up\":%s,\"carrier\":%s,\"aggregator\":%u,\"hash\":\"%s\",\"flight\":%u,\"way\":\"%s\",",
        control->protocol->halt.down ? "false" : "true", has_carrier(control->device) ? "true" : "false", control->carry->active,
        HASHES[control->settings->hash], control->settings->flight, control->plane->way);
    CALL(carrying->show_waiting, report, control, AS_JSON);
    for (unsigned i = carrying->first_count; i < carrying->end_count; i++)
        add(report, ",\"%s\":%" PRIu64, CARRY_COUNTERS[i].name, control->carry->counts[i]);
    add(report, "},");
}

static void write_metrics_of_carry(struct report *report, const struct control *control) {
    const struct carrying *carrying = control->plane->carrying;
    char name[64];
    add_bundle_value(report, control->settings->name, "carry_carrier", "gauge", "whether the device has a carrier", has_carrier(control->device));
    CALL(carrying->show_waiting, report, control, AS_METRICS);
    for (unsigned i = carrying->first_count; i < carrying->end_count; i++) {
        bool most = i == LONGEST_QUEUE;
        snprintf(name, sizeof name, "carry_%s%s", CARRY_COUNTERS[i].name, most ? "" : "_total");
        add_bundle_value(report, control->settings->name, name, most ? "gauge" : "counter", CARRY_COUNTERS[i].help, control->carry->counts[i]);
    }
    for (unsigned i = 0; i < carrying->member_counts; i++) {
        snprintf(name, sizeof name, "port_%s_total", MEMBER_COUNTERS[i].name);
        add_head(report, name, "counter", MEMBER_COUNTERS[i].help);
        EACH_LINK_AS_IS(link, control->ports)
            if (link->used)
                add_port_value(report, control->settings->name, name, link, control->plane->tap->members[link->settings.number - 1].counts[i]);
    }
}

void show_carry(struct report *report, const struct control *control, enum form form) {
    switch (form) {
    case AS_TEXT: write_text_of_carry(report, control); break;
    case AS_JSON: write_json_of_carry(report, control); break;
    case AS_METRICS: write_metrics_of_carry(report, control);
    }
}

/* And of a member, which has no metrics of its own. */
void show_member(struct report *report, const struct control *control, const struct link *link, enum form form) {
    const struct carry *carry = control->carry;
    unsigned busy = 0;
    for (unsigned i = 0; i < CONVERSATIONS; i++)
        busy += is_busy(carry, &carry->conversations[i]) && carry->conversations[i].port == link->settings.number;
    add(report, form == AS_JSON ? ",\"data\":{\"busy_conversations\":%u" : "  data: busy_conversations %u", busy);
    for (unsigned i = 0; i < control->plane->carrying->member_counts; i++)
        add(report, form == AS_JSON ? ",\"%s\":%" PRIu64 : " %s %" PRIu64, MEMBER_COUNTERS[i].name,
            control->plane->tap->members[link->settings.number - 1].counts[i]);
    CALL(control->plane->queueing->show, report, control, link, form);
    add(report, form == AS_JSON ? "}" : "\n");
}
