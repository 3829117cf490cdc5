/* Links whose partners name one port of one system, as no system has: two hosts were given the same system. */
#include "lagd.h"

/* For how many seconds they do so before they are told of: cables may have been changed over, and the LACPDUs of one tell of it first. */
#define SECONDS 5

static bool has_same_partner(const struct niw_view *one, const struct niw_view *other) {
    return one->receive_state == NIW_RECEIVE_CURRENT && other->receive_state == NIW_RECEIVE_CURRENT
        && one->partner_priority == other->partner_priority && one->partner_port == other->partner_port
        && memcmp(one->partner_mac, other->partner_mac, sizeof one->partner_mac) == 0;
}

/* The first other port whose partner names the same port, or 0. */
static uint16_t twin_of(const struct ports *ports, const struct link *link) {
    for (uint16_t i = 0; i < ports->count; i++)
        if (&ports->links[i] != link && has_same_partner(&link->view, &ports->links[i].view)) return ports->links[i].settings.number;
    return 0;
}

void note_twins_and_tell_new(struct printer *printer, struct ports *ports) {
    EACH_LINK(link, ports) {
        uint16_t twin = twin_of(ports, link);
        link->twin_seconds = twin == 0 ? 0 : link->twin_seconds + 1;
        if (twin == 0 || link->twin_seconds >= SECONDS) link->twin = twin;
        if (link->twin_seconds != SECONDS) continue;
        struct system_id partner = partner_of(&link->view);
        (void)say(printer, LOG_WARNING | ABOUT_STRANGER,
            "port %u %s: its partner is port %u of %s, and so is that of port %u %s: two hosts may have this system", link->settings.number,
            link->name, link->view.partner_port, system_text(&partner, TEXT_ROOM), twin, ports->links[twin - 1].name);
    }
}
