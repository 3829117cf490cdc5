/* The texts of what is counted and told. The texts of the library's statuses and states are those of lag.h. */
#include "lagd.h"

/* The counts of a port: those of the library, and behind them those of `enum count`. */
const struct count_text COUNT_TEXTS[ALL_COUNTS] = {EACH_LIBRARY_COUNT(COUNT_TEXT) EACH_PORT_COUNT(COUNT_TEXT)};

#define COUNT_PLACE(field, name, help) offsetof(struct link, field),
static const size_t PLACES_OF_COUNTS[] = {EACH_LIBRARY_COUNT(COUNT_PLACE)};

static const char *const OWN_STATUSES[] = {"the interface is missing", "it distributes without a partner",
    "a partner is required, and it has none", "the link is back, and waits for wait-to-restore",
    "the device is down", "it leaves the bundle", "it is not in the device", "its carrier is away, for less than delay-down so far"};

const char *status_text(unsigned status) {
    return status >= MISSING ? OWN_STATUSES[status - MISSING] : niw_port_status_text(status);
}

uint64_t count_at(const struct link *link, unsigned place) {
    uint64_t count;
    if (place >= LIBRARY_COUNTS) return link->counts[place - LIBRARY_COUNTS];
    memcpy(&count, (const char *)link + PLACES_OF_COUNTS[place], sizeof count);
    return count;
}

const char *const BUNDLE_STATE_TEXTS[BUNDLE_STATES] = {"down", "degraded", "up"};

const char *mac_text(const uint8_t *mac, char room[static 32]) {
    snprintf(room, 32, "%02x:%02x:%02x:%02x:%02x:%02x", mac[0], mac[1], mac[2], mac[3], mac[4], mac[5]);
    return room;
}

/* PRIORITY,MAC. */
const char *system_text(const struct system_id *system, char room[static 32]) {
    snprintf(room, 32, "%u,%.17s", system->priority, mac_text(system->mac, TEXT_ROOM));
    return room;
}

/* A time in UTC, without its zone. */
const char *time_text(time_t time, char room[static 32]) {
    struct tm date;
    gmtime_r(&time, &date);
    strftime(room, 32, "%Y-%m-%dT%H:%M:%S", &date);
    return room;
}
