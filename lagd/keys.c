/* The keys of ports and aggregators. Where links of another speed or duplex are to share no group, each speed has a key of its own. */
#include "lagd.h"

#include <linux/ethtool.h>
#include <linux/sockios.h>
#include <net/if.h>
#include <sys/ioctl.h>

/* The most speeds of one key, and the most words of the masks of link modes, which are of no interest here. */
#define MOST_SPEEDS 4
#define MOST_WORDS 127

/* Whether aggregators of a key were made, for ports to which it was given. */
bool has_aggregator(const struct keys *own, uint16_t given) {
    for (uint16_t i = 0; i < own->known_count; i++)
        if (own->known[i].given == given) return true;
    return false;
}

/* Whether a key is one of aggregators, or of a port that is not this one. */
static bool is_key_of_any(const struct keys *own, const struct ports *ports, uint16_t key, const struct link *but) {
    for (uint16_t i = 0; i < own->known_count; i++)
        if (own->known[i].key == key || own->known[i].given == key) return true;
    EACH_LINK_AS_IS(link, ports)
        if (link != but && (link->key == key || link->settings.key == key)) return true;
    return false;
}

/* The next key behind this one that no aggregator and no port has, but for this port, if there is one. */
uint16_t free_key(const struct keys *own, const struct ports *ports, uint16_t behind, const struct link *but) {
    do behind++;
    while (is_key_of_any(own, ports, behind, but));
    return behind;
}

/* Chooses how many speeds of one key have aggregators, by how many ports there are, and how many ports there may be. */
void choose_slots(struct keys *own, struct ports *ports, const struct settings *settings) {
    uint16_t fit = (uint16_t)(NIW_MOST_PORTS / (settings->port_count > 0 ? settings->port_count : 1));
    own->speeds = !settings->key_by_speed ? 1 : fit < MOST_SPEEDS ? fit : MOST_SPEEDS;
    ports->slots = (uint16_t)(NIW_MOST_PORTS / own->speeds);
}

/* A key of aggregators, for ports to which this one was given: the first one is that one itself. */
static uint16_t key_for(const struct keys *own, uint16_t given, uint16_t number) {
    for (uint16_t i = 0; i < own->known_count; i++)
        if (own->known[i].given == given && number-- == 0) return own->known[i].key;
    return given;
}

static void add_key(struct keys *own, uint16_t given, uint16_t key) {
    own->known[own->known_count++] = (struct speed_key){.given = given, .key = key};
}

/* Makes the keys of the aggregators: in the order of ports, of which those that are to come have the key of the bundle, one of the key of each,
 * and then as many of each further key that a speed may have; answers how many. */
uint16_t make_keys(struct keys *own, const struct ports *ports, uint16_t keys[static NIW_MOST_PORTS]) {
    uint16_t count = 0;
    for (uint16_t i = 0; i < ports->slots; i++)
        if (!has_aggregator(own, ports->links[i].key)) add_key(own, ports->links[i].key, ports->links[i].key);
    for (uint16_t i = 0, given = own->known_count; i < given; i++)
        for (uint16_t speed = 1; speed < own->speeds; speed++)
            add_key(own, own->known[i].given, free_key(own, ports, own->known[i].key, NULL));
    for (uint16_t speed = 0; speed < own->speeds; speed++)
        for (uint16_t port = 0; port < ports->slots; port++)
            keys[count++] = key_for(own, ports->links[port].key, speed);
    return count;
}

static bool is_same_speed(const struct speed *one, const struct speed *other) {
    return one->megabits == other->megabits && one->duplex == other->duplex;
}

static bool is_in_use(const struct ports *ports, const struct speed_key *key) {
    EACH_LINK_AS_IS(link, ports)
        if (key->used && link->has_speed && link->key == key->given && is_same_speed(&link->speed, &key->speed)) return true;
    return false;
}

/* Chooses the key of a port: that of its speed, else one whose speed no port has any more, else one without an aggregator. */
uint16_t choose_key(struct keys *own, const struct ports *ports, const struct settings *settings, const struct link *link) {
    struct speed_key *unused = NULL;
    if (!settings->key_by_speed || !link->has_speed) return link->key;
    for (uint16_t i = 0; i < own->known_count; i++) {
        struct speed_key *key = &own->known[i];
        if (key->given != link->key) continue;
        if (key->used && is_same_speed(&key->speed, &link->speed)) return key->key;
        if (!unused && !is_in_use(ports, key)) unused = key;
    }
    if (!unused) return free_key(own, ports, link->key, link);
    unused->used = true;
    unused->speed = link->speed;
    return unused->key;
}

union link_settings {
    struct ethtool_link_settings head;
    uint32_t room[sizeof(struct ethtool_link_settings) / sizeof(uint32_t) + 3 * MOST_WORDS];
};

/* Asks the driver of an interface something, or for something, by a socket that is there. */
static bool ask_by(int socket, int index, void *value) {
    struct ifreq request = {.ifr_ifindex = index};
    if (ioctl(socket, SIOCGIFNAME, &request) < 0) return false;
    request.ifr_data = value;
    return ioctl(socket, SIOCETHTOOL, &request) == 0;
}

bool call_driver(int index, void *value) {
    CLOSED_FILE int fd = socket(AF_UNIX, SOCK_DGRAM | SOCK_CLOEXEC, 0);
    return fd >= 0 && ask_by(fd, index, value);
}

/* The first answer is how many words a mask has, below 0. */
static bool read_link_settings(int socket, int index, union link_settings *told) {
    *told = (union link_settings){.room = {0}};
    told->head.cmd = ETHTOOL_GLINKSETTINGS;
    if (!ask_by(socket, index, told) || told->head.link_mode_masks_nwords >= 0) return false;
    told->head.link_mode_masks_nwords = (int8_t)-told->head.link_mode_masks_nwords;
    return ask_by(socket, index, told);
}

/* Asks the kernel for the speed and duplex of an interface. What a driver does not tell is unknown, which is a speed, too. */
struct speed read_speed(int socket, int index) {
    union link_settings told;
    if (read_link_settings(socket, index, &told)) return (struct speed){told.head.speed, told.head.duplex};
    return (struct speed){(uint32_t)SPEED_UNKNOWN, DUPLEX_UNKNOWN};
}

/* Gives an interface a speed that is told of it, in Mb/s; answers whether its driver took it. */
bool write_speed(int socket, int index, uint32_t megabits) {
    union link_settings told;
    if (!read_link_settings(socket, index, &told)) return false;
    told.head.cmd = ETHTOOL_SLINKSETTINGS;
    told.head.speed = megabits;
    return ask_by(socket, index, &told);
}

/* The link of a port comes up, or is up: with key-by-speed it has the key of the speed that it had as it came. Answers whether the speed is
 * new. */
bool note_speed_and_set_key(struct core *core, struct keys *own, const struct ports *ports, struct link *link) {
    bool by_speed = core->settings->key_by_speed;
    struct niw_change change = {.priority = link->settings.priority, .aggregatable = link->settings.aggregatable};
    if (by_speed ? link->up : core->settings->select != SELECT_BANDWIDTH) return false;
    struct speed now = read_speed(link->socket, link->index);
    if (link->has_speed && is_same_speed(&now, &link->speed)) return false;
    link->has_speed = true;
    link->speed = now;
    if (!by_speed) return true;
    change.key = choose_key(own, ports, core->settings, link);
    if (is_done(core, niw_configure(&core->system, link->settings.number, &change).status, "niw_configure")) link->settings.key = change.key;
    return true;
}

/* Whether a link that is up has come back at another speed, which with key-by-speed has another key. */
bool read_whether_speed_differs(const struct settings *settings, const struct link *link) {
    if (!settings->key_by_speed || !link->up || !link->has_speed) return false;
    struct speed now = read_speed(link->socket, link->index);
    return !is_same_speed(&now, &link->speed);
}

/* The speed as text, as '1000 Mb/s, full duplex'. */
const char *speed_text(const struct speed *speed, char room[static 40]) {
    const char *duplex = speed->duplex == DUPLEX_FULL ? "full duplex" : speed->duplex == DUPLEX_HALF ? "half duplex" : "unknown duplex";
    if (speed->megabits == (uint32_t)SPEED_UNKNOWN)
        snprintf(room, 40, "unknown, %s", duplex);
    else
        snprintf(room, 40, "%" PRIu32 " Mb/s, %s", speed->megabits, duplex);
    return room;
}
