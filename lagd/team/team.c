/* The plane of the team driver: a team device in the place of the TAP device, and members that are its ports. The kernel passes all data by
 * itself, also while no daemon runs: the next one takes the device over. */
#include "control.h"
#include "netlink.h"

#include <net/if.h>
#include <poll.h>
#include <sched.h>

#define MODE "loadbalance"
/* The mode of a device that has none yet. */
#define NO_MODE "*NOMODE*"
#define METHOD "hash_to_port_mapping"
/* How often a name is tried that the TAP device of the last daemon has still, each 100 ms. */
#define MOST_TRIES 10

/* Tries whether the driver takes the mode: at a device of its own, which stays. */
static bool make_device_to_try_mode(uint16_t family) {
    static const uint8_t mac[ETH_ALEN] = {2, 0, 0, 0, 0, 1};
    struct interface device;
    return make_team_device("team0", mac, ETH_DATA_LEN) && ask_interface(0, "team0", &device)
        && set_option(family, device.index, "mode", TYPE_STRING, MODE, sizeof MODE);
}

/* The lowest MTU of the interfaces that are there: the driver gives its ports that of the device. */
static uint32_t read_least_mtu(const struct settings *settings) {
    uint32_t least = 0;
    for (uint16_t i = 0; i < settings->port_count; i++) {
        struct interface member;
        const char *name = settings->ports[i].name;
        if (name[0] && ask_interface(0, name, &member) && member.mtu != 0 && (least == 0 || member.mtu < least))
            least = member.mtu;
    }
    return least == 0 ? ETH_DATA_LEN : least;
}

static void lock_device_or_stop(struct team_plane *team, int index) {
    char what[128], holder[HOLDER_ROOM];
    team->lock = lock_interface(&team->process->store, team->process->inherited, index);
    if (team->lock == -EADDRINUSE) {
        snprintf(what, sizeof what, "another lagd has the interface, %s", holder_of(team->ports, index, holder));
        stop(REFUSED, what, team->settings->carry);
    }
    if (team->lock < 0) stop(REFUSED, team->settings->carry, strerror(-team->lock));
    team->locked = index;
    put_stored(&team->process->store, "lock", index, team->lock);
}

static bool has_own_ports(const struct settings *settings, const struct team_now *now) {
    bool all = true;
    for (unsigned at = 0; at < now->port_count; at++) {
        bool own = false;
        for (uint16_t i = 0; i < settings->port_count && !own; i++) {
            struct interface member;
            own = settings->ports[i].name[0] && ask_interface(0, settings->ports[i].name, &member) && member.index == now->ports[at];
        }
        all = all && own;
    }
    return all;
}

/* Takes a device that is there: that of the last daemon, or one that is of no use to others. */
static void adopt_device_or_stop(struct team_plane *team, const struct interface *device, const uint8_t *mac) {
    struct team_now now;
    bool known = device->index == team->process->inherited->tap;
    if (strcmp(device->kind, TEAM_KIND) != 0)
        stop(REFUSED, team->settings->carry, "an interface of this name is there, and is no team device");
    lock_device_or_stop(team, device->index);
    need(read_team(team->family, device->index, &now), team->settings->carry);
    if (strcmp(now.mode, MODE) != 0 && strcmp(now.mode, NO_MODE) != 0)
        stop(REFUSED, team->settings->carry, "a team device of another mode is there");
    if (!team->settings->follow && !has_own_ports(team->settings, &now) && !known)
        stop(REFUSED, team->settings->carry, "a team device with ports of others is there");
    team->plane->owns_device = known && team->process->inherited->persists;
    need(known || set_address(device->index, mac), team->settings->carry);
    use_team_device_or_stop(team->device, device->index);
}

/* A TAP device of the last daemon goes. Finds its team device, whatever an administrator named it since, or else one of this name; answers whether
 * there is one. */
static bool drop_tap_and_find(struct store *store, const struct inherited *inherited, const char *name, struct interface *device) {
    int tap = claim_stored(store, "tap", 0);
    if (tap >= 0) close_stored(store, "tap", 0, tap);
    if (inherited->tap != 0 && ask_interface(inherited->tap, NULL, device) && strcmp(device->kind, TEAM_KIND) == 0) return true;
    for (int tries = 0; ask_interface(0, name, device); tries++) {
        if (strcmp(device->kind, "tun") != 0 || tries == MOST_TRIES) return true;
        (void)poll(NULL, 0, NIW_TICK_MILLISECONDS);
    }
    return false;
}

/* Has the driver spread frames over buckets, and tell what each of them sent. */
static void configure_driver_or_stop(uint16_t family, int index, const struct settings *settings, const char *mode_now) {
    const uint32_t counted_every = 1; /* what each bucket has sent, in units of 100 ms */
    struct sock_filter steps[MOST_HASH_STEPS];
    size_t octets = make_team_hash(settings, steps) * sizeof *steps;
    need(strcmp(mode_now, MODE) == 0 || set_option(family, index, "mode", TYPE_STRING, MODE, sizeof MODE), "team: mode " MODE);
    need(set_option(family, index, "bpf_hash_func", TYPE_BINARY, steps, octets), "team: bpf_hash_func");
    need(set_option(family, index, "lb_tx_method", TYPE_STRING, METHOD, sizeof METHOD), "team: lb_tx_method");
    need(set_option(family, index, "lb_stats_refresh_interval", TYPE_U32, &counted_every, sizeof counted_every), "team: lb_stats_refresh_interval");
}

/* Gives a port the address of the device: frames to that would be of another host for the network stack. The driver puts back what it had. Some
 * cards take an address only while they are down; one that takes none even then is up again. Answers 0, or -errno. */
static int give_address_down_if_busy(int index, const uint8_t *mac) {
    if (set_address(index, mac)) return 0;
    if (last_fault() != -EBUSY || !set_interface_up(index, false)) return last_fault();
    int fault = set_address(index, mac) ? 0 : last_fault();
    if (!set_interface_up(index, true) && fault == 0) fault = last_fault();
    return fault;
}

/* The device has another address than some ports: who administers it may change it. A port that does not take it would lose what comes: it is
 * taken up anew. */
void give_addresses_or_lose_members(struct team_plane *team) {
    uint8_t mac[ETH_ALEN];
    if (!read_tap_mac(team->device, mac)) return;
    EACH_LINK(link, team->ports) {
        bool differs = team->taken[link - team->ports->links] && memcmp(link->mac, mac, sizeof mac) != 0;
        int fault = differs ? give_address_down_if_busy(link->index, mac) : 0;
        if (fault == 0) continue;
        (void)say(team->core->printer, LOG_WARNING | ABOUT_DATA, "port %u %s: it does not take the address of %s: %s", link->settings.number,
            link->name, team->settings->carry, strerror(-fault));
        lose_link_and_ask_again(team->protocol, link);
    }
}

/* Takes an interface out of the device, by which it goes down, and has it up again: also where the device is gone, or somebody else took it out. */
void take_out_of_team_and_bring_up(const struct team_plane *team, int index) {
    struct interface port;
    if (!team->opened || !ask_interface(index, NULL, &port) || (port.master != 0 && port.master != team->device->index)) return;
    bool up = port.master == 0 || (port.flags & IFF_UP);
    if ((port.master == 0 || set_master(index, 0)) && up) (void)set_interface_up(index, true);
}

/* Makes an interface a port of the device; answers 0, or -errno. One that belongs to another device stays there. The device takes a new one while
 * that is down, and passes no data on it until it is told to: the driver would at once. */
static int open_team_port(struct plane *plane, struct link *link) {
    struct team_plane *team = plane->team;
    struct interface port;
    uint8_t mac[ETH_ALEN];
    int fault = 0;
    if (!ask_interface(link->index, NULL, &port) || !read_tap_mac(team->device, mac)) return last_fault();
    bool up = (port.flags & IFF_UP) != 0;
    if (port.master != team->device->index && (port.master != 0 || !may_put_in(team->protocol, link))) return -EBUSY;
    if (port.master == 0
        && ((up && !set_interface_up(link->index, false)) || !set_master(link->index, team->device->index)
            || !set_port_enabled(team->family, team->device->index, link->index, false)))
        fault = last_fault();
    if (fault == 0 && memcmp(port.mac, mac, sizeof mac) != 0) fault = give_address_down_if_busy(link->index, mac);
    team->taken[link - team->ports->links] = fault == 0;
    forget_port(team, link->settings.number);
    if (fault != 0) take_out_of_team_and_bring_up(team, link->index);
    if (fault != 0 && up) (void)set_interface_up(link->index, true);
    return fault;
}

static void close_team_port(struct plane *plane, const struct link *link) {
    struct team_plane *team = plane->team;
    if (!team->taken[link - team->ports->links]) return;
    team->taken[link - team->ports->links] = false;
    forget_port(team, link->settings.number);
    take_out_of_team_and_bring_up(team, link->index);
}

/* Whether an interface is still a port of the device, as the kernel tells another master, or none: that may be older than what the daemon did. */
static bool ask_whether_still_team_port(const struct plane *plane, const struct link *link, int master) {
    const struct team_plane *team = plane->team;
    struct interface now;
    if (!team->taken[link - team->ports->links] || master == team->device->index || !ask_interface(link->index, NULL, &now))
        return true;
    return now.master == team->device->index;
}

/* The ports that a device has of the last daemon are free, and up. */
static void take_out_inherited_and_bring_up(const struct inherited *inherited, int index) {
    struct interface port;
    for (unsigned i = 0; i < inherited->link_count; i++)
        if (ask_interface(inherited->links[i].index, NULL, &port) && port.master == index && set_master(port.index, 0))
            (void)set_interface_up(port.index, true);
}

/* By other settings nothing goes on: the ports of the device are free, and it goes if the last daemon made it. Where another daemon has it,
 * all stays as it is. */
static void leave_team(struct plane *plane, int index, bool owned) {
    struct team_plane *team = plane->team;
    struct interface device;
    if (!load_team_driver(&team->family) || !ask_interface(index, NULL, &device) || strcmp(device.kind, TEAM_KIND) != 0) return;
    int held = lock_interface(&team->process->store, team->process->inherited, index);
    if (held < 0) return;
    take_out_inherited_and_bring_up(team->process->inherited, index);
    if (owned) (void)remove_device(index);
    close_stored(&team->process->store, "lock", index, held);
}

/* The program ends, and no other one goes on: its ports are free, also those that a start did not come to, and the device goes if a daemon made
 * it. */
static void release_team(int status UNUSED, void *given) {
    struct team_plane *team = given;
    if (!team->opened || team->process->has_left) return;
    EACH_LINK(link, team->ports) close_team_port(team->plane, link);
    if (team->device->index != 0) take_out_inherited_and_bring_up(team->process->inherited, team->device->index);
    if (team->plane->owns_device && team->device->index != 0) (void)remove_device(team->device->index);
    if (team->lock >= 0) close_stored(&team->process->store, "lock", team->locked, team->lock);
    team->opened = false;
}

static void drop_tap_and_open_team_or_stop(struct plane *plane) {
    struct team_plane *team = plane->team;
    const char *name = team->settings->carry;
    const uint8_t *mac = team->settings->config.mac;
    struct interface device;
    struct team_now now;
    need(load_team_driver(&team->family), "plane=team: this kernel has no team driver");
    need(on_exit(release_team, team) == 0, "on_exit");
    team->opened = true;
    if (drop_tap_and_find(&team->process->store, team->process->inherited, name, &device)) {
        adopt_device_or_stop(team, &device, mac);
    } else {
        need(make_team_device(name, mac, read_least_mtu(team->settings)) && ask_interface(0, name, &device), name);
        lock_device_or_stop(team, device.index); /* another one may have taken it at once */
        plane->owns_device = plane->is_new = true;
        use_team_device_or_stop(team->device, device.index);
    }
    need(read_team(team->family, team->device->index, &now), "team");
    configure_driver_or_stop(team->family, team->device->index, team->settings, now.mode);
    start_buckets(team);
}

static void take_out_ports_and_end_team_plane(struct plane *plane) {
    struct team_plane *team = plane->team;
    set_carrier(team->device, false);
    remove_all_members(plane, team->ports);
    release_team(DONE, team);
}

/* Whether the kernel has the team driver, and its mode, which is another module: answers how the program ends. The mode is tried in a network
 * namespace that ends with the program, where that may be made. */
static int unshare_and_check_team(struct printer *printer, struct plane *plane, const struct options *options) {
    struct team_plane *team = plane->team;
    bool is_apart = unshare(CLONE_NEWNET) == 0, has_driver = load_team_driver(&team->family);
    if (!has_driver && errno == EPERM) return tell_lack(printer, options, "plane", "not known without CAP_NET_ADMIN", DONE);
    if (!has_driver) return tell_lack(printer, options, "plane", "this kernel has no team driver", REFUSED);
    if (!is_apart || make_device_to_try_mode(team->family)) return DONE;
    return tell_lack(printer, options, "plane", "the team driver of this kernel has no mode loadbalance", REFUSED);
}

const struct carrying TEAM_DEVICE = {
    .open = drop_tap_and_open_team_or_stop, .end = take_out_ports_and_end_team_plane, .lose_device = lose_device_and_end, .leave = leave_team,
    .give_carrier = give_team_carrier, .add = open_team_port, .remove = close_team_port, .see_port = ask_whether_still_team_port,
    .settle = settle_team_or_lose_member, .tick = pass_tick_of_team, .keeps_aggregator = heard_peer_lately,
    .frames_heard = read_frames_received_and_buckets, .resume = resume_conversations_or_end, .go_on = choose_ports_and_tell_host,
    .member_of = bucket_member_of, .end_resuming = release_former_members, .check = unshare_and_check_team, .show = show_carry,
    .show_member = show_member, .show_waiting = show_waiting_buckets, .first_count = MOVES, .end_count = WOKEN + 1, .administers = true,
    .nameless = "",
};
