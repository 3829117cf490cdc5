/* The TAP device, by which the host hands over its data and takes what comes. */
#include "tap/tap.h"

#include <linux/if_tun.h>
#include <net/if.h>
#include <net/if_arp.h>
#include <sys/ioctl.h>

/* Of Linux 5.2, and not in older headers: the network namespace of a device. */
#ifndef TUNGETDEVNETNS
#define TUNGETDEVNETNS _IO('T', 227)
#endif
/* Of Linux 6.2, and not in older headers: datagrams of several segments. */
#define TUN_F_USO4 0x20
#define TUN_F_USO6 0x40
/* Of Linux 6.0; older kernels do not look at it. */
#define NO_CARRIER 0x40

/* The longest payload that a TAP device takes. */
#define LONGEST_PAYLOAD (65535 - ETH_HLEN)

/* For how many ticks the carrier may be another one than was set: the kernel takes up to a second to tell. */
#define CARRIER_TICKS 15

/* Asks the kernel something of the device, or for something. The device goes by its index: it may have another name than it was given. */
static bool ask_tap(const struct device *own, unsigned long what, struct ifreq *request) {
    struct ifreq named = {.ifr_ifindex = own->index};
    if (own->index == 0 || ioctl(own->asker, SIOCGIFNAME, &named) < 0) return false;
    memcpy(request->ifr_name, named.ifr_name, sizeof request->ifr_name);
    return ioctl(own->asker, what, request) == 0;
}

bool give_tap_carrier(const struct plane *plane, bool on) {
    return ioctl(plane->device->tap, TUNSETCARRIER, &(int){on}) == 0;
}

/* The carrier of the device, which is on while data is carried. What the kernel refuses has one line, and is tried again at each tick. */
void set_carrier(struct device *own, bool on) {
    if (own->carrier == on || own->index == 0) return;
    if (ASK(own->plane->carrying->give_carrier, true, own->plane, on)) {
        own->carrier = on;
        own->carrier_ticks = 0;
        own->refused = false;
    } else if (!own->refused) {
        own->refused = true;
        (void)say(&own->process->printer, LOG_ERR | ABOUT_CARRIER, "carry %s: its carrier cannot be set %s: %s", own->process->settings->carry,
            on ? "on" : "off", strerror(errno));
    }
}

/* The device has this speed from now on, in Mb/s, or none that is known. A kernel that does not take it has one line. */
void set_speed(struct device *own, uint32_t megabits) {
    if (own->speed == megabits || own->index == 0) return;
    own->speed = megabits;
    errno = EOPNOTSUPP; /* where the kernel tells none, either */
    if (write_speed(own->asker, own->index, megabits) || own->speed_reported) return;
    own->speed_reported = true;
    (void)say(&own->process->printer, LOG_WARNING | ABOUT_CARRIER, "carry %s: its speed stays: %s", own->process->settings->carry, strerror(errno));
}

/* Whether the device has a carrier: an administrator may have taken it away. */
bool has_carrier(const struct device *own) {
    return own->carrier && own->carrier_told;
}

/* The MTU of the device is the longest that each member takes, or a lower one that an administrator set. A higher one would lose frames. */
void settle_tap_mtu(struct device *own) {
    struct ifreq now = {0}, wanted = {0};
    if (!ask_tap(own, SIOCGIFMTU, &now)) return;
    uint32_t mtu = (uint32_t)now.ifr_mtu;
    bool is_set_by_others = own->set_mtu != 0 && mtu != own->set_mtu;
    if (is_set_by_others) own->less_mtu = mtu < own->most_mtu ? mtu : 0;
    if (is_set_by_others && mtu > own->most_mtu)
        (void)say(&own->process->printer, LOG_WARNING | ABOUT_CARRIER, "carry %s: its members take no MTU of %u: it has %u again",
            own->process->settings->carry, mtu, own->most_mtu);
    uint32_t least = own->less_mtu != 0 && own->less_mtu < own->most_mtu ? own->less_mtu : own->most_mtu;
    wanted.ifr_mtu = (int)least;
    if (mtu == least || ask_tap(own, SIOCSIFMTU, &wanted)) own->set_mtu = least;
}

void limit_and_settle_tap_mtu(struct device *own, uint32_t most) {
    own->most_mtu = most < LONGEST_PAYLOAD ? most : LONGEST_PAYLOAD;
    settle_tap_mtu(own);
}

void follow_tap_withdraw_open_host_or_end(struct device *own, bool has_now, const char *discipline) {
    own->carrier_told = has_now;
    CALL(own->plane->passing->follow_discipline, own->plane->tap, discipline);
    if (own->carrier && has_now) CALL(own->plane->passing->open_host, own->plane->tap, true);
}

/* 100 ms passed. Of a device that is not up the kernel tells no carrier, whoever set one. */
void pass_tap_tick(struct printer *printer, unsigned *carrier_ticks, const struct device *own) {
    *carrier_ticks = own->carrier && !own->carrier_told && is_tap_up(own) ? *carrier_ticks + 1 : 0;
    if (*carrier_ticks == CARRIER_TICKS)
        (void)say(printer, LOG_WARNING | ABOUT_CARRIER, "carry %s: it has no carrier, though links carry: who took it away may set it on again",
            own->process->settings->carry);
}

/* Whether somebody else took the carrier of the device, for longer than the kernel takes to tell: nothing of the host goes. */
bool is_carrier_taken(const struct device *own) {
    return own->carrier_ticks >= CARRIER_TICKS;
}

/* The MAC address that the device has now: whoever administers it may change it. */
bool read_tap_mac(const struct device *own, uint8_t *mac) {
    struct ifreq request = {0};
    if (!ask_tap(own, SIOCGIFHWADDR, &request)) return false;
    memcpy(mac, request.ifr_hwaddr.sa_data, ETH_ALEN);
    return true;
}

/* Whether the host has the device up, whatever its name is now. */
bool is_tap_up(const struct device *own) {
    struct ifreq request = {0};
    return ask_tap(own, SIOCGIFFLAGS, &request) && (request.ifr_flags & IFF_UP) != 0;
}

/* Has the host hand over frames of several segments, and without checksums, where they are passed; each packet tells before its frame. */
static void set_offload_or_stop(const struct device *own) {
    unsigned long wanted = TUN_F_CSUM | TUN_F_TSO4 | TUN_F_TSO6 | TUN_F_TSO_ECN;
    unsigned long more = own->plane->segments ? TUN_F_USO4 | TUN_F_USO6 : 0;
    if (ioctl(own->tap, TUNSETVNETHDRSZ, &(int){(int)head_octets()}) < 0
        || (ioctl(own->tap, TUNSETOFFLOAD, wanted | more) < 0 && ioctl(own->tap, TUNSETOFFLOAD, wanted) < 0))
        stop(REFUSED, "no frames of several segments", strerror(errno));
}

/* Whether a file still has a device of this network namespace, under the name that is told. */
static bool is_here(int fd, struct ifreq *device) {
    CLOSED_FILE int space = ioctl(fd, TUNGETDEVNETNS);
    struct stat found;
    bool same = space < 0 || (fstat(space, &found) == 0 && (unsigned long)found.st_ino == network_namespace());
    return same && ioctl(fd, TUNGETIFF, device) == 0 && (device->ifr_flags & IFF_TAP) && (device->ifr_flags & IFF_VNET_HDR);
}

/* The device is the one of the last daemon: it has all that was set of it. */
static void recall_tap_mtu(struct device *own) {
    struct ifreq now = {0};
    own->less_mtu = own->process->inherited->mtu;
    if (ask_tap(own, SIOCGIFMTU, &now)) own->set_mtu = own->most_mtu = (uint32_t)now.ifr_mtu;
}

/* Sets up a device that is new to the daemon, or to its settings. It gets its MAC address before anything else: whoever brings it up has a
 * link-local address of it. */
static void set_up_tap_or_stop(struct device *own, const uint8_t *mac) {
    struct ifreq address = {0}, queue = {0};
    address.ifr_hwaddr.sa_family = ARPHRD_ETHER;
    memcpy(address.ifr_hwaddr.sa_data, mac, ETH_ALEN);
    if (!ask_tap(own, SIOCSIFHWADDR, &address)) stop(REFUSED, "no address of the TAP device", strerror(errno));
    queue.ifr_qlen = HOST_QUEUE;
    (void)ask_tap(own, SIOCSIFTXQLEN, &queue);
    settle_tap_mtu(own);
    CALL(own->plane->passing->set_up_device, own->index);
}

/* Takes the device that the last daemon left with the manager of services, whatever an administrator named it since; answers whether there is one. */
static bool take_stored_tap(struct device *own, const char *name) {
    const struct inherited *inherited = own->process->inherited;
    struct ifreq device = {0};
    int fd = claim_stored(&own->process->store, "tap", 0);
    if (fd < 0) return false;
    own->index = is_here(fd, &device) ? (int)if_nametoindex(device.ifr_name) : 0;
    if (own->index == 0 || (inherited->tap == 0 ? strcmp(device.ifr_name, name) != 0 : own->index != inherited->tap)) {
        close_stored(&own->process->store, "tap", 0, fd);
        return false;
    }
    own->tap = fd;
    return true;
}

/* Has an open file be the TAP device of this name, which is made where there is none. */
static bool attach_or_make_tap(int fd, const char *name) {
    struct ifreq device = {.ifr_flags = IFF_TAP | IFF_NO_PI | IFF_VNET_HDR | NO_CARRIER};
    memcpy(device.ifr_name, name, strnlen(name, sizeof device.ifr_name - 1));
    return ioctl(fd, TUNSETIFF, &device) == 0;
}

/* Makes the device, or takes one that is there and that nobody has, as that of the last daemon, which may have another name now; answers whether
 * it is that one. A device that was made is gone when the daemon ends, unless the next one goes on. Where it gets the number of the last daemon's,
 * the namespace was made anew, too. */
static bool take_or_make_tap_or_stop(int *tap, int *index, const struct inherited *inherited, const char *name) {
    char room[IF_NAMESIZE];
    const char *used = inherited->persists && if_indextoname((unsigned)inherited->tap, room) ? room : name;
    unsigned before = if_nametoindex(used);
    *tap = open("/dev/net/tun", O_RDWR | O_NONBLOCK | O_CLOEXEC);
    if (*tap < 0) stop(REFUSED, "no TAP device", strerror(errno));
    if (!attach_or_make_tap(*tap, used)) stop(REFUSED, name, strerror(errno));
    *index = (int)if_nametoindex(used);
    if (*index == 0) stop(REFUSED, name, strerror(errno));
    return before == (unsigned)*index && *index == inherited->tap;
}

/* Opens the device. Its carrier stays where the data of the last daemon goes on, and so do frames that wait there, unless they are old. */
int open_tap_and_drop_old_frames_or_stop(struct device *own, const char *name, const uint8_t *mac) {
    own->asker = socket(AF_UNIX, SOCK_DGRAM | SOCK_CLOEXEC, 0);
    if (own->asker < 0) stop(REFUSED, "no TAP device", strerror(errno));
    const struct inherited *inherited = own->process->inherited;
    uint8_t scrap[ETH_HLEN];
    bool was_stored = take_stored_tap(own, name);
    bool goes_on = was_stored ? own->index == inherited->tap : take_or_make_tap_or_stop(&own->tap, &own->index, inherited, name);
    own->carrier = true; /* which older kernels set of a device that is made */
    if (!was_stored || !goes_on || !own->process->resuming) set_carrier(own, false);
    bool is_old = was_stored && !was_away_briefly(inherited);
    for (unsigned i = 0; is_old && i < 2 * HOST_QUEUE && read(own->tap, scrap, sizeof scrap) > 0; i++) continue;
    if (goes_on && inherited->persists) (void)ioctl(own->tap, TUNSETPERSIST, 0); /* it outlives this daemon no more */
    if (goes_on)
        recall_tap_mtu(own);
    else
        set_up_tap_or_stop(own, mac);
    set_offload_or_stop(own);
    put_stored(&own->process->store, "tap", 0, own->tap);
    return own->tap;
}

/* The device is one of the team driver. Its carrier stays where the data of the last daemon goes on. */
void use_team_device_or_stop(struct device *own, int index) {
    own->asker = socket(AF_UNIX, SOCK_DGRAM | SOCK_CLOEXEC, 0);
    if (own->asker < 0) stop(REFUSED, "no team device", strerror(errno));
    own->index = index;
    own->carrier = true;
    if (!own->process->resuming) set_carrier(own, false);
}

/* A device that the last daemon had outlive itself goes. */
void drop_persistence_of_former_tap(struct plane *plane UNUSED, int index, bool owned) {
    char room[IF_NAMESIZE];
    CLOSED_FILE int fd = owned && if_indextoname((unsigned)index, room) ? open("/dev/net/tun", O_RDWR | O_CLOEXEC) : -1;
    if (fd >= 0 && attach_or_make_tap(fd, room)) (void)ioctl(fd, TUNSETPERSIST, 0);
}

/* The next daemon gets the device as it is, by its name where no manager of services keeps it; or it is to go with this one. */
void set_tap_persistence(struct plane *plane, bool keeps) {
    struct device *own = plane->device;
    struct ifreq device = {0};
    if (plane->owns_device == keeps || ioctl(own->tap, TUNGETIFF, &device) < 0 || (keeps && (has_store() || (device.ifr_flags & IFF_PERSIST))))
        return;
    if (ioctl(own->tap, TUNSETPERSIST, keeps) == 0) plane->owns_device = keeps;
}
