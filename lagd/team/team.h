/* The plane of the kernel's team driver: what its files share. */
#ifndef LAGD_TEAM_H
#define LAGD_TEAM_H

#include "carry.h"

#include <linux/filter.h>

/* The kind of its devices, as rtnetlink has it. */
#define TEAM_KIND "team"
/* The most ports of a device that are told: its own, and some that others put there. */
#define MOST_TEAM_PORTS (2 * NIW_MOST_PORTS)

/* What the driver has of a device. */
struct team_now {
    char mode[32];
    int members[CONVERSATIONS];     /* of each bucket the interface by which its frames go, or 0 */
    uint64_t octets[CONVERSATIONS]; /* that each bucket has sent, as the driver counted them last */
    unsigned port_count;
    int ports[MOST_TEAM_PORTS]; /* their interfaces */
    bool enabled[MOST_TEAM_PORTS];
};

struct bucket {
    uint16_t port;     /* by which its frames go, or 0: not known */
    uint64_t octets;   /* that it has sent, as the driver told last */
    uint64_t moved_at; /* the time at which it had sent others than before */
};

struct team_plane {
    PARTS
    struct carry *carry;
    uint16_t family; /* the number of the driver in generic netlink, or 0 */
    bool opened;
    bool taken[NIW_MOST_PORTS]; /* whether the interface of a port is a port of the device */
    int lock, locked; /* by which no other lagd has the device, whatever members are there; and its index */
    struct bucket buckets[CONVERSATIONS];
    enum { UNKNOWN, PASSES, PASSES_NOT } passes[NIW_MOST_PORTS]; /* what the driver has for a port */
    int members_at_start[CONVERSATIONS]; /* the interface of each bucket, as the last daemon left it */
    uint16_t previous; /* the aggregator that was active before, or 0 */
    uint64_t frames_received; /* by the device */
    /* The driver counts now and then: so many octets the device had sent at a time, and once the buckets have as many, all is counted up to then. */
    uint64_t to_count, to_count_at, counted_until, looked_at;
    uint64_t without_bucket; /* octets that went by none */
    unsigned shortages, unseen; /* in turn */
};

/* The types of options that are of use here, as include/net/netlink.h of the kernel has them; no header for programs does. */
enum option_type { TYPE_U32 = 3, TYPE_STRING = 5, TYPE_FLAG = 6, TYPE_BINARY = 11 };

/* team_netlink.c */
bool load_team_driver(uint16_t *family);
bool make_team_device(const char *name, const uint8_t *mac, uint32_t mtu);
bool remove_device(int index);
bool set_interface_up(int index, bool up);
bool set_master(int index, int master);
bool set_address(int index, const uint8_t *mac);
bool give_team_carrier(const struct plane *plane, bool on);
bool set_option(uint16_t family, int index, const char *name, enum option_type type, const void *value, size_t length);
bool set_port_enabled(uint16_t family, int index, int port_index, bool enabled);
bool set_bucket(uint16_t family, int index, uint16_t bucket, int port_index);
bool read_team(uint16_t family, int index, struct team_now *now);

/* team_hash.c */
#define MOST_HASH_STEPS 256
size_t make_team_hash(const struct settings *settings, struct sock_filter steps[static MOST_HASH_STEPS]);

/* team.c */
extern const struct carrying TEAM_DEVICE;
void give_addresses_or_lose_members(struct team_plane *team);
void take_out_of_team_and_bring_up(const struct team_plane *team, int index);

/* buckets.c */
void start_buckets(struct team_plane *team);
void settle_team_or_lose_member(struct plane *plane);
void pass_tick_of_team(struct plane *plane);
void forget_port(struct team_plane *team, uint16_t port);
int bucket_member_of(const struct plane *plane, uint16_t number);
uint64_t read_frames_received_and_buckets(struct plane *plane, bool looks);
unsigned count_waiting_buckets(const struct team_plane *team);

#endif
