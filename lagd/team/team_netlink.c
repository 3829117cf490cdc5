/* What the kernel is told of the team driver, and tells: by rtnetlink of its device and ports as of any interface, and by generic netlink
 * of its options. */
#include "team.h"
#include "netlink.h"

#include <linux/genetlink.h>
#include <linux/if_team.h>
#include <linux/rtnetlink.h>
#include <net/if.h>

static void read_family(const struct nlmsghdr *message, void *into) {
    (void)copy_value(attribute_of(message, sizeof(struct genlmsghdr), CTRL_ATTR_FAMILY_ID), into, sizeof(uint16_t));
}

static bool find_family(uint16_t *family) {
    struct genlmsghdr about = {.cmd = CTRL_CMD_GETFAMILY, .version = 1};
    union message question = message_of(GENL_ID_CTRL, NLM_F_ACK, &about, sizeof about);
    mnl_attr_put_strz(&question.head, CTRL_ATTR_FAMILY_NAME, TEAM_GENL_NAME);
    return ask_netlink(NETLINK_GENERIC, &question, read_family, family) && *family != 0;
}

/* Has the kernel load the driver; answers whether there is one, and else errno tells why not. It does so for who may ask for a device: with
 * an address that none may have there is none, and by a name that it is to complete none is taken. */
bool load_team_driver(uint16_t *family) {
    static const uint8_t no_address[ETH_ALEN];
    return find_family(family) || (!make_team_device("team%d", no_address, ETH_DATA_LEN) && errno == EADDRNOTAVAIL && find_family(family));
}

bool make_team_device(const char *name, const uint8_t *mac, uint32_t mtu) {
    union message wanted = message_of_interface(RTM_NEWLINK, NLM_F_ACK | NLM_F_CREATE | NLM_F_EXCL, 0);
    mnl_attr_put_strz(&wanted.head, IFLA_IFNAME, name);
    mnl_attr_put(&wanted.head, IFLA_ADDRESS, ETH_ALEN, mac);
    mnl_attr_put_u32(&wanted.head, IFLA_MTU, mtu);
    struct nlattr *nest = mnl_attr_nest_start(&wanted.head, IFLA_LINKINFO);
    mnl_attr_put_strz(&wanted.head, IFLA_INFO_KIND, TEAM_KIND);
    mnl_attr_nest_end(&wanted.head, nest);
    return call_rtnetlink(&wanted);
}

bool remove_device(int index) {
    union message wanted = message_of_interface(RTM_DELLINK, NLM_F_ACK, index);
    return call_rtnetlink(&wanted);
}

bool set_interface_up(int index, bool up) {
    struct ifinfomsg about = {.ifi_index = index, .ifi_flags = up ? IFF_UP : 0, .ifi_change = IFF_UP};
    union message wanted = message_of(RTM_SETLINK, NLM_F_ACK, &about, sizeof about);
    return call_rtnetlink(&wanted);
}

static bool set_attribute(int index, uint16_t type, const void *value, size_t length) {
    union message wanted = message_of_interface(RTM_SETLINK, NLM_F_ACK, index);
    mnl_attr_put(&wanted.head, type, length, value);
    return call_rtnetlink(&wanted);
}

bool set_master(int index, int master) {
    return set_attribute(index, IFLA_MASTER, &master, sizeof master);
}

bool set_address(int index, const uint8_t *mac) {
    return set_attribute(index, IFLA_ADDRESS, mac, ETH_ALEN);
}

bool give_team_carrier(const struct plane *plane, bool on) {
    return set_attribute(plane->device->index, IFLA_CARRIER, &(uint8_t){on}, 1);
}

static union message message_of_team(uint16_t family, uint8_t command, unsigned flags, int index) {
    struct genlmsghdr about = {.cmd = command, .version = TEAM_GENL_VERSION};
    union message message = message_of(family, flags, &about, sizeof about);
    mnl_attr_put_u32(&message.head, TEAM_ATTR_TEAM_IFINDEX, (uint32_t)index);
    return message;
}

/* What tells an option from others of its name. */
struct place {
    int port;   /* the interface of a port, or 0 */
    int number; /* in a row of options, or -1 */
};

/* Sets an option. The kernel tells who listens to changes; that nobody does is an error for it, though the option is set. */
static bool set_option_at(uint16_t family, int index, const char *name, struct place place, enum option_type type, const void *value, size_t length) {
    union message wanted = message_of_team(family, TEAM_CMD_OPTIONS_SET, NLM_F_ACK, index);
    struct nlattr *list = mnl_attr_nest_start(&wanted.head, TEAM_ATTR_LIST_OPTION);
    struct nlattr *item = mnl_attr_nest_start(&wanted.head, TEAM_ATTR_ITEM_OPTION);
    mnl_attr_put_strz(&wanted.head, TEAM_ATTR_OPTION_NAME, name);
    mnl_attr_put_u8(&wanted.head, TEAM_ATTR_OPTION_TYPE, (uint8_t)type);
    if (value) mnl_attr_put(&wanted.head, TEAM_ATTR_OPTION_DATA, length, value);
    if (place.port != 0) mnl_attr_put_u32(&wanted.head, TEAM_ATTR_OPTION_PORT_IFINDEX, (uint32_t)place.port);
    if (place.number >= 0) mnl_attr_put_u32(&wanted.head, TEAM_ATTR_OPTION_ARRAY_INDEX, (uint32_t)place.number);
    mnl_attr_nest_end(&wanted.head, item);
    mnl_attr_nest_end(&wanted.head, list);
    return ask_netlink(NETLINK_GENERIC, &wanted, NULL, NULL) || errno == ESRCH;
}

bool set_option(uint16_t family, int index, const char *name, enum option_type type, const void *value, size_t length) {
    return set_option_at(family, index, name, (struct place){0, -1}, type, value, length);
}

bool set_port_enabled(uint16_t family, int index, int port_index, bool enabled) {
    return set_option_at(family, index, "enabled", (struct place){port_index, -1}, TYPE_FLAG, enabled ? "" : NULL, 0);
}

bool set_bucket(uint16_t family, int index, uint16_t bucket, int port_index) {
    return set_option_at(family, index, "lb_tx_hash_to_port_mapping", (struct place){0, bucket}, TYPE_U32, &port_index, sizeof port_index);
}

static bool is_text(const struct nlattr *attribute, const char *text) {
    const char *at = value_of(attribute, strlen(text) + 1);
    return at && memcmp(at, text, strlen(text) + 1) == 0;
}

/* Notes an option. A flag that is not set has no value. */
static void note_option(struct team_now *now, const struct nlattr *item) {
    const struct nlattr *parts[TEAM_ATTR_OPTION_MAX + 1] = {NULL};
    int port = 0, number = -1;
    EACH_NESTED(part, item)
        if (mnl_attr_get_type(part) <= TEAM_ATTR_OPTION_MAX) parts[mnl_attr_get_type(part)] = part;
    const struct nlattr *name = parts[TEAM_ATTR_OPTION_NAME], *value = parts[TEAM_ATTR_OPTION_DATA];
    (void)copy_value(parts[TEAM_ATTR_OPTION_PORT_IFINDEX], &port, sizeof port);
    (void)copy_value(parts[TEAM_ATTR_OPTION_ARRAY_INDEX], &number, sizeof number);
    if (is_text(name, "enabled") && port != 0 && now->port_count < MOST_TEAM_PORTS) {
        now->ports[now->port_count] = port;
        now->enabled[now->port_count++] = value != NULL;
    }
    if (!value) return;
    if (is_text(name, "mode")) copy_text(value, now->mode, sizeof now->mode);
    if (number < 0 || number >= CONVERSATIONS) return;
    if (is_text(name, "lb_tx_hash_to_port_mapping")) (void)copy_value(value, &now->members[number], sizeof now->members[number]);
    if (is_text(name, "lb_hash_stats")) (void)copy_value(value, &now->octets[number], sizeof now->octets[number]);
}

static void parse_team(const struct nlmsghdr *message, void *into) {
    const struct nlattr *list = attribute_of(message, sizeof(struct genlmsghdr), TEAM_ATTR_LIST_OPTION);
    if (!list) return;
    EACH_NESTED(item, list)
        if (mnl_attr_get_type(item) == TEAM_ATTR_ITEM_OPTION) note_option(into, item);
}

bool read_team(uint16_t family, int index, struct team_now *now) {
    union message question = message_of_team(family, TEAM_CMD_OPTIONS_GET, 0, index);
    *now = (struct team_now){0};
    return ask_netlink(NETLINK_GENERIC, &question, parse_team, now);
}
