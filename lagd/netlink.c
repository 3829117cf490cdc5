/* Questions to the kernel by netlink, and what its answers tell of interfaces. libmnl has the layout of messages; this file has what the daemon
 * asks of them. */
#include "netlink.h"

#include <linux/if_link.h>
#include <linux/rtnetlink.h>

/* The octets of a part of an answer: the kernel makes none longer. */
#define PART_ROOM 65536
/* The most parts of an answer: a machine may have many interfaces. */
#define MOST_PARTS 65536
/* MAX_ERRNO of the kernel. */
#define LAST_ERROR 4095
/* How often a list is asked for that changes while it is told, and the most octets of what is made of it. */
#define MOST_TRIES 10
#define MOST_LISTED 64

union message message_of(uint16_t type, unsigned flags, const void *about, size_t length) {
    union message message = {.octets = {0}}; /* libmnl leaves what pads an attribute as it is */
    struct nlmsghdr *head = mnl_nlmsg_put_header(&message);
    head->nlmsg_type = type;
    head->nlmsg_flags = (uint16_t)(NLM_F_REQUEST | flags);
    memcpy(mnl_nlmsg_put_extra_header(head, length), about, length);
    return message;
}

union message message_of_interface(uint16_t type, unsigned flags, int index) {
    return message_of(type, flags, &(struct ifinfomsg){.ifi_index = index}, sizeof(struct ifinfomsg));
}

/* Whether a whole message is here. For mnl_nlmsg_ok a length from 2^31 on is one below 0. */
bool is_whole(const struct nlmsghdr *message, int left) {
    return mnl_nlmsg_ok(message, left) && message->nlmsg_len <= (uint32_t)left;
}

/* What the last message of an answer tells: 0, or an error, below 0. A number that no error has counts as EPROTO. */
int error_of(const struct nlmsghdr *message) {
    const int *error = mnl_nlmsg_get_payload(message);
    if (mnl_nlmsg_get_payload_len(message) < sizeof *error) return message->nlmsg_type == NLMSG_ERROR ? -EPROTO : 0;
    return *error <= 0 && *error >= -LAST_ERROR ? *error : -EPROTO;
}

/* Reads the answer up to its last message, which the kernel has sent once it took the question; answers its error, as -errno, or 0. It is -EINTR
 * where what was asked for changed meanwhile, so that some of it may be missing. */
static int read_answer(const struct mnl_socket *asked, message_reader read_one, void *into) {
    _Alignas(struct nlmsghdr) uint8_t part[PART_ROOM];
    bool interrupted = false;
    for (int turn = 0; turn < MOST_PARTS; turn++) {
        int left = (int)mnl_socket_recvfrom(asked, part, sizeof part);
        if (left < 0) return last_fault();
        for (const struct nlmsghdr *message = (void *)part; is_whole(message, left); message = mnl_nlmsg_next(message, &left)) {
            interrupted = interrupted || (message->nlmsg_flags & NLM_F_DUMP_INTR) != 0;
            if (message->nlmsg_type == NLMSG_ERROR || message->nlmsg_type == NLMSG_DONE)
                return error_of(message) != 0 || !interrupted ? error_of(message) : -EINTR;
            if (read_one) read_one(message, into);
        }
    }
    return -EPROTO;
}

/* Asks the kernel; answers whether it did so, and else errno tells why not. The kernel alone may send to the socket: any program of the machine may
 * send to others. */
bool ask_netlink(int bus, const union message *question, message_reader read_one, void *into) {
    static const struct sockaddr_nl kernel = {.nl_family = AF_NETLINK};
    struct mnl_socket *asked = mnl_socket_open2(bus, SOCK_NONBLOCK | SOCK_CLOEXEC);
    if (!asked) return false;
    bool is_sent = connect(mnl_socket_get_fd(asked), (const struct sockaddr *)&kernel, sizeof kernel) == 0
        && mnl_socket_sendto(asked, question, question->head.nlmsg_len) >= 0;
    int fault = is_sent ? read_answer(asked, read_one, into) : last_fault();
    (void)mnl_socket_close(asked);
    errno = -fault;
    return fault == 0;
}

bool call_rtnetlink(const union message *wanted) {
    return ask_netlink(NETLINK_ROUTE, wanted, NULL, NULL);
}

/* As ask_netlink, of a list of which the kernel may change something while it tells it: then it is asked again. `into` has `size` octets, MOST_LISTED
 * at most, which are as they were for each answer. */
bool ask_list(int bus, const union message *question, message_reader read_one, void *into, size_t size) {
    uint8_t before[MOST_LISTED];
    memcpy(before, into, size);
    for (int tries = 1; !ask_netlink(bus, question, read_one, into); tries++) {
        if (errno != EINTR || tries == MOST_TRIES) return false;
        memcpy(into, before, size);
    }
    return true;
}

/* The attribute of a type behind so many octets of a message, or NULL. */
const struct nlattr *attribute_of(const struct nlmsghdr *message, size_t before, uint16_t type) {
    EACH_ATTRIBUTE(attribute, message, before)
        if (mnl_attr_get_type(attribute) == type) return attribute;
    return NULL;
}

/* The value of an attribute, if that is there and its value is as long as is wanted; else NULL. */
const void *value_of(const struct nlattr *attribute, size_t octets) {
    return attribute && mnl_attr_get_payload_len(attribute) == octets ? mnl_attr_get_payload(attribute) : NULL;
}

/* Copies a value, if it is as long as is wanted; answers whether it did. */
bool copy_value(const struct nlattr *attribute, void *into, size_t octets) {
    const void *value = value_of(attribute, octets);
    if (value) memcpy(into, value, octets);
    return value != NULL;
}

/* Copies a text, with a zero behind it, if it has room. */
void copy_text(const struct nlattr *attribute, char *into, size_t room) {
    size_t length = mnl_attr_get_payload_len(attribute);
    if (length <= room) snprintf(into, room, "%.*s", (int)length, mnl_attr_get_str(attribute));
}

/* Takes one attribute of an interface. One that is shorter or longer than its type is not taken. */
static void parse_attribute(struct interface *interface, const struct nlattr *attribute) {
    struct rtnl_link_stats64 counts = {0};
    uint8_t carrier = 0;
    size_t length = mnl_attr_get_payload_len(attribute);
    switch (mnl_attr_get_type(attribute)) {
    case IFLA_IFNAME: copy_text(attribute, interface->name, sizeof interface->name); break;
    case IFLA_ADDRESS: interface->has_mac = copy_value(attribute, interface->mac, sizeof interface->mac); break;
    case IFLA_CARRIER_DOWN_COUNT: interface->counts_losses = copy_value(attribute, &interface->losses, sizeof interface->losses); break;
    case IFLA_QDISC: copy_text(attribute, interface->discipline, sizeof interface->discipline); break;
    case IFLA_MTU: (void)copy_value(attribute, &interface->mtu, sizeof interface->mtu); break;
    case IFLA_CARRIER: interface->carrier = copy_value(attribute, &carrier, sizeof carrier) && carrier != 0; break;
    case IFLA_LINK: (void)copy_value(attribute, &interface->below, sizeof interface->below); break;
    case IFLA_LINK_NETNSID: interface->elsewhere = value_of(attribute, sizeof(int)) != NULL; break;
    case IFLA_NEW_NETNSID: interface->moved = true; break;
    case IFLA_MASTER: (void)copy_value(attribute, &interface->master, sizeof interface->master); break;
    case IFLA_LINKINFO:
        EACH_NESTED(part, attribute)
            if (mnl_attr_get_type(part) == IFLA_INFO_KIND) copy_text(part, interface->kind, sizeof interface->kind);
        break;
    case IFLA_PROP_LIST: interface->others = attribute; break;
    case IFLA_STATS64:
        memcpy(&counts, mnl_attr_get_payload(attribute), length < sizeof counts ? length : sizeof counts);
        interface->octets_sent = counts.tx_bytes;
        interface->frames_received = counts.rx_packets;
        break;
    default: break;
    }
}

/* Reads a message that tells of an interface; of one that is too short the index is 0. */
struct interface read_interface(const struct nlmsghdr *message) {
    struct interface interface = {0};
    const struct ifinfomsg *about = mnl_nlmsg_get_payload(message);
    if (mnl_nlmsg_get_payload_len(message) < sizeof *about) return interface;
    interface.index = about->ifi_index;
    interface.flags = about->ifi_flags;
    interface.type = about->ifi_type;
    EACH_ATTRIBUTE(attribute, message, sizeof *about) parse_attribute(&interface, attribute);
    return interface;
}

static void parse_interface(const struct nlmsghdr *message, void *into) {
    struct interface *interface = into;
    if (message->nlmsg_type == RTM_NEWLINK) *interface = read_interface(message);
}

/* Reads what the kernel has of an interface now; answers whether there is one of this number, or of this name or alternative name, where the
 * number is 0, and else errno tells why not. Its other names are not kept. */
bool ask_interface(int index, const char *name, struct interface *interface) {
    union message question = message_of_interface(RTM_GETLINK, NLM_F_ACK, index);
    if (index == 0 && name) mnl_attr_put_strz(&question.head, strlen(name) < DEVICE_ROOM ? IFLA_IFNAME : IFLA_ALT_IFNAME, name);
    *interface = (struct interface){0};
    bool told = ask_netlink(NETLINK_ROUTE, &question, parse_interface, interface);
    interface->others = NULL;
    if (told && interface->index == 0) errno = EPROTO;
    return told && interface->index != 0;
}
