/* What the files that speak netlink share: messages to the kernel and their answers, by libmnl, and what these tell of an interface. */
#ifndef LAGD_NETLINK_H
#define LAGD_NETLINK_H

#include "lagd.h"

#include <libmnl/libmnl.h>

/* A message to the kernel, of which a program has most octets. */
union message {
    struct nlmsghdr head;
    uint8_t octets[4096];
};

/* What is done with each message of an answer. */
typedef void (*message_reader)(const struct nlmsghdr *message, void *into);

/* Each attribute behind so many octets of a message, and each within another one; those of libmnl convert numbers without a word, and read up
 * to three octets behind a message, too. */
#define EACH_WITHIN(attribute, first, end) \
    for (const struct nlattr *attribute = (first); mnl_attr_ok(attribute, (int)((const char *)(end) - (const char *)attribute)); \
        attribute = mnl_attr_next(attribute))
#define EACH_ATTRIBUTE(attribute, message, before) \
    EACH_WITHIN(attribute, mnl_nlmsg_get_payload_offset(message, before), (const char *)(message) + (message)->nlmsg_len)
#define EACH_NESTED(attribute, nest) \
    EACH_WITHIN(attribute, mnl_attr_get_payload(nest), (const char *)mnl_attr_get_payload(nest) + mnl_attr_get_payload_len(nest))

/* netlink.c */
union message message_of(uint16_t type, unsigned flags, const void *about, size_t length);
union message message_of_interface(uint16_t type, unsigned flags, int index);
bool ask_netlink(int bus, const union message *question, message_reader read_one, void *into);
bool call_rtnetlink(const union message *wanted);
bool ask_list(int bus, const union message *question, message_reader read_one, void *into, size_t size);
bool is_whole(const struct nlmsghdr *message, int left);
int error_of(const struct nlmsghdr *message);
const struct nlattr *attribute_of(const struct nlmsghdr *message, size_t before, uint16_t type);
const void *value_of(const struct nlattr *attribute, size_t octets);
bool copy_value(const struct nlattr *attribute, void *into, size_t octets);
void copy_text(const struct nlattr *attribute, char *into, size_t room);

/* What the kernel has of an interface. */
struct interface {
    int index;
    unsigned flags, type;
    char name[DEVICE_ROOM];
    const struct nlattr *others; /* its other names, as long as the message is there; or NULL */
    uint8_t mac[6];
    bool has_mac, counts_losses;
    uint32_t losses;
    uint32_t mtu; /* 0: not told */
    bool carrier;
    int below;      /* the interface by which it sends, or 0 */
    bool moved;     /* whether it goes to another namespace */
    bool elsewhere; /* whether that one is of another namespace */
    int master;     /* that of which it is a port, or 0 */
    char kind[16];  /* of those that are made by the kernel; else empty */
    char discipline[DISCIPLINE_ROOM]; /* of its queues */
    uint64_t octets_sent, frames_received;
};

struct interface read_interface(const struct nlmsghdr *message);
bool ask_interface(int index, const char *name, struct interface *interface);

#endif
