/* What the kernel tells of interfaces: at the start, and each interface. */
#include "device.h"
#include "netlink.h"

#include <linux/if.h>
#include <linux/pkt_sched.h>
#include <linux/rtnetlink.h>
#include <net/if_arp.h>
#include <poll.h>

#define ROOM 65536
/* How long the kernel may take for an answer at the start, in milliseconds, and how often it is asked then. */
#define PATIENCE 10000
#define MOST_ASKED 1000

/* Asks for an interface, or with 0 for all of them; answers whether the kernel took the question, and else it is asked again. The answer comes as
 * changes do. */
static bool ask_for(struct changes *own, int index, uint32_t number) {
    union message question = message_of_interface(RTM_GETLINK, index == 0 ? NLM_F_DUMP : 0, index);
    question.head.nlmsg_seq = number;
    mnl_attr_put_u32(&question.head, IFLA_EXT_MASK, RTEXT_FILTER_SKIP_STATS);
    bool asked = own->route && mnl_socket_sendto(own->route, &question, question.head.nlmsg_len) == (ssize_t)question.head.nlmsg_len;
    own->ask_again = own->ask_again || !asked;
    return asked;
}

/* Whether what an interface sends goes by another one of this machine. The other end of a veth pair receives it. */
static bool is_stacked(const struct interface *interface) {
    static const char *const kinds[] = {"bond", "team", "bridge"};
    for (size_t i = 0; i < sizeof kinds / sizeof *kinds; i++)
        if (strcmp(interface->kind, kinds[i]) == 0) return true;
    return interface->below != 0 && interface->below != interface->index && strcmp(interface->kind, "veth") != 0;
}

/* Whether an interface has a name, as its own or as one of its other names. */
static bool is_named(const struct interface *interface, const char *name) {
    if (strcmp(interface->name, name) == 0) return true;
    if (!interface->others) return false;
    EACH_NESTED(other, interface->others)
        if (mnl_attr_get_type(other) == IFLA_ALT_IFNAME && mnl_attr_validate(other, MNL_TYPE_NUL_STRING) == 0
            && strcmp(mnl_attr_get_str(other), name) == 0)
            return true;
    return false;
}

/* Takes up an interface that has the name of a port. At the start, what is wrong with one ends the program. */
static bool take_up_or_stop(struct process *process, struct plane *plane, bool *ask_again, const struct protocol *protocol, struct link *link,
    const struct interface *interface) {
    char what[128], holder[HOLDER_ROOM];
    if (interface->type != ARPHRD_ETHER) {
        if (!process->has_started && !link->left_over) stop(WRONG_WORD, "not an Ethernet interface", link->name);
        return false;
    }
    if (note_whether_outside(protocol, link, interface->master)) return false;
    memcpy(link->discipline, interface->discipline, sizeof link->discipline);
    if (interface->has_mac) memcpy(link->mac, interface->mac, sizeof link->mac);
    link->stacked = is_stacked(interface);
    if (take_up_interface(process, plane, link, interface->index)) {
        link->kernel_losses = interface->losses;
        link->puts_in = false;
        return true;
    }
    if (process->has_started) *ask_again = true;
    if (process->has_started || link->left_over) return false;
    if (link->trouble != EADDRINUSE) stop(REFUSED, link->name, strerror(link->trouble));
    snprintf(what, sizeof what, "another lagd has the interface, %s", holder_of(protocol->ports, link->index, holder));
    stop(REFUSED, what, link->name);
}

/* The interface of a port does not do what it has to: it is taken up anew. */
void lose_link_and_ask_again(struct protocol *protocol, struct link *link) {
    protocol->changes.ask_again = true;
    lose_and_release_link(protocol, link);
}

/* Follows an interface of a port. Its carrier may have gone and come back, of which the kernel tells at once: it counts how often
 * it went. IFF_RUNNING may be a second old, and IFF_LOWER_UP is the carrier itself. An interface that is made has no queues until it is
 * up: once it has others, whether the kernel may pass on what goes there is seen anew. */
static void follow_link(struct protocol *protocol, struct link *link, const struct interface *interface) {
    const unsigned carried = IFF_UP | IFF_RUNNING | IFF_LOWER_UP;
    bool carrier = (interface->flags & carried) == carried, lost = false;
    if (interface->has_mac) set_mac_and_move_kept(protocol->plane, link, interface->mac);
    if (interface->discipline[0] && strcmp(link->discipline, interface->discipline) != 0
        && !read_discipline_and_renew_or_end(protocol->plane, link)) {
        lose_link_and_ask_again(protocol, link);
        return;
    }
    if (interface->mtu != 0) CALL(protocol->plane->carrying->follow_mtu, protocol->plane, link, interface->mtu);
    if (interface->counts_losses) {
        bool begun_anew = interface->losses < link->kernel_losses;
        uint32_t losses = interface->losses - (begun_anew ? 0 : link->kernel_losses);
        link->kernel_losses = interface->losses;
        lost = losses > 0;
        link->counts[LOSSES] += losses;
    }
    bool was_away = link->away, other = carrier && (lost || link->away) && read_whether_speed_differs(protocol->settings, link);
    bool spared = (interface->flags & IFF_UP) && note_whether_stays_up(protocol->process, link, carrier, lost) && !other;
    if (spared && !carrier && !was_away && !lost) link->counts[LOSSES]++; /* of a kernel that does not count them */
    if (spared && !carrier) return;
    if ((lost || other) && !spared && link->up) {
        if (!link->away) link->counts[LOSSES]--; /* which set_link_send_and_tell counts */
        set_link_send_and_tell(protocol, link, false);
    }
    if ((lost && !spared) || !carrier) set_waiting(link, false);
    bool up = carrier && !protocol->halt.silent && choose_aggregator_and_set_waiting(protocol, link);
    if (up && !link->up) fit_queue(protocol->plane, link);
    if (up && note_speed_and_set_key(protocol->core, &protocol->keys, protocol->ports, link)) protocol->plane->changed = true;
    if (up) CALL(protocol->plane->carrying->follow_speed, protocol->plane, link);
    set_link_send_and_tell(protocol, link, up);
}

/* The interface of a port is gone, or has another name now. Where the device alone said that it is a port, it is none any more. */
static void lose_interface(struct protocol *protocol, struct link *link) {
    link->outside = link->outside || link->followed;
    if (link->socket >= 0) lose_and_release_link(protocol, link);
}

/* An interface is there. A port goes by its name, and the TAP device by its number. */
static void follow_present_or_stop(struct protocol *protocol, const struct interface *interface) {
    bool known = false;
    if (interface->index == protocol->device->index) {
        protocol->changes.tap_named = true;
        protocol->plane->changed = true;
        follow_tap_withdraw_open_host_or_end(protocol->device, interface->carrier, interface->discipline);
        CALL(protocol->plane->carrying->settle_mtu, protocol->device);
        halt_or_go_on_with_device(protocol, (interface->flags & IFF_UP) != 0);
    }
    EACH_LINK(link, protocol->ports) {
        bool named = is_named(interface, link->name), same = link->socket >= 0 && link->index == interface->index;
        named = named || (same && take_and_tell_new_name(protocol, link, interface));
        if (link->socket >= 0 && (same != named || (same && !is_bound(link->socket, link->index)))) lose_interface(protocol, link);
        if (same && link->socket >= 0 && !ASK(protocol->plane->carrying->see_port, true, protocol->plane, link, interface->master)) {
            (void)say(protocol->core->printer, LOG_WARNING | ABOUT_DATA, "port %u %s: it was taken out of %s", link->settings.number, link->name,
                protocol->settings->carry);
            hold_once_to_tell_peer(protocol, link);
            lose_and_release_link(protocol, link);
        }
        known = known || named;
        if (!named) continue;
        link->present = true;
        if (link->socket >= 0
            || take_up_or_stop(protocol->process, protocol->plane, &protocol->changes.ask_again, protocol, link, interface))
            follow_link(protocol, link, interface);
    }
    if (!known) join_followed_port(protocol, interface);
}

static void lose_absent_and_drop_kept_or_end(struct protocol *protocol, const struct interface *interface) {
    if (interface->index == protocol->device->index) CALL(protocol->plane->carrying->lose_device, protocol->plane);
    EACH_LINK(link, protocol->ports) {
        if (link->index != interface->index) continue;
        lose_interface(protocol, link);
        if (!interface->moved) forget_interface(protocol->process->folder, link);
    }
}

/* Queueing disciplines came or went. Which one an interface has now is asked: of its usual one the kernel does not tell. */
static void note_and_ask_discipline(struct changes *own, struct ports *ports, int device, const struct tcmsg *info) {
    bool ours = info->tcm_ifindex == device;
    EACH_LINK(link, ports) {
        if (link->socket < 0 || link->index != info->tcm_ifindex) continue;
        link->has_new_queues = true;
        ours = true;
    }
    if (ours && info->tcm_parent == TC_H_ROOT) (void)ask_for(own, info->tcm_ifindex, 0);
}

/* The answer to the last question has ended. What a whole one did not name is gone. One that ends with an error ends the program at
 * the start; later the kernel is asked again. */
static void end_answer_and_lose_or_stop(struct protocol *protocol, int error) {
    struct changes *own = &protocol->changes;
    bool whole = error == 0 && !own->interrupted;
    if (error < 0 && !protocol->process->has_started) stop(REFUSED, "the kernel does not tell of interfaces", strerror(-error));
    own->asking = false;
    own->ask_again = own->ask_again || !whole;
    if (whole && !own->tap_named) CALL(protocol->plane->carrying->lose_device, protocol->plane);
    for (uint16_t i = 0; whole && i < protocol->ports->count; i++)
        if (!protocol->ports->links[i].present) lose_interface(protocol, &protocol->ports->links[i]);
}

/* Takes one message. A bridge tells of its ports in messages of its own family, which say nothing of their links. */
static void follow_change_or_stop(struct protocol *protocol, const struct nlmsghdr *message) {
    struct changes *own = &protocol->changes;
    const struct ifinfomsg *info = mnl_nlmsg_get_payload(message);
    const struct tcmsg *discipline = mnl_nlmsg_get_payload(message);
    size_t length = mnl_nlmsg_get_payload_len(message);
    uint16_t type = message->nlmsg_type;
    bool answers = own->asking && message->nlmsg_seq == own->asked && message->nlmsg_pid == mnl_socket_get_portid(own->route);
    if (answers && (message->nlmsg_flags & NLM_F_DUMP_INTR)) own->interrupted = true;
    if (answers && (type == NLMSG_DONE || type == NLMSG_ERROR)) end_answer_and_lose_or_stop(protocol, error_of(message));
    if ((type == RTM_NEWQDISC || type == RTM_DELQDISC) && length >= sizeof *discipline)
        note_and_ask_discipline(own, protocol->ports, protocol->device->index, discipline);
    if ((type != RTM_NEWLINK && type != RTM_DELLINK) || length < sizeof *info || info->ifi_family != AF_UNSPEC) return;
    struct interface interface = read_interface(message);
    if (type == RTM_NEWLINK && interface.name[0]) follow_present_or_stop(protocol, &interface);
    if (type == RTM_DELLINK) lose_absent_and_drop_kept_or_end(protocol, &interface);
}

void follow_messages_or_stop(struct protocol *protocol, const void *messages, size_t length) {
    int left = (int)length;
    for (const struct nlmsghdr *message = messages; is_whole(message, left); message = mnl_nlmsg_next(message, &left))
        follow_change_or_stop(protocol, message);
}

/* Takes what the kernel told, up to its end. Where it had no room for some, it says so, and all is asked again, and queues are seen anew. Any program
 * of the machine may send to this socket, too: what does not come from the kernel is not looked at. */
void receive_changes_or_stop(struct protocol *protocol) {
    struct changes *own = &protocol->changes;
    _Alignas(struct nlmsghdr) uint8_t room[ROOM];
    for (int turn = 0; turn < MOST_TAKEN; turn++) {
        struct sockaddr_nl from = {0};
        socklen_t length = sizeof from;
        ssize_t got = recvfrom(mnl_socket_get_fd(own->route), room, sizeof room, MSG_TRUNC, (struct sockaddr *)&from, &length);
        if (got < 0 && errno != ENOBUFS) break;
        if (got >= 0 && from.nl_pid != 0) continue;
        if (got < 0 || got > (ssize_t)sizeof room) {
            EACH_LINK(link, protocol->ports) link->has_new_queues = true;
            own->ask_again = true;
        } else {
            follow_messages_or_stop(protocol, room, (size_t)got);
        }
    }
    EACH_LINK(link, protocol->ports) { /* once for all that was told */
        bool changed = link->has_new_queues;
        link->has_new_queues = false;
        if (changed && !ASK(protocol->plane->queueing->follow, true, protocol->plane->tap, link)) lose_link_and_ask_again(protocol, link);
    }
}

/* Asks for all interfaces again, where something was missed, or could not be taken up; once a second. */
void ask_again_if_due(struct changes *own, struct ports *ports) {
    if (!own->ask_again || own->asking) return;
    EACH_LINK(link, ports) link->present = false;
    own->tap_named = own->ask_again = own->interrupted = false;
    own->asking = ask_for(own, 0, ++own->asked);
}

/* Interfaces are to be taken up as soon as can be. */
void ask_now(struct changes *own, struct ports *ports) {
    own->ask_again = true;
    ask_again_if_due(own, ports);
}

void ask_links(struct changes *own, const struct ports *ports) {
    EACH_LINK_AS_IS(link, ports)
        if (link->socket >= 0) (void)ask_for(own, link->index, 0);
}

/* Looks at carriers, at each tick and where one is suspected: the kernel counts at once that one came or went, but tells of those that go
 * once a second, over all interfaces. It is asked then, and answers at once. */
void read_and_follow_carriers(struct protocol *protocol, bool tick) {
    struct changes *own = &protocol->changes;
    bool any = false;
    if (!tick && !own->suspected) return;
    own->suspected = false;
    EACH_LINK(link, protocol->ports) {
        bool changed = link->socket >= 0 && read_carrier_changes(link);
        if (!changed && link->up && !link->away) note_carrier(protocol->settings, link);
        if (changed || (link->socket >= 0 && choose_aggregator_and_whether_waited(protocol, link)))
            any = ask_for(&protocol->changes, link->index, 0) || any;
    }
    if (any) receive_changes_or_stop(protocol);
}

int open_and_follow_changes_or_stop(struct protocol *protocol) {
    struct changes *own = &protocol->changes;
    own->route = mnl_socket_open2(NETLINK_ROUTE, SOCK_NONBLOCK | SOCK_CLOEXEC);
    if (!own->route || mnl_socket_bind(own->route, RTMGRP_LINK | RTMGRP_TC, MNL_SOCKET_AUTOPID) < 0)
        stop(REFUSED, "no changes of interfaces", strerror(errno));
    for (ask_now(own, protocol->ports); own->asking || own->ask_again; ask_again_if_due(own, protocol->ports)) {
        if (!own->asking) stop(REFUSED, "the kernel takes no question", strerror(errno));
        if (poll(&(struct pollfd){mnl_socket_get_fd(own->route), POLLIN, 0}, 1, PATIENCE) != 1) stop(REFUSED, "no answer", "interfaces");
        if (own->asked > MOST_ASKED) stop(REFUSED, "no whole answer", "interfaces");
        receive_changes_or_stop(protocol);
    }
    return mnl_socket_get_fd(own->route);
}
