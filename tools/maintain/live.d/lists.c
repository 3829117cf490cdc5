/* Lists that the kernel tells (lagd/netlink.c), alone: one that changes while it is told is asked for again, and what was made of it is made anew.
 *
 * It prints a line for each check that fails, and then 'lists: N passed, M failed'; status 1 if one failed. */
#define _GNU_SOURCE
#include <errno.h>
#include <linux/rtnetlink.h>
#include <stdio.h>
#include <string.h>

#include "checks.h"
#include "daemon.h"
#include "netlink.h"

const char *const program = "lists";

/* How many answers are interrupted, and how many were asked for. */
static unsigned interrupted, asked, part;

ssize_t __wrap_mnl_socket_sendto(const struct mnl_socket *socket, const void *question, size_t length);
ssize_t __wrap_mnl_socket_recvfrom(const struct mnl_socket *socket, void *into, size_t room);

ssize_t __wrap_mnl_socket_sendto(const struct mnl_socket *socket, const void *question, size_t length) {
    asked++;
    part = 0;
    return (ssize_t)length;
}

/* An answer of two parts, with two messages in the first one; where it is interrupted, the second one of them says so. */
ssize_t __wrap_mnl_socket_recvfrom(const struct mnl_socket *socket, void *into, size_t room) {
    struct nlmsghdr *message = into;
    CHECK(room >= 64);
    memset(into, 0, 64);
    if (part++ == 0) {
        *message = (struct nlmsghdr){.nlmsg_len = 16, .nlmsg_type = RTM_NEWLINK, .nlmsg_flags = NLM_F_MULTI};
        message[1] = message[0];
        if (asked <= interrupted) message[1].nlmsg_flags |= NLM_F_DUMP_INTR;
        return 32;
    }
    *message = (struct nlmsghdr){.nlmsg_len = 20, .nlmsg_type = NLMSG_DONE, .nlmsg_flags = NLM_F_MULTI};
    return 20;
}

static void count(const struct nlmsghdr *message, void *into) {
    *(unsigned *)into += message->nlmsg_type == RTM_NEWLINK;
}

static void try_list(unsigned broken, bool wanted, unsigned tries) {
    union message question = message_of_interface(RTM_GETLINK, NLM_F_DUMP, 0);
    unsigned seen = 7;
    bool told;
    interrupted = broken;
    asked = 0;
    told = ask_list(NETLINK_ROUTE, &question, count, &seen, sizeof seen);
    CHECK(told == wanted && asked == tries && seen == 9 && (told || errno == EINTR));
}

int main(void) {
    union message question = message_of_interface(RTM_GETLINK, NLM_F_DUMP, 0);
    unsigned seen = 0;
    try_list(0, true, 1);
    try_list(1, true, 2);
    try_list(9, true, 10);
    try_list(100, false, 10);
    interrupted = 1;
    asked = 0;
    CHECK(!ask_netlink(NETLINK_ROUTE, &question, count, &seen) && errno == EINTR && asked == 1);
    return tell_checks();
}
