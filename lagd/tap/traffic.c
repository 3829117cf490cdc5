/* What the kernel does with frames at a member beside its programs (traffic control): the queueing discipline of what it sends, and a
 * classifier of what it receives. */
#include "tap.h"
#include "netlink.h"

#include <linux/pkt_cls.h>
#include <linux/pkt_sched.h>
#include <linux/rtnetlink.h>
#include <netinet/in.h>

/* What waits at a member: the octets of 50 ms at the speed of its link, within these bounds; the most where nobody tells a speed. */
#define OCTETS_QUEUED(megabits) ((uint64_t)(megabits) * 125 * 50)
#define LEAST_QUEUED (64 * (ETH_HLEN + ETH_DATA_LEN))
#define MOST_QUEUED (4 << 20)
/* By these the next daemon knows after a crash what the last one set: the handle of a discipline, and of a classifier, behind those of
 * others, in a place that the daemon made or found. */
#define FIFO 0x6c610000u
#define PRIORITY 0xffff0000u
enum { PLACE_MADE = 1, PLACE_FOUND = 2 };

static union message question_of(uint16_t type, unsigned flags, int index, uint32_t parent, uint32_t handle) {
    struct tcmsg about = {.tcm_ifindex = index, .tcm_parent = parent, .tcm_handle = handle};
    return message_of(type, NLM_F_ACK | flags, &about, sizeof about);
}

bool read_discipline(int index, char name[static DISCIPLINE_ROOM]) {
    struct interface interface;
    if (!ask_interface(index, NULL, &interface) || !interface.discipline[0]) return false;
    memcpy(name, interface.discipline, DISCIPLINE_ROOM);
    return true;
}

bool keeps_order(const char *discipline) {
    return strcmp(discipline, "noqueue") == 0 || strcmp(discipline, "bfifo") == 0 || strcmp(discipline, "pfifo") == 0;
}

/* 0 and SPEED_UNKNOWN tell no speed. */
static uint32_t most_queued(uint32_t megabits) {
    uint64_t octets = OCTETS_QUEUED(megabits);
    if (megabits == 0 || octets > MOST_QUEUED) return MOST_QUEUED;
    return octets < LEAST_QUEUED ? LEAST_QUEUED : (uint32_t)octets;
}

static bool set_fifo(int index, uint32_t megabits, unsigned flags, uint32_t parent, uint32_t handle) {
    union message question = question_of(RTM_NEWQDISC, flags, index, parent, handle);
    struct tc_fifo_qopt most = {most_queued(megabits)};
    mnl_attr_put_strz(&question.head, TCA_KIND, "bfifo");
    mnl_attr_put(&question.head, TCA_OPTIONS, sizeof most, &most);
    return call_rtnetlink(&question);
}

static bool change_root(uint16_t type, unsigned flags, int index, uint32_t handle, const char *kind) {
    union message question = question_of(type, flags, index, TC_H_ROOT, handle);
    if (kind) mnl_attr_put_strz(&question.head, TCA_KIND, kind);
    return call_rtnetlink(&question);
}

struct disciplines {
    int index;
    unsigned sends;  /* how many queues send now: the kernel tells of those that do not, too */
    bool in_order;   /* whether all keep the order */
    bool changeable; /* whether the kernel gave by itself each that does not */
    unsigned queues; /* how many that send have one of their own, below that of the daemon */
};

/* Sees one of them: the root, one of a queue, or one below that. A tbf has one row. */
static void parse_discipline(const struct nlmsghdr *message, void *into) {
    struct disciplines *seen = into;
    const struct tcmsg *about = mnl_nlmsg_get_payload(message);
    char kind[DISCIPLINE_ROOM] = "";
    if (message->nlmsg_type != RTM_NEWQDISC || mnl_nlmsg_get_payload_len(message) < sizeof *about) return;
    if (about->tcm_ifindex != seen->index || about->tcm_parent == TC_H_CLSACT) return;
    const struct nlattr *told = attribute_of(message, sizeof *about, TCA_KIND);
    if (told) copy_text(told, kind, sizeof kind);
    bool in_order = about->tcm_parent == TC_H_ROOT ? about->tcm_handle == FIFO && strcmp(kind, "mq") == 0 : strcmp(kind, "tbf") == 0;
    in_order = in_order || keeps_order(kind);
    seen->queues += TC_H_MAJ(about->tcm_parent) == FIFO && TC_H_MIN(about->tcm_parent) <= seen->sends;
    seen->in_order = seen->in_order && in_order;
    seen->changeable = seen->changeable && (in_order || about->tcm_handle == 0);
}

/* Sees the queueing disciplines of an interface. The kernel tells of those of all: what it does not tell in full may be of others. */
static struct disciplines read_disciplines(int index) {
    union message question = question_of(RTM_GETQDISC, NLM_F_DUMP, index, 0, 0);
    struct disciplines seen = {index, count_sending_queues(index), true, true, 0};
    if (!ask_list(NETLINK_ROUTE, &question, parse_discipline, &seen, sizeof seen)) seen.in_order = seen.changeable = false;
    return seen;
}

/* Whether each queue of an interface has a discipline still, and that keeps the order, whatever others put there. A queue without one loses all. */
bool all_queues_keep_order(int index) {
    struct disciplines seen = read_disciplines(index);
    return seen.in_order && seen.queues == seen.sends;
}

/* Whether each queue of an interface keeps the order, or would as soon as give_each_fifo gave it a discipline. */
bool may_all_queues_keep_order(int index) {
    return read_disciplines(index).changeable;
}

/* Gives an interface one queue that keeps the order, in place of what the kernel gave it by itself, or one for each of its own: so the order of
 * one stays, and none waits for another one. The last daemon may have left one for all. What an administrator set stays; answers whether all keep
 * the order. */
bool give_each_fifo(int index, unsigned queues, uint32_t megabits) {
    if (queues <= 1) return set_fifo(index, megabits, NLM_F_CREATE, TC_H_ROOT, FIFO);
    bool given = change_root(RTM_NEWQDISC, NLM_F_CREATE, index, FIFO, "mq");
    if (!given) drop_fifo(index);
    if (!given && !change_root(RTM_NEWQDISC, NLM_F_CREATE, index, FIFO, "mq")) return false;
    make_or_fit_each_fifo(index, queues, megabits);
    return all_queues_keep_order(index);
}

/* The link has this speed now: each queue of an interface gets its length, if it is one of the daemon. Of several, one that the kernel chose by
 * itself goes, and one of the daemon comes in its place. Where an administrator set another one, the kernel refuses. */
void make_or_fit_each_fifo(int index, unsigned queues, uint32_t megabits) {
    if (queues <= 1) (void)set_fifo(index, megabits, 0, TC_H_ROOT, FIFO);
    for (unsigned queue = 0; queues > 1 && queue < queues; queue++)
        (void)set_fifo(index, megabits, NLM_F_CREATE, FIFO | (queue + 1), 0);
}

/* The kernel gives an interface what it chooses by itself, if its queue is one of the daemon. */
void drop_fifo(int index) {
    (void)change_root(RTM_DELQDISC, 0, index, FIFO, NULL);
}

/* An interface gets no queueing discipline, unless an administrator gave it one. Which it has then is told with all interfaces. */
void give_no_queue(int index) {
    (void)change_root(RTM_NEWQDISC, NLM_F_CREATE | NLM_F_EXCL, index, 0, "noqueue");
}

static union message question_of_place(uint16_t type, unsigned flags, int index) {
    union message question = question_of(type, flags, index, TC_H_CLSACT, TC_H_MAKE(TC_H_CLSACT, 0));
    mnl_attr_put_strz(&question.head, TCA_KIND, "clsact");
    return question;
}

static union message question_of_classifier(uint16_t type, unsigned flags, int index, uint32_t handle) {
    struct tcmsg about = {.tcm_ifindex = index, .tcm_parent = TC_H_MAKE(TC_H_CLSACT, TC_H_MIN_INGRESS), .tcm_handle = handle};
    about.tcm_info = TC_H_MAKE(PRIORITY, htons(ETH_P_ALL));
    union message question = message_of(type, NLM_F_ACK | flags, &about, sizeof about);
    mnl_attr_put_strz(&question.head, TCA_KIND, "bpf");
    return question;
}

static bool has_classifier(int index, uint32_t handle) {
    union message question = question_of_classifier(RTM_GETTFILTER, 0, index, handle);
    return call_rtnetlink(&question);
}

/* Sees a filter: whether it is nothing but the classifier of the daemon, of which the kernel tells first of its priority, and then of itself. */
static void parse_filter(const struct nlmsghdr *message, void *alone) {
    const struct tcmsg *about = mnl_nlmsg_get_payload(message);
    bool own = message->nlmsg_type == RTM_NEWTFILTER && mnl_nlmsg_get_payload_len(message) >= sizeof *about
        && about->tcm_info == TC_H_MAKE(PRIORITY, htons(ETH_P_ALL)) && about->tcm_handle <= PLACE_MADE
        && about->tcm_parent == TC_H_MAKE(TC_H_CLSACT, TC_H_MIN_INGRESS);
    if (!own) *(bool *)alone = false;
}

/* Whether nobody else has a filter in this direction of a place. What is not told in full may be of others. */
static bool has_own_alone(int index, uint32_t direction) {
    union message question = question_of(RTM_GETTFILTER, NLM_F_DUMP, index, TC_H_MAKE(TC_H_CLSACT, direction), 0);
    bool alone = true;
    return ask_list(NETLINK_ROUTE, &question, parse_filter, &alone, sizeof alone) && alone;
}

/* The classifier goes: with its place, if the daemon made that and nobody else uses it by now. */
static void remove_filter_and_unused_place(int index, bool made) {
    bool alone = made && has_own_alone(index, TC_H_MIN_INGRESS) && has_own_alone(index, TC_H_MIN_EGRESS);
    union message place = question_of_place(RTM_DELQDISC, 0, index);
    union message own = question_of_classifier(RTM_DELTFILTER, 0, index, made ? PLACE_MADE : PLACE_FOUND);
    (void)call_rtnetlink(alone ? &place : &own);
}

/* Has a program look at what the stack of an interface would get, on a kernel without TCX. It stays when the daemon is killed, and the next
 * one takes it over. */
enum classifier set_classifier(int program, int index) {
    union message place = question_of_place(RTM_NEWQDISC, NLM_F_CREATE | NLM_F_EXCL, index), question;
    bool made = call_rtnetlink(&place) || has_classifier(index, PLACE_MADE);
    question = question_of_classifier(RTM_NEWTFILTER, NLM_F_CREATE, index, made ? PLACE_MADE : PLACE_FOUND);
    struct nlattr *nest = mnl_attr_nest_start(&question.head, TCA_OPTIONS);
    mnl_attr_put_u32(&question.head, TCA_BPF_FD, (uint32_t)program);
    mnl_attr_put_u32(&question.head, TCA_BPF_FLAGS, TCA_BPF_FLAG_ACT_DIRECT);
    mnl_attr_nest_end(&question.head, nest);
    if (call_rtnetlink(&question)) return made ? CLASSIFIER_ALONE : CLASSIFIER_BEHIND_OTHERS;
    if (made) remove_filter_and_unused_place(index, true);
    return NO_CLASSIFIER;
}

void drop_classifier(int index) {
    remove_filter_and_unused_place(index, has_classifier(index, PLACE_MADE));
}
