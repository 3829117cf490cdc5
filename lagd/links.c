/* Interfaces: the lock and the packet socket of each, its carrier, and what is sent there. */
#include "lagd.h"

#include <linux/if_packet.h>
#include <linux/pkt_sched.h>
#include <linux/sockios.h>
#include <net/ethernet.h>
#include <net/if.h>
#include <netinet/in.h>
#include <sys/ioctl.h>

/* How many ticks a failure is told of, so that a queue that is full now and then is one line. */
#define TROUBLE_TICKS 50

/* A packet socket of an interface, for the frames of the slow protocols alone; or -errno. */
static int open_slow_socket(struct store *store, const struct inherited *inherited, int index) {
    struct sockaddr_ll address = {.sll_family = AF_PACKET, .sll_protocol = htons(ETH_P_SLOW), .sll_ifindex = index};
    struct packet_mreq member = {index, PACKET_MR_MULTICAST, 6, {0x01, 0x80, 0xc2, 0x00, 0x00, 0x02}};
    int opened = packet_socket(store, inherited, "lacp", index, index, SOCK_RAW);
    if (opened < 0) return opened;
    (void)setsockopt(opened, SOL_SOCKET, SO_PRIORITY, &(int){TC_PRIO_CONTROL}, sizeof(int)); /* before data */
    (void)setsockopt(opened, SOL_PACKET, PACKET_IGNORE_OUTGOING, &(int){1}, sizeof(int));
    if (setsockopt(opened, SOL_PACKET, PACKET_AUXDATA, &(int){1}, sizeof(int)) == 0 && bind(opened, (struct sockaddr *)&address, sizeof address) == 0
        && setsockopt(opened, SOL_PACKET, PACKET_ADD_MEMBERSHIP, &member, sizeof member) == 0)
        return opened;
    close_stored(store, "lacp", index, opened);
    return last_fault();
}

/* Whether a frame of control passes data that waits in a queueing discipline: by its priority, or as the rare frame of a flow of its own. */
static bool is_passable(const char *discipline) {
    static const char *const passable[] = {"noqueue", "pfifo_fast", "prio", "fq_codel", "mq"};
    for (size_t i = 0; i < sizeof passable / sizeof *passable; i++)
        if (strcmp(discipline, passable[i]) == 0) return true;
    return false;
}

/* Gives the kernel a frame, by its queueing discipline or by none; answers whether it took it. */
static bool give_kernel(int fd, const uint8_t *frame, bool bypass) {
    (void)setsockopt(fd, SOL_PACKET, PACKET_QDISC_BYPASS, &(int){bypass}, sizeof(int));
    return send(fd, frame, NIW_FRAME, 0) == NIW_FRAME;
}

/* Gives the kernel a frame, past a discipline in which it would wait behind data, or be refused with them: the order of LACPDUs and data
 * does not matter, and a marker goes by the socket of the data. No capture of this host shows what goes so. Where the driver has no room
 * at once, the frame waits with the data, and those after it go the same way until it left: an LACPDU that came behind a newer one would
 * undo that. */
static bool give_past_data(const struct link *link, bool *queued, const uint8_t *frame) {
    int octets = 0;
    *queued = *queued && ioctl(link->socket, SIOCOUTQ, &octets) == 0 && octets > 0;
    if (*queued || (is_passable(link->discipline) && !link->has_fifos)) return give_kernel(link->socket, frame, false);
    if (give_kernel(link->socket, frame, true)) return true;
    *queued = errno == ENOBUFS && give_kernel(link->socket, frame, false);
    return *queued;
}

/* Reads a file of an interface, from its beginning; answers whether there was something. */
bool read_text(int fd, char *text, size_t room) {
    ssize_t length = fd < 0 ? -1 : pread(fd, text, room - 1, 0);
    if (length > 0) text[length] = 0;
    return length > 0;
}

/* Opens a file or a folder that /sys has of an interface; or -1, as where /sys has another network namespace. It stays the same interface's where
 * that gets another name. */
int open_in_sys(int index, const char *what, int flags) {
    char name[IF_NAMESIZE], path[64], text[16];
    if (!if_indextoname((unsigned)index, name)) return -1;
    snprintf(path, sizeof path, "/sys/class/net/%s", name);
    CLOSED_FILE int folder = open(path, O_PATH | O_DIRECTORY | O_CLOEXEC);
    CLOSED_FILE int number = folder < 0 ? -1 : openat(folder, "ifindex", O_RDONLY | O_CLOEXEC);
    return read_text(number, text, sizeof text) && atoi(text) == index ? openat(folder, what, flags | O_CLOEXEC) : -1;
}

/* Sees whether the carrier of a link may have changed since this was seen last. */
bool read_carrier_changes(struct link *link) {
    char now[sizeof link->carrier_changes];
    if (!read_text(link->carrier_file, now, sizeof now)) return true;
    if (strcmp(now, link->carrier_changes) == 0) return false;
    memcpy(link->carrier_changes, now, sizeof now);
    return true;
}

static void close_files_of_link(struct store *store, struct link *link) {
    if (link->socket >= 0) close_stored(store, "lacp", link->index, link->socket);
    if (link->lock >= 0) close_stored(store, "lock", link->index, link->lock);
    if (link->carrier_file >= 0) close(link->carrier_file);
    link->socket = link->lock = link->carrier_file = -1;
}

/* Opens what an interface that is taken up has; answers 0, or -errno. */
static int open_files_and_add_member(struct process *process, struct plane *plane, struct link *link, int index) {
    link->index = index;
    link->lock = lock_interface(&process->store, process->inherited, index);
    if (link->lock < 0) return link->lock;
    link->socket = open_slow_socket(&process->store, process->inherited, index);
    if (link->socket < 0) return link->socket;
    if (!await_input(process->epoll_file, link->socket, link->settings.number)) return last_fault();
    return ASK(plane->carrying->add, 0, plane, link);
}

/* Takes up the interface of this number; answers whether it did, and else `trouble` has why not. */
bool take_up_interface(struct process *process, struct plane *plane, struct link *link, int index) {
    link->trouble = -open_files_and_add_member(process, plane, link, index);
    bool taken = link->trouble == 0;
    if (taken) put_stored(&process->store, "lock", index, link->lock);
    if (taken) put_stored(&process->store, "lacp", index, link->socket);
    link->carrier_file = open_in_sys(index, "carrier_changes", O_RDONLY); /* how often that came and went */
    link->carrier_changes[0] = 0;
    link->trouble_ticks = TROUBLE_TICKS;
    link->unsent = link->queued = false;
    link->changed = true;
    if (!taken) close_files_of_link(&process->store, link);
    return taken;
}

void withdraw_and_release_interface_or_end(struct plane *plane, struct store *store, struct link *link) {
    CALL(plane->carrying->remove, plane, link);
    CALL(plane->carrying->follow_mtu, plane, link, 0);
    close_files_of_link(store, link);
    link->unsent = false;
    link->changed = true;
}

/* Sends a frame, with the address that the interface has now. An LACPDU that the kernel does not take is sent again at each tick,
 * until a newer one is due; so is one for which a second has no room: the library counts ticks, of which two may come at once where one was late. A
 * response is lost, as on a wire. A response tells of what came before its marker, and may pass what goes. */
void send_frame(struct core *core, bool *carrier_suspected, struct link *link, const uint8_t *frame) {
    bool is_lacpdu = frame[SUBTYPE_AT] == SUBTYPE_LACP;
    uint8_t sent[NIW_FRAME];
    if (link->socket < 0) return;
    memcpy(sent, frame, sizeof sent);
    if (is_lacpdu) {
        memcpy(link->frame, sent, sizeof link->frame);
        link->unsent = true;
        if (link->lacpdus_at[0] != 0 && boottime() - link->lacpdus_at[0] <= 1000) return;
        link->tried = true;
    }
    memcpy(sent + ETH_ALEN, link->mac, ETH_ALEN);
    if (give_past_data(link, &link->queued, sent)) {
        if (is_lacpdu) link->unsent = false;
        if (!is_done(core, niw_count_sent(&link->counters, sent, sizeof sent), "niw_count_sent") || !is_lacpdu) return;
        memmove(link->lacpdus_at, link->lacpdus_at + 1, sizeof link->lacpdus_at - sizeof *link->lacpdus_at);
        link->lacpdus_at[MOST_LACPDUS - 1] = boottime();
        return;
    }
    link->counts[FAILED_SENT]++;
    *carrier_suspected = true;
    if (errno == ENETDOWN || errno == ENXIO) return; /* of a link that is down the kernel tells, too */
    link->trouble = errno;
    link->trouble_ticks = TROUBLE_TICKS;
    link->changed = true;
}
