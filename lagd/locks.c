/* Locks of interfaces, so that no two daemons have one, whatever folders they have: a packet socket that takes nothing, bound to the
 * interface with a protocol that no frame has. The kernel lists those of the network namespace, and lets nobody make one who may not
 * make the sockets of a daemon. */
#include "lagd.h"

#include <linux/if_packet.h>
#include <netinet/in.h>

/* Below 0x0600 there are lengths in a frame, and no types; the kernel has no use of its own for this one. */
#define PROTOCOL 0x05ac

/* A lock that the kernel lists. */
struct lock {
    unsigned long inode; /* of its socket; 0: none */
    unsigned user;
};

static unsigned long inode_of(int fd) {
    struct stat file;
    return fd >= 0 && fstat(fd, &file) == 0 ? (unsigned long)file.st_ino : 0;
}

/* Finds the lock of an interface that is not this socket; answers 0, or -errno where the kernel does not tell. */
static int find_lock(int index, int but_socket, struct lock *found) {
    CLOSED_STREAM FILE *file = fopen("/proc/self/net/packet", "re");
    unsigned long own = inode_of(but_socket);
    char line[256];
    *found = (struct lock){0};
    if (!file) return last_fault();
    while (fgets(line, sizeof line, file)) {
        struct lock lock;
        unsigned protocol;
        int at;
        if (sscanf(line, "%*s %*s %*s %x %d %*s %*s %u %lu", &protocol, &at, &lock.user, &lock.inode) != 4) continue;
        if (protocol == PROTOCOL && at == index && lock.inode != own) *found = lock;
    }
    return ferror(file) ? -EIO : 0;
}

/* Takes the lock of an interface; or answers -errno: -EADDRINUSE where somebody has it. Of two that take it at once one at least sees the
 * other one, since each is bound before it looks. It looks twice: of a list that changes the kernel may leave one out. */
int lock_interface(struct store *store, const struct inherited *inherited, int index) {
    struct sockaddr_ll address = {.sll_family = AF_PACKET, .sll_protocol = htons(PROTOCOL), .sll_ifindex = index};
    int opened = packet_socket(store, inherited, "lock", index, index, SOCK_DGRAM), fault;
    struct lock other = {0};
    if (opened < 0) return opened;
    fault = bind(opened, (struct sockaddr *)&address, sizeof address) < 0 ? last_fault() : find_lock(index, opened, &other);
    if (fault == 0 && other.inode == 0) fault = find_lock(index, opened, &other);
    if (fault == 0 && other.inode == 0) return opened;
    close_stored(store, "lock", index, opened);
    return fault == 0 ? -EADDRINUSE : fault;
}

const char *holder_of(const struct ports *ports, int index, char room[static HOLDER_ROOM]) {
    struct lock lock;
    bool own = false;
    if (find_lock(index, -1, &lock) < 0 || lock.inode == 0) return "one that has left it now";
    EACH_LINK_AS_IS(link, ports) own = own || inode_of(link->lock) == lock.inode;
    snprintf(room, HOLDER_ROOM, own ? "this lagd, by another name" : "one of user %u", lock.user);
    return room;
}
