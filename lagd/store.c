/* The manager of services, if one started the daemon: it is told what that does. And its store: files that it keeps open while no daemon runs,
 * so that the next one goes on with them. Each has the name of its kind, of its network namespace, and a number, mostly that of an interface. */
#include "lagd.h"

#ifdef HAVE_SYSTEMD
#include <systemd/sd-daemon.h>
#define HAS_LIBRARY true
#else
#define HAS_LIBRARY false
#define sd_pid_notify_with_fds(...) 0
#define sd_notify(...) 0
#define sd_notifyf(...) 0
#define sd_listen_fds_with_names(...) 0
#define SD_LISTEN_FDS_START 3
#endif
#include <linux/if_packet.h>

#define EACH_STORED(it, of) for (struct stored *it = (of)->stored; it < (of)->stored + (of)->count; it++)

void notify(const char *what UNUSED) {
    (void)sd_notify(0, what);
}

void notify_bundle(const struct bundle *bundle UNUSED, const char *what UNUSED) {
    (void)sd_notifyf(0, "%sSTATUS=%s, %u of %u links carry", what, BUNDLE_STATE_TEXTS[bundle->state], bundle->carrying, bundle->links);
}

static void name_stored_in_namespace(const char *kind, int number, char room[static NAME_OF_FILE]) {
    snprintf(room, NAME_OF_FILE, "%s-%lu-%d", kind, network_namespace(), number);
}

static void tell_store(const char *what, const char *name, int fd) {
    char text[128];
    snprintf(text, sizeof text, "%s=1\n%sFDNAME=%.*s", what, fd < 0 ? "" : "FDPOLL=0\n", NAME_OF_FILE - 1, name);
    (void)sd_pid_notify_with_fds(0, 0, text, &fd, fd < 0 ? 0 : 1);
}

/* Whether there is a manager that keeps files: systemd says so from 254 on, and the unit does. */
bool has_store(void) {
    const char *manager = getenv("NOTIFY_SOCKET"), *most = getenv("FDSTORE");
    return HAS_LIBRARY && manager && manager[0] && most && atoi(most) > 0;
}

/* The manager keeps a file, too, until drop_stored_without_closing. Where the kernel cannot compare files (kcmp), it would keep one twice that it
 * has already. */
void put_stored(const struct store *own, const char *kind, int number, int fd) {
    char name[NAME_OF_FILE];
    name_stored_in_namespace(kind, number, name);
    for (size_t i = 0; i < own->count; i++)
        if (own->stored[i].taken == fd && strcmp(own->stored[i].name, name) == 0) return;
    if (has_store()) tell_store("FDSTORE", name, fd);
}

void drop_stored_without_closing(struct store *own, const char *kind, int number) {
    char name[NAME_OF_FILE];
    name_stored_in_namespace(kind, number, name);
    EACH_STORED(it, own)
        if (strcmp(it->name, name) == 0) it->taken = -1;
    if (has_store()) tell_store("FDSTOREREMOVE", name, -1);
}

/* A file that the last daemon left, and that is taken, or not; or NULL. */
static struct stored *find_stored(struct store *own, const char *kind, int number, bool taken) {
    char name[NAME_OF_FILE];
    name_stored_in_namespace(kind, number, name);
    EACH_STORED(it, own)
        if ((it->fd < 0) == taken && strcmp(it->name, name) == 0) return it;
    return NULL;
}

/* Takes a file that the last daemon left; or -1. */
int claim_stored(struct store *own, const char *kind, int number) {
    struct stored *found = find_stored(own, kind, number, false);
    if (!found) return -1;
    found->taken = found->fd;
    found->fd = -1;
    return found->taken;
}

/* Gives back what was taken, for who takes it next; what the last daemon did not leave is closed. The manager closes what it is to keep no more a
 * moment later, and a lock is held until then. */
void return_stored_or_close(struct store *own, const char *kind, int number, int fd) {
    struct stored *found = find_stored(own, kind, number, true);
    if (!found) {
        close(fd);
        return;
    }
    found->fd = fd;
    found->taken = -1;
}

/* Whether a file keeps a program that one in use keeps, too: the manager may hand over the same file twice. */
static bool keeps_program_in_use(const struct store *own, int fd) {
    uint32_t number = program_keeper(fd);
    for (size_t i = 0; i < own->count; i++)
        if (number != 0 && own->stored[i].taken >= 0 && program_keeper(own->stored[i].taken) == number) return true;
    return false;
}

/* What nobody took is kept no more, and its programs run no more. The manager forgets all files of a name: it keeps again what of them is in use. */
void detach_and_drop_unclaimed(struct store *own) {
    EACH_STORED(it, own) {
        if (it->fd < 0) continue;
        tell_store("FDSTOREREMOVE", it->name, -1);
        EACH_STORED(other, own)
            if (other->taken >= 0 && strcmp(other->name, it->name) == 0) tell_store("FDSTORE", other->name, other->taken);
        if (!keeps_program_in_use(own, it->fd)) detach_program(it->fd);
        close(it->fd);
        it->fd = -1;
    }
}

/* The program ends, by whatever it is refused: nothing goes on without it, as the carrier of its device. */
static void empty_store_of_manager(int status UNUSED, void *given) {
    struct process *process = given;
    if (process->has_left) return;
    EACH_STORED(it, &process->store) tell_store("FDSTOREREMOVE", it->name, -1);
}

void receive_stored_or_stop(struct process *process) {
    struct store *own = &process->store;
    char **names = NULL;
    int found = sd_listen_fds_with_names(1, &names);
    for (int i = 0; i < found; i++) {
        int fd = SD_LISTEN_FDS_START + i;
        struct stored *stored = &own->stored[own->count];
        if (own->count == MOST_STORED) {
            close(fd);
        } else {
            own->count++;
            stored->fd = fd;
            stored->taken = -1;
            snprintf(stored->name, sizeof stored->name, "%s", names[i]);
        }
        free(names[i]);
    }
    free(names);
    need(on_exit(empty_store_of_manager, process) == 0, "on_exit");
}

/* Closes a file that the manager keeps, too, and leaves errno as it is. */
void close_stored(struct store *own, const char *kind, int number, int fd) {
    int fault = errno;
    drop_stored_without_closing(own, kind, number);
    close(fd);
    errno = fault;
}

/* Whether a packet socket still has its interface. One that was made anew with the same number is another one. */
bool is_bound(int fd, int index) {
    struct sockaddr_ll address = {0};
    socklen_t length = sizeof address;
    return getsockname(fd, (struct sockaddr *)&address, &length) == 0 && address.sll_family == AF_PACKET && address.sll_ifindex == index;
}

/* A packet socket for an interface, stored for a link with an index: the one that the last daemon left, with what came meanwhile unless that
 * is old, or a new one, which takes nothing before it is bound; or -errno. */
int packet_socket(struct store *store, const struct inherited *inherited, const char *kind, int of, int index, int type) {
    int fd = claim_stored(store, kind, of);
    if (fd >= 0 && is_bound(fd, index) && (type == SOCK_DGRAM || was_away_briefly(inherited))) return fd;
    if (fd >= 0) close_stored(store, kind, of, fd);
    fd = socket(AF_PACKET, type | SOCK_NONBLOCK | SOCK_CLOEXEC, 0);
    return fd < 0 ? -errno : fd;
}

/* As attach_program, in the place of the program of the last daemon, where that left one; the manager of services keeps it, too. */
int attach_stored(struct store *own, const char *kind, int program, int index, bool egress) {
    int attached = claim_stored(own, kind, index);
    if (attached >= 0 && exchange_program(attached, program, index)) return attached;
    if (attached >= 0) detach_stored(own, kind, index, attached);
    attached = attach_program(program, index, egress);
    if (attached >= 0) put_stored(own, kind, index, attached);
    return attached;
}

void detach_stored(struct store *own, const char *kind, int index, int attached) {
    detach_program(attached);
    close_stored(own, kind, index, attached);
}
