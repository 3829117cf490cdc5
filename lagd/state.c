/* The state that a daemon leaves to the next one: a file beside the status socket, written each second and at the end. A line is added to it
 * before the first frame of a conversation goes on another link. It goes with each stop of which the peers are told. With state-dir there is a
 * copy for the first daemon after a reboot, which knows interfaces by their names, and times by the clock on the wall. It may be on a disk that
 * takes long, so a process of its own writes it. */
#include "carry.h"

#include <dirent.h>
#include <limits.h>
#include <net/if.h>
#include <poll.h>
#include <signal.h>
#include <sys/file.h>
#include <sys/prctl.h>
#include <sys/syscall.h>

/* It rises with each change of the file, and of what programs of the kernel share with the daemon. */
#define FORM_VERSION 3
/* An older one that is read as well: it names no network namespace. */
#define FORM_WITHOUT_SPACE 2
#define WAY_ROOM 96
/* A marker that went after the file was written has another identifier than those from here on. */
#define UNWRITTEN_MARKERS 65536
/* For how long frames may have waited, in milliseconds: with the second in which a state is written. */
#define MOST_AWAY 3000
/* How often a copy is written while the same ports would go on from it, in milliseconds: the oldest one that is of use is 90 s old. */
#define COPIED_EVERY 10000
/* How long a daemon that ends waits for who writes a copy, for the kernel to make who writes the last one, and for that one, in milliseconds. */
#define MOST_COPYING 500
/* The files of the daemon have lower numbers; one of whoever started it may have a higher one. */
#define MOST_OPENED 4096
/* A fault of a copy: who writes it waits for the disk. */
#define HANGS (-ETIME)

uint64_t boottime(void) {
    return milliseconds_of(CLOCK_BOOTTIME);
}

/* The settings by which the rest means something. */
static const char *way_text(const struct carry *carry, char room[static WAY_ROOM]) {
    const struct settings *settings = carry->settings;
    struct system_id own = own_system(settings);
    snprintf(room, WAY_ROOM, "%s/%s%s/%s/%u/%s", system_text(&own, TEXT_ROOM), settings->carry, carry->plane->carrying->nameless,
        HASHES[settings->hash], settings->hash_seed, carry->plane->way);
    return room;
}

/* Whether a port goes on from what is saved of it. */
static bool is_carrying(const struct link *link) {
    return link->view.port_status == NIW_PORT_STATUS_DISTRIBUTING && !link->view.defaulted && link->lacpdu_at != 0;
}

/* Writes the interface of each conversation: the one that it leaves, while it is held. */
static void write_conversations(struct core *core, const struct carry *carry, int members[static CONVERSATIONS], FILE *file) {
    memset(members, 0, CONVERSATIONS * sizeof *members);
    for (uint16_t number = 0; number < CONVERSATIONS; number++) {
        struct niw_assignment assigned;
        uint16_t home = carry->conversations[number].home;
        if (home == 0 || !ask_state(core, home, number, &assigned)
            || assigned.what == NIW_CONVERSATION_FREE)
            continue;
        if (assigned.port == 0 || assigned.port > carry->ports->count) continue;
        members[number] = carry->ports->links[assigned.port - 1].index;
        fprintf(file, "on %u %d\n", number, members[number]);
    }
}

static void write_state(struct core *core, const struct state *own, int members[static CONVERSATIONS], FILE *file) {
    const struct carry *carry = own->carry;
    const struct protocol *protocol = carry->protocol;
    struct niw_marker marker = niw_next_marker(&core->system);
    char boot[BOOT_ROOM], room[WAY_ROOM], mac[32];
    fprintf(file, "lagd %u\nboot %s\nway %s\n", FORM_VERSION, boot_id(boot), way_text(carry, room));
    fprintf(file, "space %" PRIu64 "\nwritten %" PRIu64 "\n", own->space, boottime());
    if (own->copy_folder >= 0) fprintf(file, "wall %" PRIu64 "\n", milliseconds_of(CLOCK_REALTIME));
    fprintf(file, "marker %" PRIu32 "\n", is_done(core, marker.status, "niw_next_marker") && marker.left ? marker.id : 0);
    fprintf(file, "bundle %u %u %lld\n", protocol->bundle.state, protocol->bundle.aggregator, (long long)protocol->bundle.changed_at);
    if (protocol->choice.followed != 0) fputs("follows\n", file);
    if (carry->device->index != 0)
        fprintf(file, "tap %d %d %" PRIu32 " %u\n", carry->device->index, carry->plane->owns_device,
            carry->device->less_mtu, carry->probe.peer);
    EACH_LINK_AS_IS(link, carry->ports)
        if (link->used) fprintf(file, "port %u %d %s\n", link->settings.number, link->socket >= 0 ? link->index : 0, link->name);
    EACH_LINK_AS_IS(link, carry->ports) {
        if (link->socket < 0) continue;
        fprintf(file, "link %d %s %" PRIu32 " %d %" PRIu64 " %" PRIu64 " ", link->index, mac_text(link->mac, mac), link->kernel_losses,
            is_carrying(link), link->lacpdu_at, link->lacpdus_at[MOST_LACPDUS - 1]);
        for (size_t i = 0; i < NIW_FRAME; i++) fprintf(file, "%02x", link->lacpdu[i]);
        fprintf(file, " %u\n", link->view.aggregator);
    }
    write_conversations(core, carry, members, file);
    fputs("end\n", file);
}

/* This file, or none for NULL, is the state that was written last. */
static void keep_file(FILE **kept, FILE *file) {
    if (*kept) fclose(*kept);
    *kept = file;
}

/* Removes what processes that were killed wrote of a copy: one that still hangs on the disk finds nothing then to put in the place of another. */
static void remove_new_copies(const struct state *own) {
    size_t length = strlen(own->copy_name);
    int fd = openat(own->copy_folder, ".", O_RDONLY | O_DIRECTORY | O_CLOEXEC), writer, end = 0;
    DIR *listed = fd < 0 ? NULL : fdopendir(fd);
    for (struct dirent *entry; listed && (entry = readdir(listed)); end = 0)
        if (strncmp(entry->d_name, own->copy_name, length) == 0 && sscanf(entry->d_name + length, ".%d.new%n", &writer, &end) == 1
            && end > 0 && !entry->d_name[length + (size_t)end])
            (void)unlinkat(own->copy_folder, entry->d_name, 0);
    if (listed) closedir(listed);
    else if (fd >= 0) close(fd);
}

/* Puts a whole file in the place of the last one; it is on the disk, and so is its name, if it `lasts`. Answers it, or NULL, and errno tells why. */
static FILE *replace_file(struct core *core, const struct state *own, int members[static CONVERSATIONS], int folder, const char *name, bool lasts) {
    char new_name[NAME_ROOM + 64];
    snprintf(new_name, sizeof new_name, "%s.new", name);
    if (lasts) snprintf(new_name, sizeof new_name, "%s.%d.new", name, (int)getpid()); /* whoever writes a copy has a file of its own */
    FILE *file = open_in(folder, new_name, O_WRONLY | O_CREAT | O_TRUNC | O_APPEND, "a");
    if (!file) return NULL;
    write_state(core, own, members, file);
    if (fflush(file) == 0 && !ferror(file) && (!lasts || fsync(fileno(file)) == 0) && !core->broken
        && renameat(folder, new_name, folder, name) == 0 && (!lasts || fsync(folder) == 0))
        return file;
    int fault = errno;
    fclose(file);
    (void)unlinkat(folder, new_name, 0);
    errno = fault;
    return NULL;
}

/* It could not be written: there is none. */
static void give_up_file_and_tell(struct state *own) {
    if (!own->failed)
        (void)say(own->carry->core->printer, LOG_WARNING | ABOUT_HANDOVER, "its state cannot be kept, so the next daemon starts anew: %s",
            strerror(-last_fault()));
    own->failed = true;
    (void)unlinkat(own->carry->process->folder, own->name, 0);
    keep_file(&own->file, NULL);
}

/* The next frame of a conversation goes on this port: a daemon that goes on from here has to know. */
void write_port_of_conversation(struct state *own, uint16_t number, uint16_t port) {
    int index = own->carry->ports->links[port - 1].index;
    if (!own->file || own->members[number] == index) return;
    own->members[number] = index;
    if (fprintf(own->file, "on %u %d\n", number, index) < 0 || fflush(own->file) != 0) give_up_file_and_tell(own);
}

/* Removes a state, or what it has, on the disk too if it `lasts`; answers 0, or -errno. */
static int remove_file(int folder, const char *name, bool lasts) {
    int fault = unlinkat(folder, name, 0) < 0 ? last_fault() : 0;
    if (fault == -ENOENT) return 0;
    CLOSED_FILE int emptied = fault < 0 ? openat(folder, name, O_WRONLY | O_TRUNC | O_NOFOLLOW | O_NONBLOCK | O_CLOEXEC) : -1;
    if (fault < 0 && emptied < 0) return last_fault();
    return lasts && fsync(emptied < 0 ? folder : emptied) < 0 ? last_fault() : 0;
}

static const char *fault_text(int fault) {
    return fault == HANGS ? "its disk does not answer" : strerror(-fault);
}

static void tell_failed_removal(struct printer *printer, const char *name, int fault) {
    if (fault < 0)
        (void)say(printer, LOG_ERR | ABOUT_HANDOVER,
            "its state cannot be removed: %s: remove %s, or start no daemon for as long as a partner is waited for", fault_text(fault), name);
}

/* What became of a copy: each is 0, or -errno. */
struct copied {
    int written, removed;
};

/* What is wrong with a copy has a line, of several faults in a row the first one, and so has their end. */
static void tell_outcome_of_copy(struct state *own, struct copied copied) {
    struct process *process = own->carry->process;
    const char *folder = own->carry->settings->state_dir;
    bool failed = copied.written < 0 || copied.removed < 0;
    if (copied.written < 0 && !own->copy_failed)
        (void)say(&process->printer, LOG_WARNING | ABOUT_HANDOVER, "its state cannot be kept in %s, and what is there may stay: %s", folder,
            fault_text(copied.written));
    if (!own->copy_failed) tell_failed_removal(&process->printer, own->copy_name, copied.removed);
    if (own->copy_failed && !failed) (void)say(&process->printer, LOG_NOTICE | ABOUT_HANDOVER, "its state can be kept in %s again", folder);
    own->copy_failed = failed;
}

/* The ports that would go on after a reboot, a bit for each: those whose ends wait for 90 s. */
static uint64_t lasting_ports(const struct ports *ports) {
    uint64_t found = 0;
    EACH_LINK_AS_IS(link, ports)
        if (link->socket >= 0 && is_carrying(link) && !link->settings.short_timeout && !(link->lacpdu[ACTOR_STATE] & NIW_STATE_TIMEOUT))
            found |= (uint64_t)1 << (link->settings.number - 1);
    return found;
}

/* A process that writes the copy, or removes it where no port would go on from it. It has nothing else of the daemon, and prints nothing. It ends
 * with the daemon: in a call that hangs on the disk, once that call is over. */
static _Noreturn void write_or_remove_copy_and_exit(struct core *core, const struct state *own, int told, pid_t daemon) {
    bool wanted = own->copied_ports != 0;
    struct copied copied = {0, 0};
    int members[CONVERSATIONS];
    sigset_t none;
    if (prctl(PR_SET_PDEATHSIG, SIGKILL) < 0 || getppid() != daemon) _exit(REFUSED);
    for (int fd = STDERR_FILENO + 1; fd < MOST_OPENED; fd++)
        if (fd != own->copy_folder && fd != told) close(fd);
#ifdef SYS_close_range /* of Linux 5.9 */
    (void)syscall(SYS_close_range, MOST_OPENED, UINT_MAX, 0);
#endif
    sigemptyset(&none);
    sigprocmask(SIG_SETMASK, &none, NULL);
    remove_new_copies(own);
    if (wanted && !replace_file(core, own, members, own->copy_folder, own->copy_name, true)) copied.written = last_fault();
    if (!wanted || copied.written < 0) copied.removed = remove_file(own->copy_folder, own->copy_name, true);
    (void)!write(told, &copied, sizeof copied);
    _exit(DONE);
}

static void forget_copier(int *copied) {
    if (*copied >= 0) close(*copied);
    *copied = -1;
}

/* Has the copy written or removed; answers 0, or -errno. */
static int start_copier(struct state *own) {
    pid_t daemon = getpid();
    int ends[2];
    if (socketpair(AF_UNIX, SOCK_STREAM | SOCK_NONBLOCK | SOCK_CLOEXEC, 0, ends) < 0) return last_fault(); /* the unit has no pipes */
    own->copier = fork();
    int fault = own->copier < 0 ? last_fault() : 0;
    if (own->copier == 0) write_or_remove_copy_and_exit(own->carry->core, own, ends[1], daemon);
    own->copied = ends[0];
    close(ends[1]);
    if (fault < 0) forget_copier(&own->copied);
    return fault;
}

/* What was to be done last of a copy is not, for this reason. */
static struct copied fault_of_copy(const struct state *own, int fault) {
    return own->copied_ports != 0 ? (struct copied){.written = fault} : (struct copied){.removed = fault};
}

/* Sees whether a copy was written. One whose process was killed is there, or is not. */
static void read_copier_and_tell(struct state *own) {
    struct copied copied = fault_of_copy(own, -ECANCELED);
    if (own->copied < 0 || (read(own->copied, &copied, sizeof copied) < 0 && errno == EAGAIN)) return;
    forget_copier(&own->copied);
    own->has_copy = copied.removed < 0 || copied.written == -ECANCELED || (copied.written == 0 && own->copied_ports != 0);
    tell_outcome_of_copy(own, copied);
}

/* A second passed: the copy is written anew where other ports would go on from it, or it gets old. */
static void pass_copy_second(struct state *own) {
    uint64_t ports = lasting_ports(own->carry->ports), now = boottime();
    read_copier_and_tell(own);
    if (own->copied >= 0 && now - own->copied_at >= COPIED_EVERY && !own->copy_failed) tell_outcome_of_copy(own, fault_of_copy(own, HANGS));
    if (own->copied >= 0 || (ports == 0 && !own->has_copy) || (ports == own->copied_ports && now - own->copied_at < COPIED_EVERY)) return;
    own->copied_ports = ports;
    own->copied_at = now;
    own->has_copy = true;
    int fault = start_copier(own);
    if (fault < 0) tell_outcome_of_copy(own, fault_of_copy(own, fault));
}

/* Waits for who writes a copy; answers whether that one is done, or there is none. */
static bool await_copier(struct state *own) {
    struct pollfd told = {own->copied, POLLIN, 0};
    bool done = own->copied < 0 || poll(&told, 1, MOST_COPYING) > 0;
    read_copier_and_tell(own);
    forget_copier(&own->copied);
    return done;
}

/* At the end of the daemon the copy is written, or removed, for the last time. A disk that hangs is left alone, so no process but a copier touches
 * it: where the kernel makes none, it is asked again for as long as one is waited for. */
static void finish_copy(struct state *own, bool wanted) {
    if (!await_copier(own)) (void)kill(own->copier, SIGKILL);
    own->copied_ports = wanted;
    own->copy_failed = false;
    int fault = start_copier(own);
    for (int waited = 0; fault < 0 && waited < MOST_COPYING; waited += NIW_TICK_MILLISECONDS) {
        (void)poll(NULL, 0, NIW_TICK_MILLISECONDS);
        fault = start_copier(own);
    }
    if (fault == 0 && !await_copier(own)) fault = HANGS;
    if (fault < 0) tell_outcome_of_copy(own, fault_of_copy(own, fault));
}

/* Writes the state; answers whether it did. Where that fails there is none. */
bool save_state(struct state *own, bool leaves) {
    struct process *process = own->carry->process;
    if (own->over || own->carry->core->broken || !process->has_started) return false;
    FILE *file = replace_file(own->carry->core, own, own->members, process->folder, own->name, false);
    if (!file) give_up_file_and_tell(own);
    if (file) own->failed = false;
    keep_file(&own->file, file);
    if (own->copy_folder >= 0 && leaves && file) finish_copy(own, true);
    if (own->copy_folder >= 0 && !leaves) pass_copy_second(own);
    return file != NULL;
}

/* The peers are told of the end: no daemon goes on from here. */
void remove_state(struct state *own) {
    struct process *process = own->carry->process;
    own->over = true;
    keep_file(&own->file, NULL);
    tell_failed_removal(&process->printer, own->name, remove_file(process->folder, own->name, false));
    if (own->copy_folder >= 0) finish_copy(own, false);
}

static bool read_inherited_link(struct inherited *inherited, FILE *file) {
    struct inherited_link *link = &inherited->links[inherited->link_count];
    uint8_t *mac = link->mac;
    int carried;
    if (inherited->link_count == NIW_MOST_PORTS) return false;
    if (fscanf(file, "%d %2hhx:%2hhx:%2hhx:%2hhx:%2hhx:%2hhx %" SCNu32 " %d %" SCNu64 " %" SCNu64, &link->index, mac, mac + 1, mac + 2, mac + 3, mac + 4,
            mac + 5, &link->losses, &carried, &link->heard, &link->spoken) != 11)
        return false;
    for (size_t i = 0; i < NIW_FRAME; i++)
        if (fscanf(file, "%2hhx", &link->lacpdu[i]) != 1) return false;
    link->carried = carried == 1;
    inherited->link_count++;
    return fscanf(file, "%" SCNu16, &link->aggregator) == 1;
}

static bool read_port_number(struct inherited *inherited, FILE *file) {
    struct inherited_port *port = &inherited->ports[inherited->port_count];
    unsigned number;
    if (inherited->port_count == NIW_MOST_PORTS) return false;
    if (fscanf(file, "%u %d %127s", &number, &port->index, port->name) != 3) return false;
    for (unsigned i = 0; i < inherited->port_count; i++)
        if (inherited->ports[i].number == number || strcmp(inherited->ports[i].name, port->name) == 0) return false;
    port->number = (uint16_t)number;
    inherited->port_count++;
    return number > 0 && number <= NIW_MOST_PORTS && port->index >= 0;
}

/* Reads a conversation. The last line of a file may be cut off: each one ends with its line end. */
static bool read_conversation(int members[static CONVERSATIONS], FILE *file) {
    unsigned number;
    int index;
    char end;
    if (fscanf(file, "%u %d%c", &number, &index, &end) != 3 || end != '\n' || number >= CONVERSATIONS || index <= 0) return false;
    members[number] = index;
    return true;
}

static bool read_bundle(struct bundle *bundle, FILE *file) {
    unsigned state, aggregator;
    long long changed;
    if (fscanf(file, "%u %u %lld", &state, &aggregator, &changed) != 3 || state >= BUNDLE_STATES || aggregator > NIW_MOST_PORTS)
        return false;
    *bundle = (struct bundle){.state = (enum bundle_state)state, .aggregator = (uint16_t)aggregator, .changed_at = (time_t)changed};
    return true;
}

static bool read_state_line(struct inherited *inherited, const char *word, FILE *file) {
    if (strcmp(word, "space") == 0) return fscanf(file, "%" SCNu64, &inherited->space) == 1;
    if (strcmp(word, "written") == 0) return fscanf(file, "%" SCNu64, &inherited->written) == 1;
    if (strcmp(word, "wall") == 0) return fscanf(file, "%" SCNu64, &inherited->wall) == 1;
    if (strcmp(word, "marker") == 0) return fscanf(file, "%" SCNu32, &inherited->marker) == 1;
    if (strcmp(word, "bundle") == 0) return read_bundle(&inherited->bundle, file);
    if (strcmp(word, "follows") == 0) return inherited->follows = true;
    if (strcmp(word, "tap") == 0)
        return fscanf(file, "%d %d %" SCNu32 " %u", &inherited->tap, &inherited->persists, &inherited->mtu, &inherited->answering) == 4
            && inherited->answering <= MUTE;
    if (strcmp(word, "port") == 0) return read_port_number(inherited, file);
    if (strcmp(word, "link") == 0) return read_inherited_link(inherited, file);
    return strcmp(word, "on") == 0 && read_conversation(inherited->members, file);
}

/* Reads the lines behind the first three; answers whether the last one is there. Behind that stand the conversations that went to another link
 * since the state was written. */
static bool read_state_lines(struct inherited *inherited, FILE *file) {
    char word[16];
    bool whole = false;
    while (!whole && fscanf(file, "%15s", word) == 1) {
        whole = strcmp(word, "end") == 0;
        if (!whole && !read_state_line(inherited, word, file)) return false;
    }
    while (whole && fscanf(file, "%15s", word) == 1 && strcmp(word, "on") == 0 && read_conversation(inherited->members, file)) continue;
    return whole;
}

/* By other settings nothing goes on: what stays to be done is to put back what the last daemon changed. It has a line once these interfaces
 * are found. `way` is that of the last daemon. */
static void leave_all_but_interfaces(struct inherited *inherited, struct plane *plane, const char *way) {
    const struct inherited last = *inherited;
    const char *word = strrchr(way, '/');
    leave_device(plane, word ? word + 1 : way, last.tap, last.persists);
    *inherited = (struct inherited){.others = true, .link_count = last.link_count, .space = last.space, .written = last.written, .wall = last.wall,
        .marker = last.marker};
    memcpy(inherited->links, last.links, sizeof inherited->links);
    for (unsigned i = 0; i < inherited->link_count; i++) inherited->links[i].carried = false;
}

/* Of another boot ports have the interfaces of their names, as far as these are there, and times are as old as the clock on the wall has them,
 * and older than this boot. Nothing of the device and of conversations is left. Answers NULL, or why it counts for nothing. */
static const char *bring_over_and_find_interfaces(struct inherited *inherited) {
    uint64_t now = milliseconds_of(CLOCK_REALTIME), up = boottime(), age = now - inherited->wall;
    unsigned links = 0;
    if (inherited->wall == 0 || now < inherited->wall) return "it is of another boot, and of later than now";
    inherited->ahead = inherited->written + (age > up ? age : up) - up;
    for (unsigned i = 0; i < inherited->link_count; i++) {
        unsigned port = 0;
        while (port < inherited->port_count && inherited->ports[port].index != inherited->links[i].index) port++;
        int index = port < inherited->port_count ? (int)if_nametoindex(inherited->ports[port].name) : 0;
        if (index == 0) continue;
        inherited->links[links] = inherited->links[i];
        inherited->links[links++].index = index;
    }
    inherited->link_count = links;
    for (unsigned i = 0; i < inherited->port_count; i++) inherited->ports[i].index = (int)if_nametoindex(inherited->ports[i].name);
    memset(inherited->members, 0, sizeof inherited->members);
    inherited->tap = inherited->persists = 0;
    inherited->written = inherited->mtu = inherited->answering = 0;
    return NULL;
}

/* Takes over a state; answers NULL, or why it counts for nothing. In another network namespace its numbers of interfaces are those of others. */
static const char *read_state_and_leave_other_device(struct inherited *inherited, struct plane *plane, const struct state *own, FILE *file,
    bool is_copy) {
    unsigned version;
    char boot[BOOT_ROOM], now[BOOT_ROOM], given[WAY_ROOM], room[WAY_ROOM];
    if (fscanf(file, "lagd %u", &version) != 1) return "it is no state of lagd";
    if (version != FORM_VERSION && version != FORM_WITHOUT_SPACE) return "it is of another version";
    if (fscanf(file, " boot %63s way %95s", boot, given) != 2) return "it is cut off";
    if (!is_copy && strcmp(boot, boot_id(now)) != 0) return "it is of another boot";
    if (!read_state_lines(inherited, file)) return "it is cut off, or wrong";
    if (ferror(file)) return "it cannot be read";
    bool is_same_way = strcmp(given, way_text(own->carry, room)) == 0;
    if (is_copy) return is_same_way ? bring_over_and_find_interfaces(inherited) : "it belongs to other settings";
    if (inherited->space != 0 && inherited->space != own->space) return "it is of another network namespace";
    if (!is_same_way) leave_all_but_interfaces(inherited, plane, given);
    return NULL;
}

/* Opens the file, if it is one of root or of this user, who alone may write it. */
static FILE *open_owned_state(int folder, const char *name) {
    FILE *file = open_in(folder, name, O_RDONLY, "r");
    if (!file) return NULL;
    if (!fault_of_owner(fileno(file))) return file;
    fclose(file);
    return NULL;
}

/* Opens state-dir, and takes the copy for this bundle as long as the program runs: one of another network namespace may have its name. A bundle
 * goes on without the copy. */
static void open_copy_folder(struct state *own) {
    const char *folder = own->carry->settings->state_dir, *fault;
    char lock[NAME_ROOM + 40];
    if (!folder[0] || own->copy_folder >= 0) return;
    own->copy_folder = open_or_make_folder(folder, &fault);
    if (own->copy_folder >= 0) {
        snprintf(lock, sizeof lock, "%s.lock", own->copy_name);
        own->lock = openat(own->copy_folder, lock, O_RDONLY | O_NOFOLLOW | O_NONBLOCK | O_CLOEXEC);
        if (own->lock < 0 && errno == ENOENT) own->lock = openat(own->copy_folder, lock, O_RDONLY | O_CREAT | O_NOFOLLOW | O_CLOEXEC, 0600);
        own->has_copy = own->lock >= 0 && flock(own->lock, LOCK_EX | LOCK_NB) == 0;
    }
    own->copied_ports = UINT64_MAX;
    if (own->has_copy) return;
    if (own->copy_folder >= 0) fault = errno == EWOULDBLOCK ? "another lagd has a bundle of this name there" : strerror(errno);
    (void)say(own->carry->core->printer, LOG_WARNING | ABOUT_HANDOVER, "no state is kept in %s, so a start after a reboot begins anew: %s", folder,
        fault ? fault : strerror(errno));
    if (own->lock >= 0) close(own->lock);
    if (own->copy_folder >= 0) close(own->copy_folder);
    own->lock = own->copy_folder = -1;
}

/* Reads what the last daemon left, and takes its device away where that is another one. What counts for nothing has a line, and the daemon starts
 * anew. */
void recall_state_and_leave_other_device(struct state *own) {
    const struct settings *settings = own->carry->settings;
    snprintf(own->name, sizeof own->name, "%lu.%s.state", network_namespace(), settings->name);
    snprintf(own->copy_name, sizeof own->copy_name, "%s.state", settings->name);
    own->space = namespace_cookie();
    open_copy_folder(own);
    CLOSED_STREAM FILE *file = open_owned_state(own->carry->process->folder, own->name);
    bool is_copy = !file && own->copy_folder >= 0;
    if (is_copy) file = open_owned_state(own->copy_folder, own->copy_name);
    const char *fault = file ? read_state_and_leave_other_device(own->carry->process->inherited, own->carry->plane, own, file, is_copy) : NULL;
    if (!fault) return;
    *own->carry->process->inherited = (struct inherited){0};
    (void)say(own->carry->core->printer, LOG_WARNING | ABOUT_HANDOVER, "the state that the last daemon left is not used: %s", fault);
}

/* Whether there was no daemon for a moment only: what waits in sockets and in the TAP device is still of use. */
bool was_away_briefly(const struct inherited *inherited) {
    uint64_t now = boottime();
    return inherited->written != 0 && inherited->written <= now && now - inherited->written < MOST_AWAY;
}

/* The identifier of the first marker: none that the last daemon sent, or 0 where that is not known. */
uint32_t first_marker_left(const struct inherited *inherited) {
    return inherited->marker == 0 || inherited->marker > UINT32_MAX / 2 ? 0 : inherited->marker + UNWRITTEN_MARKERS;
}
