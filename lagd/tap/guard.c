/* What an interface does not do while it is a member of a bundle that carries data: put frames together, have them in several queues,
 * and hand them to its own network stack.
 *
 * By which queues it sends and receives, and which processors serve them, the kernel has in /sys. Where a member has one queue, one processor
 * takes what comes. Where it keeps all of them, each conversation goes by one of them, so nothing but the daemon may choose the queue of a
 * frame: XPS is off. What comes by one of them is taken by one processor. What the queues had is in a file beside the status socket until they
 * have it again. */
#include "tap.h"

#include <dirent.h>
#include <net/if.h>

/* Why an interface is no member such as others. */
#define DISORDER "its queueing discipline is neither noqueue, bfifo nor pfifo"
#define SPREADS "RPS spreads what it receives over processors, and markers may be answered before data"
#define STACKED "it stands on another interface, whose queues are not seen"

/* A line about what troubles the data of a member, and why, where there is more to tell. */
static void warn_of_data(struct printer *printer, const struct link *link, const char *what, const char *why) {
    (void)say(printer, LOG_WARNING | ABOUT_DATA, "port %u %s: %s%s%s", link->settings.number, link->name, what, why ? ": " : "", why ? why : "");
}

/* A line of the file: a setting, and what it was. */
#define READ_LINE "%31s %" PROCESSORS_LENGTH "s"
#define NAME_OCTETS 32
/* The most processors that are named for RPS. */
#define MOST_PROCESSORS 32
#define PATH_OCTETS 64
/* Which processors take what an interface of one queue receives (RPS). */
#define RPS_FILE "rx-0/rps_cpus"

/* What a queue has: the processors that take what it received (RPS), and those, and the queues that received, whose frames it sends (XPS). */
enum setting { TAKEN_BY, SENT_FOR, SENT_BEHIND, SETTINGS };

/* Opens what the queues of an interface have in /sys; or -1. */
static int open_in_queues(int index, const char *what, int flags) {
    char path[PATH_OCTETS];
    snprintf(path, sizeof path, "queues/%s", what);
    return open_in_sys(index, path, flags);
}

static unsigned count_queues(int index, const char *begin) {
    unsigned count = 0;
    int file = open_in_queues(index, "", O_RDONLY | O_DIRECTORY);
    DIR *folder = file < 0 ? NULL : fdopendir(file); /* which has the file then */
    for (const struct dirent *entry; folder && (entry = readdir(folder));) count += strncmp(entry->d_name, begin, strlen(begin)) == 0;
    if (folder) closedir(folder);
    else if (file >= 0) close(file);
    return count;
}

unsigned count_sending_queues(int index) {
    return count_queues(index, "tx-");
}

/* Reads the line of a file: of a queue, the processors as a mask in hexadecimal. One that is too long is none. */
static bool read_line(int index, const char *what, char line[static PROCESSORS_ROOM]) {
    CLOSED_FILE int file = open_in_queues(index, what, O_RDONLY);
    bool done = read_text(file, line, PROCESSORS_ROOM) && strchr(line, '\n');
    if (done) line[strcspn(line, "\n")] = 0;
    return done;
}

static bool write_line(int index, const char *what, const char *mask) {
    CLOSED_FILE int file = open_in_queues(index, what, O_WRONLY | O_TRUNC);
    return file >= 0 && write(file, mask, strlen(mask)) == (ssize_t)strlen(mask);
}

static bool has_no_processor(const char *mask) {
    return strspn(mask, "0,") == strlen(mask);
}

static bool has_one_processor(const char *mask) {
    const char *digit = mask + strspn(mask, "0,");
    return *digit && strchr("1248", *digit) && has_no_processor(digit + 1);
}

/* A mask of one processor: another one for each place, in turn. */
static void mask_of_processor(unsigned place, char mask[static 16]) {
    long processors = sysconf(_SC_NPROCESSORS_ONLN);
    if (processors > MOST_PROCESSORS) processors = MOST_PROCESSORS;
    snprintf(mask, 16, "%x", 1u << (place % (unsigned)(processors > 0 ? processors : 1)));
}

/* Reads which processors take what an interface of one queue receives; answers whether that is known, and not one alone. */
static bool read_rps(int index, char mask[static PROCESSORS_ROOM]) {
    return read_line(index, RPS_FILE, mask) && !has_one_processor(mask);
}

/* Has one processor take all that an interface receives, so that it stands in one row, whatever processors it was sent from. */
static bool set_rps_to_one(const struct link *link) {
    char mask[16], now[PROCESSORS_ROOM];
    if (!read_line(link->index, RPS_FILE, now)) return false;
    mask_of_processor(link->settings.number - 1u, mask);
    return has_one_processor(now) || write_line(link->index, RPS_FILE, mask);
}

/* What goes up is not spread over processors at the TAP device: a marker would be answered before the data that came before it went up. */
void stop_device_rps(struct printer *printer, int index) {
    char now[PROCESSORS_ROOM];
    if (!read_rps(index, now) || has_no_processor(now) || write_line(index, RPS_FILE, "0")) return;
    (void)say(printer, LOG_WARNING | ABOUT_DATA, "carry %s: RPS spreads what goes up over processors, and markers may be answered before data",
        printer->process->settings->carry);
}

/* Writes a line that a file is to have again; answers whether that is not another one now. */
static bool restore_line(int index, const char *what, const char *line, bool if_unread) {
    char now[PROCESSORS_ROOM];
    if (write_line(index, what, line)) return true;
    return read_line(index, what, now) ? strcmp(now, line) == 0 : if_unread;
}

/* Loads the program that chooses queues, while the daemon may, and opens what wakes it for responses. */
void start_all_queues_or_stop(struct tap_plane *tap) {
    char reason[REASON_ROOM];
    int fault = try_to_attach_program_or_stop(tap->settings);
    if (fault != 0) stop(REFUSED, "queues=all: no program of an interface, which Linux has from 6.6 on", strerror(-fault));
    tap->chooser = load_program_or_stop(tap->settings, "chooser", NULL, reason);
    if (tap->chooser < 0) stop(REFUSED, "queues=all: the kernel takes no program", reason);
    tap->answer_timer = open_answer_timer_or_stop(tap->process->epoll_file);
}

static void name_setting(enum setting setting, unsigned queue, char name[static NAME_OCTETS]) {
    const char *ends[SETTINGS] = {[TAKEN_BY] = "rps_cpus", [SENT_FOR] = "xps_cpus", [SENT_BEHIND] = "xps_rxqs"};
    snprintf(name, NAME_OCTETS, "%s-%u/%s", setting == TAKEN_BY ? "rx" : "tx", queue, ends[setting]);
}

static bool is_setting(const char *name) {
    char own[NAME_OCTETS];
    unsigned queue;
    bool found = false;
    for (enum setting setting = 0; setting < SETTINGS && sscanf(name, "%*2[rtx]-%u", &queue) == 1; setting++) {
        name_setting(setting, queue, own);
        found = found || strcmp(name, own) == 0;
    }
    return found;
}

/* Whether an interface is one of a card, each of whose queues is served by one processor at a time. */
static bool is_card(int index) {
    CLOSED_FILE int device = open_in_sys(index, "device", O_PATH);
    return device >= 0;
}

/* What a queue is to have in the place of what it has now, for which `mask` is room: NULL where that may stay. */
static const char *wanted_line(uint16_t port, bool is_on_card, enum setting setting, unsigned queue, const char *now, char mask[static 16]) {
    if (setting != TAKEN_BY) return has_no_processor(now) ? NULL : "0";
    if (has_one_processor(now) || (is_on_card && has_no_processor(now))) return NULL;
    mask_of_processor(port - 1u + queue, mask);
    return mask;
}

/* Whether it is known what a setting was before an earlier daemon changed it. */
static bool is_known(int folder, const struct link *link, const char *wanted) {
    char name[NAME_OCTETS], mask[PROCESSORS_ROOM];
    bool found = false;
    CLOSED_STREAM FILE *file = read_kept(folder, link, "queues");
    while (file && !found && fscanf(file, READ_LINE, name, mask) == 2) found = strcmp(name, wanted) == 0;
    return found;
}

/* Changes each setting of an interface that is to be another one, or, with `next`, keeps there what it is now; with `lost`, what the queues have that
 * the interface loses where it gets one, which the kernel forgets with them. Answers whether all was done. One that the kernel does not show for an
 * interface, as XPS for one queue, is off. */
static bool change_or_keep(int folder, const struct link *link, bool lost, FILE *next) {
    char name[NAME_OCTETS], now[PROCESSORS_ROOM], mask[16];
    bool is_on_card = is_card(link->index), done = true;
    for (enum setting setting = 0; setting < SETTINGS; setting++) {
        unsigned count = count_queues(link->index, setting == TAKEN_BY ? "rx-" : "tx-");
        for (unsigned queue = lost ? 1 : 0; queue < count; queue++) {
            name_setting(setting, queue, name);
            if (!read_line(link->index, name, now)) continue;
            const char *wanted = wanted_line(link->settings.number, is_on_card, setting, queue, now, mask);
            if (lost ? has_no_processor(now) : wanted == NULL) continue;
            if (next) done = (is_known(folder, link, name) || fprintf(next, "%s %s\n", name, now) > 0) && done;
            else done = write_line(link->index, name, wanted) && done;
        }
    }
    return done;
}

/* What is kept of queues beside what is known of them already. */
enum added { NOTHING_MORE, WHAT_CHANGES, WHAT_IS_LOST };

/* Writes the file anew, from what is known, which is closed, and what is added of what the queues have now, before it is changed; answers whether
 * it did. */
static bool close_and_rewrite_kept(int folder, const struct link *link, FILE *file, enum added added) {
    char name[NAME_OCTETS], line[PROCESSORS_ROOM];
    FILE *next = begin_kept(folder, link, "queues");
    while (file && next && fscanf(file, READ_LINE, name, line) == 2) fprintf(next, "%s %s\n", name, line);
    bool done = !file || !ferror(file);
    if (file) fclose(file);
    if (next && added != NOTHING_MORE) done = change_or_keep(folder, link, added == WHAT_IS_LOST, next) && done;
    return next && end_kept(folder, link, "queues", next, done);
}

/* An interface has another MAC address from now on: what its queues had stays known by that one. */
void move_kept_queues(struct printer *printer, int folder, struct link *link, const uint8_t *mac) {
    FILE *file = read_kept(folder, link, "queues");
    memcpy(link->mac, mac, sizeof link->mac);
    if (file && !close_and_rewrite_kept(folder, link, file, NOTHING_MORE))
        warn_of_data(printer, link, "nobody knows any more what its queues had", strerror(errno));
}

/* How many queues an interface has, those that send above those that receive; 0 where the kernel does not tell of both. */
static unsigned read_queue_counts(int index) {
    unsigned sends = count_sending_queues(index), receives = count_queues(index, "rx-");
    return sends > 0 && receives > 0 ? sends << 16 | receives : 0;
}

/* Sets what all queues of a member are to have, where it may keep them; answers why it may not, or NULL. */
static const char *prepare_for_all_queues(int folder, const struct link *link, const struct guard *guard, unsigned count) {
    if (link->stacked) return STACKED;
    if (count == 0) return "/sys does not show its queues";
    if (!guard->in_order) return DISORDER;
    if (!close_and_rewrite_kept(folder, link, read_kept(folder, link, "queues"), WHAT_CHANGES)) return "what its queues have cannot be kept";
    if (!change_or_keep(folder, link, false, NULL)) return "RPS or XPS of its queues cannot be set";
    return NULL;
}

/* Whether a member may keep all its queues once it has them, as far as that is seen before: giving them may take its link down. Where it is
 * known that settings of them are to be changed, these must be changeable, as far as the first one tells. */
static bool may_spread(int folder, const struct link *link) {
    char name[NAME_OCTETS];
    CLOSED_STREAM FILE *file = read_kept(folder, link, "queues");
    bool changes = file && fscanf(file, "%31s", name) == 1;
    CLOSED_FILE int opened = changes ? open_in_queues(link->index, "tx-0/xps_cpus", O_WRONLY) : -1;
    return !link->stacked && may_all_queues_keep_order(link->index) && (!changes || opened >= 0);
}

/* Frames of the daemon go by any queue again. */
static void stop_spreading(struct store *store, const struct link *link, struct guard *guard) {
    if (guard->chooser >= 0) detach_stored(store, "queues", link->index, guard->chooser);
    guard->chooser = -1;
    guard->spread = false;
}

static void spread_over_queues(struct process *process, int chooser, const struct link *link, struct guard *guard) {
    unsigned count = count_sending_queues(link->index);
    const char *fault = prepare_for_all_queues(process->folder, link, guard, count);
    guard->queues = fault ? 1 : count < MOST_QUEUES ? count : MOST_QUEUES;
    if (guard->queues > 1 && guard->chooser < 0) /* a program chooses the queue of each frame that the daemon sends there */
        guard->chooser = attach_stored(&process->store, "queues", chooser, link->index, true);
    if (guard->queues > 1 && guard->chooser < 0) fault = strerror(-guard->chooser);
    guard->spread = !fault;
    if (!fault) return;
    guard->queues = 1;
    stop_spreading(&process->store, link, guard);
    warn_of_data(&process->printer, link, "it gets one queue", fault);
}

/* Whether somebody else changed the queues of a member, or what chooses them. Each time another queue is looked at. */
bool is_changed_by_others(uint64_t seconds, const struct link *link, const struct guard *guard) {
    char name[NAME_OCTETS], now[PROCESSORS_ROOM], mask[16];
    unsigned channels = read_queue_counts(link->index);
    if (channels == 0) return false;
    if (channels != guard->channels) return true;
    for (enum setting setting = 0; guard->spread && setting < SETTINGS; setting++) {
        unsigned queue = (unsigned)seconds % (setting == TAKEN_BY ? channels & 0xffff : channels >> 16);
        name_setting(setting, queue, name);
        if (read_line(link->index, name, now) && wanted_line(link->settings.number, is_card(link->index), setting, queue, now, mask)) return true;
    }
    return false;
}

/* Chooses how many queues members have of which the kernel passes data on, by the first one; answers whether a member has as many. The kernel
 * keeps the queue of a connection, also where that goes on by another member. */
bool choose_usual_queues(unsigned *usual, const struct member *members, uint16_t count, unsigned queues) {
    bool any = false;
    for (uint16_t i = 0; i < count; i++) any = any || is_fast(&members[i]);
    if (!any) *usual = queues;
    return queues == *usual;
}

/* The queues of an interface get back what they had before. What cannot be set back stays kept: all of it, where not all are back (`whole`). */
static void restore_queue_settings(int folder, const struct link *link, bool whole) {
    char name[NAME_OCTETS], interface[IF_NAMESIZE], mask[PROCESSORS_ROOM];
    bool done = whole && if_indextoname((unsigned)link->index, interface);
    CLOSED_STREAM FILE *file = read_kept(folder, link, "queues");
    while (file && fscanf(file, READ_LINE, name, mask) == 2) {
        if (is_setting(name)) done = restore_line(link->index, name, mask, true) && done;
    }
    if (file && done) drop_kept(folder, link, "queues");
}

/* What puts received frames together, so that a marker may overtake data: GRO by the kernel, and by the card, and LRO (ethtool). A bit each. */
static const char *const joining[] = {"rx-gro", "rx-gro-hw", "rx-lro"};
#define JOINED_BY_KERNEL 1u
#define JOINING (sizeof joining / sizeof *joining)
/* The most features of an interface, and the words of 32 bits that have a bit for each. */
#define MOST_FEATURES 256
#define WORDS (MOST_FEATURES / 32)

/* A question to a driver, with room for what it answers. */
#define QUESTION(kind, octets) union { uint8_t room[sizeof(struct kind) + (octets)]; struct kind about; }

/* Writes the number that the kernel has for each way; for one that it does not know, how many features it has, which is the answer. */
static uint32_t find_features(int index, uint32_t places[static JOINING]) {
    QUESTION(ethtool_sset_info, sizeof(uint32_t)) known = {{0}};
    QUESTION(ethtool_gstrings, MOST_FEATURES * ETH_GSTRING_LEN) told = {{0}};
    known.about.cmd = ETHTOOL_GSSET_INFO;
    known.about.sset_mask = 1ULL << ETH_SS_FEATURES;
    if (!call_driver(index, &known) || known.about.sset_mask == 0 || known.about.data[0] > MOST_FEATURES) return 0;
    uint32_t count = known.about.data[0];
    told.about.cmd = ETHTOOL_GSTRINGS;
    told.about.string_set = ETH_SS_FEATURES;
    told.about.len = count;
    if (count == 0 || !call_driver(index, &told)) return 0;
    for (size_t i = 0; i < JOINING; i++)
        for (places[i] = 0; places[i] < count; places[i]++)
            if (strncmp((char *)told.about.data + places[i] * ETH_GSTRING_LEN, joining[i], ETH_GSTRING_LEN) == 0) break;
    return count;
}

struct joins {
    unsigned on, wanted;
};

/* Which of the ways to join frames are on, and which are wanted: one that is wanted may be off while another one is on. */
static struct joins read_gro_and_lro(int index) {
    QUESTION(ethtool_gfeatures, WORDS * sizeof(struct ethtool_get_features_block)) told = {{0}};
    uint32_t places[JOINING], count = find_features(index, places);
    struct joins joins = {0};
    told.about.cmd = ETHTOOL_GFEATURES;
    told.about.size = WORDS;
    if (count == 0 || !call_driver(index, &told)) return joins;
    for (size_t i = 0; i < JOINING; i++) {
        if (places[i] == count) continue;
        joins.on |= (told.about.features[places[i] / 32].active >> places[i] % 32 & 1) << i;
        joins.wanted |= (told.about.features[places[i] / 32].requested >> places[i] % 32 & 1) << i;
    }
    return joins;
}

/* Has these ways wanted, and no other one. */
static void set_gro_and_lro(int index, unsigned wanted) {
    QUESTION(ethtool_sfeatures, WORDS * sizeof(struct ethtool_set_features_block)) told = {{0}};
    uint32_t places[JOINING], count = find_features(index, places);
    told.about.cmd = ETHTOOL_SFEATURES;
    told.about.size = (count + 31) / 32;
    for (size_t i = 0; count > 0 && i < JOINING; i++) {
        if (places[i] == count) continue;
        told.about.features[places[i] / 32].valid |= 1u << places[i] % 32;
        told.about.features[places[i] / 32].requested |= (wanted >> i & 1) << places[i] % 32;
    }
    if (count > 0) (void)call_driver(index, &told);
}

/* How many queues an interface has for one direction, as `channels` tells in full: in several of them a marker may overtake data. Of a driver
 * that does not tell, those that the kernel has. */
static unsigned read_channels(int index, struct ethtool_channels *channels) {
    *channels = (struct ethtool_channels){.cmd = ETHTOOL_GCHANNELS};
    bool told = call_driver(index, channels);
    unsigned sends = told ? channels->tx_count : count_sending_queues(index), receives = told ? channels->rx_count : count_queues(index, "rx-");
    if (!told && receives == 0) receives = 1;
    return channels->combined_count + (sends > receives ? sends : receives);
}

/* Gives an interface one queue for each direction. What the others have has to be known, so that they get it back. */
static void reduce_to_one_queue(struct printer *printer, int folder, const struct link *link) {
    struct ethtool_channels wanted;
    if (read_channels(link->index, &wanted) <= 1) return;
    if (!close_and_rewrite_kept(folder, link, read_kept(folder, link, "queues"), WHAT_IS_LOST))
        warn_of_data(printer, link, "nobody knows what its queues had", strerror(errno));
    wanted.cmd = ETHTOOL_SCHANNELS;
    wanted.rx_count = wanted.tx_count = wanted.combined_count == 0;
    wanted.combined_count = wanted.combined_count > 0;
    (void)call_driver(link->index, &wanted);
}

static bool has_channels(int index, const struct ethtool_channels *wanted) {
    struct ethtool_channels now;
    (void)read_channels(index, &now);
    return now.combined_count == wanted->combined_count && now.rx_count == wanted->rx_count && now.tx_count == wanted->tx_count;
}

/* Gives an interface its queues back; answers whether it has them now. A driver that could not change them, as vmxnet3, has them still. */
static bool restore_channels(int index, const struct ethtool_channels *wanted) {
    struct ethtool_channels given = *wanted;
    given.cmd = ETHTOOL_SCHANNELS;
    if (wanted->combined_count + wanted->rx_count + wanted->tx_count == 0) return true;
    return has_channels(index, wanted) || call_driver(index, &given) || has_channels(index, wanted);
}

/* Whether an interface has no queueing discipline yet: it gets one when it comes up. */
static bool is_unqueued(const struct link *link) {
    return strcmp(link->discipline, "noop") == 0;
}

/* Sees whether what is sent at an interface keeps its order in its queueing discipline. Frames of several segments have to go through
 * that, since it segments them for an interface that cannot: so they get one that does. */
void give_fifos_and_note_order(struct printer *printer, const struct plane *plane, struct link *link, struct guard *guard) {
    bool given = false;
    (void)read_discipline(link->index, link->discipline);
    if (plane->wants_fifo && !is_unqueued(link) && strcmp(link->discipline, "noqueue") != 0)
        given = give_each_fifo(link->index, ASK(plane->queueing->fifos_of, 1, link->index), read_speed(link->socket, link->index).megabits);
    if (given) (void)read_discipline(link->index, link->discipline);
    link->has_fifos = given && strcmp(link->discipline, "mq") == 0;
    guard->in_order = keeps_order(link->discipline) || link->has_fifos;
    if (plane->segments && !guard->in_order && !is_unqueued(link))
        warn_of_data(printer, link, DISORDER, "it loses frames of several segments, if its card cannot cut them");
}

/* The link comes up: the queue of its interface, if that is one of the daemon, has the length of its speed from now on. */
void fit_queue(const struct plane *plane, const struct link *link) {
    if (!plane->wants_fifo) return;
    make_or_fit_each_fifo(link->index, link->has_fifos ? ASK(plane->queueing->fifos_of, 1, link->index) : 1,
        read_speed(link->socket, link->index).megabits);
}

/* Has one processor take what comes at an interface; answers why the kernel may not pass it on, or NULL: a marker would overtake data. */
static const char *steer_for_fast(const struct link *link, const struct guard *guard) {
    struct ethtool_channels queues;
    if (link->stacked) return STACKED;
    if (!guard->spread && read_channels(link->index, &queues) > 1) return "it has several queues";
    if (guard->unusual) return "it has another number of queues than the first member";
    if (!guard->in_order) return DISORDER;
    if (!guard->spread && !set_rps_to_one(link)) return "RPS cannot be set to one processor";
    return NULL;
}

/* Keeps data from the stack of an interface: by TCX, or, where the kernel has none, by a classifier. */
void keep_from_stack(struct tap_plane *tap, const struct link *link, struct guard *guard) {
    if (tap->dropper >= 0) guard->opened = attach_stored(&tap->process->store, "guard", tap->dropper, link->index, false);
    if (tap->dropper >= 0 && guard->opened < 0) guard->classifier = set_classifier(tap->dropper, link->index);
    if (guard->classifier == CLASSIFIER_BEHIND_OTHERS)
        warn_of_data(tap->core->printer, link, "it has a clsact already", "its own network stack has what filters there accept");
    if (guard->opened < 0 && guard->classifier == NO_CLASSIFIER)
        warn_of_data(tap->core->printer, link, "its own network stack has its frames, too", NULL);
}

/* Has the kernel pass on what goes and comes at a member, where it may; a line says why not. */
void run_fast_programs(struct tap_plane *tap, const struct link *link, struct guard *guard) {
    guard->unusual = guard->spread && !choose_usual_queues(&tap->usual_queues, tap->members, tap->ports->count, guard->queues);
    const char *fault = steer_for_fast(link, guard);
    if (!fault) guard->opened = open_fast_receiver(&tap->process->store, &tap->fast, tap->ports, link);
    guard->fast = guard->opened >= 0;
    if (guard->fast) return;
    if (!is_unqueued(link)) /* it is looked at again then */
        warn_of_data(tap->core->printer, link, "its data stays with the daemon", fault ? fault : strerror(-guard->opened));
    keep_from_stack(tap, link, guard);
}

/* Which ways to put frames together may stay: GRO of the kernel, where that keeps a frame for less than half the time for which a response to a marker
 * waits. Without a time of its own it does so until the end of a turn. Where the daemon takes the frames, it does not: a socket cannot tell of each
 * frame what it was made of. */
static unsigned gro_allowed(uint32_t answer_after, int index, const struct guard *guard) {
    char nanoseconds[PROCESSORS_ROOM];
    bool is_brief = guard->spread && guard->fast && read_line(index, "../gro_flush_timeout", nanoseconds)
        && strtoull(nanoseconds, NULL, 10) < answer_after * 500000ull;
    return is_brief ? JOINED_BY_KERNEL : 0;
}

bool set_one_queue(struct tap_plane *tap, struct link *link, struct guard *guard, bool again) {
    give_fifos_and_note_order(tap->core->printer, tap->plane, link, guard);
    if (!again) reduce_to_one_queue(tap->core->printer, tap->process->folder, link);
    return true;
}

/* Lets a member keep all its queues, where it can, or gives it one. One that has one queue, as this daemon or an earlier one gave it, gets back
 * what it had. How many others give it meanwhile, it is to have behind the daemon. */
bool set_all_queues(struct tap_plane *tap, struct link *link, struct guard *guard, bool again UNUSED) {
    struct ethtool_channels now, *before = &guard->before.queues;
    if (read_channels(link->index, &now) > 1)
        *before = now;
    else if (may_spread(tap->process->folder, link))
        (void)restore_channels(link->index, before);
    give_fifos_and_note_order(tap->core->printer, tap->plane, link, guard);
    if (is_unqueued(link)) return false;
    spread_over_queues(tap->process, tap->chooser, link, guard);
    if (guard->spread && has_channels(link->index, before)) *before = (struct ethtool_channels){0};
    write_kept_member(tap->core->printer, tap->process->folder, link, &guard->before);
    if (!guard->spread) reduce_to_one_queue(tap->core->printer, tap->process->folder, link);
    return true;
}

static void run_programs_and_set_gro(struct tap_plane *tap, const struct link *link, struct guard *guard) {
    tap->plane->passing->run_programs(tap, link, guard);
    if (guard->before.joins != 0) set_gro_and_lro(link->index, guard->before.joins & gro_allowed(tap->settings->answer_after, link->index, guard));
    guard->channels = read_queue_counts(link->index);
}

static void stop_programs(struct store *store, struct fast_programs *fast, const struct link *link, struct guard *guard) {
    if (guard->opened >= 0) detach_stored(store, "guard", link->index, guard->opened);
    if (guard->fast) clear_fast_place(fast, link);
    if (guard->classifier != NO_CLASSIFIER) drop_classifier(link->index);
    guard->opened = -1;
    guard->classifier = NO_CLASSIFIER;
    guard->fast = false;
}

/* An interface has another queueing discipline: its programs are chosen anew. What it had before it was a member stays kept. */
void renew_guard(struct tap_plane *tap, struct link *link, struct guard *guard) {
    stop_programs(&tap->process->store, &tap->fast, link, guard);
    (void)tap->plane->queueing->set(tap, link, guard, true);
    run_programs_and_set_gro(tap, link, guard);
}

/* Prepares an interface. What it cannot be kept from has a line. */
void open_guard(struct tap_plane *tap, struct link *link, struct guard *guard) {
    struct ethtool_channels queues;
    struct kept *before = &guard->before;
    *guard = (struct guard){.opened = -1, .chooser = -1, .queues = 1, .before.joins = read_gro_and_lro(link->index).wanted};
    if (read_channels(link->index, &before->queues) <= 1) before->queues = (struct ethtool_channels){0};
    if (!read_rps(link->index, before->steered)) before->steered[0] = 0;
    if (!tap->plane->passing->steers && has_no_processor(before->steered)) before->steered[0] = 0;
    bool gathers = before->steered[0] && !tap->plane->passing->steers; /* where the kernel passes data on, it does so only then */
    merge_kept_member(tap->core->printer, tap->process->folder, link, before);
    bool has_queues = tap->plane->queueing->set(tap, link, guard, false);
    if (gathers && !guard->spread && !set_rps_to_one(link)) warn_of_data(tap->core->printer, link, SPREADS, NULL);
    run_programs_and_set_gro(tap, link, guard);
    if ((read_gro_and_lro(link->index).on & ~gro_allowed(tap->settings->answer_after, link->index, guard)) != 0)
        warn_of_data(tap->core->printer, link, "GRO or LRO stays on, and markers may overtake data", NULL);
    if (link->stacked && !tap->plane->passing->steers) warn_of_data(tap->core->printer, link, STACKED, "markers may overtake data");
    if (!guard->spread && has_queues && read_channels(link->index, &queues) > 1)
        warn_of_data(tap->core->printer, link, "it has several queues, and markers may overtake data", NULL);
}

/* The interface is no member any more. What cannot be set back stays kept, as without CAP_NET_ADMIN. */
void close_guard(struct store *store, int folder, struct fast_programs *fast, const struct link *link, struct guard *guard) {
    struct kept *before = &guard->before;
    stop_programs(store, fast, link, guard);
    stop_spreading(store, link, guard);
    bool done = restore_channels(link->index, &before->queues);
    restore_queue_settings(folder, link, done);
    if (before->joins != 0) set_gro_and_lro(link->index, before->joins);
    if (before->joins != 0) done = (before->joins & ~read_gro_and_lro(link->index).wanted) == 0 && done;
    drop_fifo(link->index); /* with all its queues the kernel gives each of them what it chooses */
    if (before->steered[0]) done = restore_line(link->index, RPS_FILE, before->steered, false) && done;
    if (done) drop_kept(folder, link, "member");
}

/* An interface was a member of the last daemon, and is none of this one: it gets what it had, unless somebody else has it by now. */
void put_back_former(struct store *store, const struct inherited *inherited, int folder, struct fast_programs *fast,
    const struct inherited_link *was) {
    struct link link = {.index = was->index};
    struct guard guard = {.classifier = CLASSIFIER_ALONE};
    int lock = lock_interface(store, inherited, was->index);
    if (lock < 0) return;
    guard.opened = claim_stored(store, "guard", was->index);
    guard.chooser = claim_stored(store, "queues", was->index);
    memcpy(link.mac, was->mac, sizeof link.mac);
    recall_kept_member(folder, &link, &guard.before);
    close_guard(store, folder, fast, &link, &guard);
    return_stored_or_close(store, "lock", was->index, lock);
}
