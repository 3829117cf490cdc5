/* What the files of lagd share: its ports, and the calls of each file. */
#ifndef LAGD_H
#define LAGD_H

#ifndef _GNU_SOURCE
#define _GNU_SOURCE
#endif

#include <errno.h>
#include <fcntl.h>
#include <inttypes.h>
#include <stdbool.h>
#include <stddef.h>
#include <stdint.h>
#include <stdio.h>
#include <stdlib.h>
#include <string.h>
#include <sys/socket.h>
#include <sys/stat.h>
#include <syslog.h>
#include <time.h>
#include <unistd.h>

#include "counts.h"
#include "lag.h"
#include "plane.h"
#include "settings.h"
#include "sockets.h"

#define VERSION NIW_VERSION_TEXT

enum { /* the statuses of a port: those of the library, and from here on what it does not know */
    MISSING = 128,   /* its interface is missing */
    WITHOUT_PARTNER, /* it distributes on defaults */
    PARTNER_WANTED,  /* so it does, but partner-required is given */
    RESTORING,       /* its carrier is back, and waits for wait-to-restore */
    DEVICE_DOWN,     /* the device is down, so that LACP ended */
    LEAVES,          /* it leaves the bundle */
    OUTSIDE,         /* others took it out of the device, or did not put it in */
    AWAY,            /* it distributes, as delay-down has it, but its carrier is away */
};

enum { DONE = 0, REFUSED = 1, WRONG_WORD = 2 }; /* how the program ends */

#define MOST_TAKEN 64 /* frames, or messages of the kernel, that are taken of a socket in a turn, so that no flood stops the clock */
#define MOST_LINES 10 /* of a port, or of the bundle, that time and frames may cause at once; one more each second. Each change of a link has its line */
#define SECOND 10     /* in ticks */
#define MOST_LACPDUS 3 /* of a port within a second (IEEE 802.1AX-2014, 6.4.16) */
#define TIMER_SLACK 1 /* nanoseconds too long that the kernel may let the daemon sleep: hardly longer than frames are to gather (main.c) */

struct facts { /* what is printed of a port */
    uint8_t status; /* NIW_PORT_STATUS_.., or MISSING and so on */
    uint16_t aggregator;
    bool defaulted;
    struct system_id partner;
    uint16_t partner_key, partner_port;
    int trouble;
};

struct strangers { /* the other systems that speak on a link */
    struct system_id system; /* the last one */
    uint8_t source[6];       /* of its frame */
    uint64_t reported;       /* how many frames and changes of the partner a line told of */
    uint64_t tell_at;        /* the tick at which the next line may come */
    bool seen;
};

/* When markers were answered, in slots of 100 ms: those of the partner, and of others. */
#define ANSWERED_SLOTS 11
struct answered {
    uint64_t slot; /* the last one */
    uint16_t partner[ANSWERED_SLOTS], others[ANSWERED_SLOTS];
};

struct markers { /* Marker PDUs that come on a link */
    struct answered answered;
    uint8_t source[6]; /* of the last one that was not taken, or not answered */
    uint64_t reported; /* of how many of these a line told */
    uint64_t tell_at;  /* the tick at which the next line may come */
};

/* How fast a link is; what the kernel does not tell is SPEED_UNKNOWN and DUPLEX_UNKNOWN of linux/ethtool.h. */
struct speed {
    uint32_t megabits; /* a second */
    uint8_t duplex;    /* DUPLEX_FULL, DUPLEX_HALF or DUPLEX_UNKNOWN */
};

#define DISCIPLINE_ROOM 16 /* of the name of a queueing discipline */

/* An interface. Link i is port i + 1 of the system. */
struct link {
    const char *name;         /* empty where no port has this number */
    bool used;                /* whether a port has it */
    bool left_over;           /* whether it is of the last daemon, and not in the file of this one */
    bool followed;            /* whether the device alone says that it is a port, and not the file */
    bool puts_in;             /* whether the daemon itself is to put it into a device whose ports others choose */
    bool outside;             /* whether others took it out of that */
    bool leaving;             /* whether it goes: its peer is told first */
    bool emptying;            /* whether its conversations move to other ports, before it is held */
    uint64_t leaves_since;    /* the milliseconds since which it is emptied, or held then */
    uint64_t left_at;         /* those at which nothing was on its way any more, or 0 */
    struct niw_port settings; /* with the key that it has now */
    uint16_t key;             /* that is given to it */
    bool has_speed;           /* whether `speed` was read: with key-by-speed, as the link came up last, or by select=bandwidth */
    struct speed speed;
    int lock;   /* by which no other lagd has the interface; -1 while it is missing */
    int socket; /* -1 while the interface is missing */
    int index;  /* of the interface */
    bool queued; /* whether an LACPDU may wait in its queueing discipline behind data */
    int carrier_file;         /* of its carrier, or -1 */
    char carrier_changes[24]; /* how often that came and went, as the kernel has it */
    char discipline[DISCIPLINE_ROOM]; /* its queueing discipline, as the kernel last told */
    bool has_fifos;      /* whether each of its queues has a discipline of the daemon, in which an LACPDU would wait behind data */
    bool has_new_queues; /* whether a discipline of it changed that has not been seen yet */
    bool stacked;        /* whether what it sends goes by another interface of this machine */
    uint8_t mac[6];
    bool present; /* whether the answer of the kernel that is being read named it */
    bool up;
    bool held;             /* whether the file takes it out of use */
    bool waits;            /* whether its carrier is there, and has to be steady for longer before it is up */
    uint64_t steady_since; /* the milliseconds since which that is there, while it waits */
    uint64_t carried_at;    /* the milliseconds at which its carrier was seen last, and had been steady for delay-down */
    uint64_t returned_at;   /* those at which that came back last, or 0 */
    bool away;              /* whether that is away, and the link is up by delay-down */
    uint32_t kernel_losses; /* how often the carrier went, as the kernel last told */
    bool unsent;            /* whether `frame` waits for room in its second, or for the kernel to take it */
    bool tried;             /* whether it was tried since the last tick */
    uint8_t frame[NIW_FRAME];
    int trouble;            /* errno of what failed last, or 0 */
    unsigned trouble_ticks; /* how long it is still told */
    unsigned lines_left;    /* how many lines time and frames may still cause */
    bool pinned;            /* whether LACPDUs of `partner` alone are taken */
    struct system_id partner;
    uint8_t source[6];        /* of the last LACPDU that was taken */
    bool heard;               /* whether one was taken since the link came up; `actor` is its system */
    struct system_id actor;
    struct strangers strangers;
    struct markers markers;
    uint16_t twin;         /* another port, whose partner names the same port as that of this one, or 0 */
    unsigned twin_seconds; /* for how many seconds there is one */
    bool to_tell;             /* whether its peer has to be told of the end */
    uint64_t sent_before_end; /* LACPDUs, up to then */
    uint64_t lacpdus_at[MOST_LACPDUS]; /* the milliseconds of CLOCK_BOOTTIME at which the last ones went, the oldest first */
    uint8_t lacpdu[NIW_FRAME];         /* the last one that was taken, */
    uint64_t lacpdu_at;                /* and the milliseconds of CLOCK_BOOTTIME at which it came, or 0 */
    struct niw_counters counters;
    struct niw_churn churn;
    uint64_t counts[COUNTS];
    struct niw_view view; /* as the library last told it */
    bool changed;         /* whether there may be something to print */
    bool reported;        /* whether a line was printed */
    struct facts printed; /* last */
    bool watched;         /* whether watchers were told */
    struct facts shown;   /* to them, last */
    time_t changed_at;    /* when that changed, in seconds since 1970 */
};

enum bundle_state { BUNDLE_DOWN, BUNDLE_DEGRADED, BUNDLE_UP, BUNDLE_STATES };

struct bundle {
    enum bundle_state state;
    uint16_t aggregator; /* the one with most ports that carry, or 0 */
    uint16_t carrying;   /* how many ports of it carry */
    uint16_t links;      /* how many ports the bundle has */
    time_t changed_at;   /* when the state changed, in seconds since 1970 */
    uint64_t counts[BUNDLE_STATES];
    unsigned lines_left; /* how many changes may still be told */
    bool reported;  /* whether the first state was */
};

enum action { RUN_BUNDLE, CHECK, SHOW, SHOW_CONFIG, WATCH, METRICS, ORDER };

struct options {
    enum action action;
    bool json;
    const char *folder; /* of status sockets */
    const char *file;   /* of the bundle, or NULL */
    const char *order, *interface; /* of ORDER: what is to be done with which interface */
    struct settings settings;
};

#define MOST_CALLERS 64
#define QUESTION_ROOM 256 /* a question has a name of an interface at most, with its words */
/* Who asks. */
struct status {
    struct caller {
        int fd; /* -1: none */
        uint32_t tag; /* by which the loop knows it */
        uid_t user;
        unsigned ticks; /* that are left for the question */
        bool watches, json;
        size_t length;
        char question[QUESTION_ROOM];
        char *rest; /* what is still to be sent of its answer, behind `sent` octets; or NULL */
        size_t sent, answer_length;
    } callers[MOST_CALLERS];
    int listener;
    unsigned left_in_tick;
    bool listens;
    char own_name[NAME_ROOM + 32];
};

#define NAME_OF_FILE 64
#define MOST_STORED 512 /* as the unit lets the manager keep */
/* The files that the last daemon left. */
struct store {
    struct stored {
        char name[NAME_OF_FILE];
        int fd;    /* -1: it is taken, or closed */
        int taken; /* the same, once it is taken, until the manager keeps it no more; else -1 */
    } stored[MOST_STORED];
    size_t count;
};

/* What a function may touch is what it is handed. A part that it gets as `const struct` stays as it is, with all to which it leads but what another
 * parameter names. Without const it may change, with all to which it leads, and so may
 *
 *   printer            what is told: a line is printed, in the journal, too, and watchers get it
 *   core               the library's state. Where the library refuses a call, a line says so; the peers are told and the daemon ends, or at once
 *                      before it has started
 *   link, ports        the sockets of a link: a frame goes, or the kernel refuses it and the link notes that
 *   process            the files of the daemon, and what the manager of services keeps, which a `struct store` has
 *   device             the device of the host in the kernel: its carrier, MTU, speed
 *   carry, plane, tap_plane, team_plane
 *                      data: frames go, wait and are handed up, conversations move, another aggregator is chosen, and the kernel gets what it
 *                      is to do with frames, members and the device. Where it does not take back in time what it passes on, the daemon ends
 *   protocol           all that LACP does: LACPDUs that are due go, interfaces are taken up and released, what the kernel tells is followed, the
 *                      plane learns of it, and so do the manager of services, watchers and the hook
 *   state              what the next daemon finds: its file, the copy of that, and the process that writes the copy
 *   control            whoever asks gets an answer, and an order is obeyed
 *
 * With the number, the name or a file of an interface, also one in a `const struct`, the kernel may be asked for the interface, or may change it.
 * By a name with `_or_end` the daemon may end in order: the peers are told, and what the kernel runs for it is detached. By one with `_or_stop` it
 * may end at once, before it has started: members get back what they had, a team device that a daemon made goes, and so does the status socket; the
 * manager of services forgets what the last daemon left there. What is only shown is asked of the library with const, too. */

/* What prints lines. */
struct printer {
    const struct process *process; /* whose lines */
    struct status *watchers; /* who does not keep up is let go */
    int output, journal; /* what they are written to, once there were some, or -1 */
    struct report *report; /* what is written for whoever asks or watches */
};

/* The system of the library. */
struct core {
    struct niw_system system;
    struct printer *printer;
    const struct settings *settings; /* those that hold now */
    bool broken; /* whether a call was refused, or what carries data cannot go on */
};

/* The program: how far it is, its lines, the files that it has open, and what it was given. */
struct process {
    const struct settings *settings;
    struct inherited *inherited; /* what the last daemon left; all 0 where there is nothing */
    bool has_started; /* whether the interfaces that are there were taken up */
    bool resuming;    /* whether links that come up are not yet up for the library */
    bool has_left; /* whether the next daemon goes on from here */
    int epoll_file; /* the epoll by which it waits */
    int folder;     /* of the status socket, and of what members had */
    struct printer printer;
    struct words words;
    struct status status;
    struct store store;
};

/* The ports, and what is known of the interface of each. */
struct ports {
    struct link links[NIW_MOST_PORTS];
    uint16_t count; /* up to the last port that there is, or was; numbers between may be free */
    uint16_t slots; /* the ports of the system: those of the bundle, and room for more */
};
/* Each port up to the last one that there is, or was. */
#define EACH_LINK(link, of) for (struct link *link = (of)->links; link < (of)->links + (of)->count; link++)
#define EACH_LINK_AS_IS(link, of) for (const struct link *link = (of)->links; link < (of)->links + (of)->count; link++)

/* The keys that aggregators have: each of a port, and of the bundle. */
struct keys {
    struct speed_key {
        uint16_t given; /* the key that the administrator gave */
        uint16_t key;   /* the first one of a given key is that key itself */
        bool used;      /* whether `speed` is a speed of some port */
        struct speed speed;
    } known[2 * NIW_MOST_PORTS];
    uint16_t known_count;
    uint16_t speeds; /* how many speeds of one key have aggregators */
};

/* How the kernel is asked for interfaces. */
struct changes {
    struct mnl_socket *route; /* NULL: none is open yet */
    uint32_t asked;           /* the number of the last question */
    bool asking;              /* whether the answer is not whole yet */
    bool interrupted;         /* whether interfaces changed while the kernel answered */
    bool ask_again;           /* whether something was missed */
    bool suspected;           /* whether a carrier may have gone, since something could not be sent */
    bool tap_named;           /* whether the answer that is being read named the TAP device */
};

struct halt {
    bool down;      /* whether the device is down */
    bool silent;    /* whether peers were told, and the links are down for the library, too */
    unsigned ticks; /* for how long peers are told */
};

/* An interface that is to be a port, whose lock another one has. */
struct wanted_lock {
    char name[NAME_ROOM];
    uint64_t since; /* when that was seen first, in milliseconds */
};

/* Of the aggregator that carries. */
struct choice {
    uint16_t last;     /* what choose_aggregator answered last, or 0 */
    uint16_t followed; /* an aggregator in which the peer alone sends, whatever this end prefers, or 0 */
};

/* LACP: what the kernel tells of interfaces, which ports the bundle has, and its state. */
struct protocol {
    struct process *process;
    struct core *core;
    struct settings *settings; /* those that hold now */
    struct ports *ports;
    struct device *device;
    struct plane *plane;     /* what carries the data */
    const struct control *control; /* who is told of changes */
    uint16_t aggregator_count;
    struct bundle bundle;
    uint64_t began; /* in milliseconds */
    uint64_t ticks; /* since then */
    uint16_t aggregator_keys[NIW_MOST_PORTS];
    struct keys keys;
    struct changes changes;
    struct halt halt;
    struct choice choice;
    struct wanted_lock wanted_lock;
};

/* What each part above the protocol leads to. */
#define PARTS \
    struct process *process; \
    struct core *core; \
    const struct settings *settings; \
    struct ports *ports; \
    struct protocol *protocol; \
    struct device *device; \
    struct plane *plane;

static inline bool is_same_system(const struct system_id *one, const struct system_id *other) {
    return one->priority == other->priority && memcmp(one->mac, other->mac, sizeof one->mac) == 0;
}

static inline struct system_id partner_of(const struct niw_view *view) {
    struct system_id partner = {.priority = view->partner_priority};
    memcpy(partner.mac, view->partner_mac, sizeof partner.mac);
    return partner;
}

/* Room of zeros. There is no daemon without it. */
static inline void *allocate_or_stop(size_t octets) {
    void *made = calloc(1, octets);
    if (made) return made;
    (void)fputs("lagd: no memory\n", stderr);
    exit(REFUSED);
}

/* -errno of what failed just now, which is never 0. */
static inline int last_fault(void) {
    return errno > 0 ? -errno : -EIO;
}

/* A file of this is closed where its block ends, and errno stays as it is. */
#define CLOSED_FILE __attribute__((cleanup(close_file)))
#define CLOSED_STREAM __attribute__((cleanup(close_stream)))
static inline void close_file(const int *file) {
    int fault = errno;
    if (*file >= 0) close(*file);
    errno = fault;
}
/* One that is handed on, and so stays open. */
static inline int kept_open(int *file) {
    int handed = *file;
    *file = -1;
    return handed;
}
static inline void close_stream(FILE *const *stream) {
    int fault = errno;
    if (*stream) fclose(*stream);
    errno = fault;
}

#define MUST_USE __attribute__((warn_unused_result)) /* the answer tells whether the library did it: else nothing that depends on it is done */
#define UNUSED __attribute__((unused)) /* of a word that a function is handed since others of its kind want it */

/* names.c */
const char *status_text(unsigned status);
/* All counts of a port, by their places. */
#define ALL_COUNTS ((unsigned)LIBRARY_COUNTS + COUNTS)
extern const struct count_text COUNT_TEXTS[ALL_COUNTS];
uint64_t count_at(const struct link *link, unsigned place);
extern const char *const BUNDLE_STATE_TEXTS[BUNDLE_STATES];
const char *system_text(const struct system_id *system, char room[static 32]);
const char *mac_text(const uint8_t *mac, char room[static 32]);
const char *time_text(time_t time, char room[static 32]);

/* lines.c */
#define WATCHED 0x100 /* beside a level: watchers have had the line */
/* Beside a level: the kind of a line, and its message id in the journal, by which journalctl finds it. docs/LAGD.md lists them: one that is given out
 * is never given another meaning. */
#define EACH_KIND(KIND) \
    KIND(ABOUT_PORT, 0x1000, "abdf3e7059424239914537af4149a604") /* a port changed */ \
    KIND(ABOUT_BUNDLE, 0x2000, "2c13c00e7c20445b928385f869ff8b88") /* the bundle is up, degraded or down, or has more or fewer links that carry */ \
    KIND(ABOUT_STRANGER, 0x3000, "0b5d3f91c315421c910c98100506535d") /* another system than the partner speaks */ \
    KIND(ABOUT_RELOAD, 0x4000, "868170804c524cb8ae11e713761f3e86") /* the file was read again */ \
    KIND(ABOUT_RESTART, 0x5000, "e914800a54254eb3a5729784441b157c") /* something new in it needs a restart */ \
    KIND(ABOUT_FILE, 0x6000, "79af5fb89756413b86bdfe99a5118b5f") /* it is wrong */ \
    KIND(ABOUT_HOOK, 0x7000, "ee4807ee3eb645199ae06dbdc7074c56") /* the hook cannot be run */ \
    KIND(ABOUT_END, 0x8000, "da067c6258764cdbb7b8cb7be984bc2d") /* the daemon left a port, as it ends */ \
    KIND(ABOUT_REFUSAL, 0x9000, "b7f3f1992518457f93456f9151641518") /* the library refused a call */ \
    KIND(ABOUT_CARRIER, 0xa000, "0607a32ee45a4403aa4285dc01ab9bad") /* the TAP device has a carrier, or none */ \
    KIND(ABOUT_MARKERS, 0xb000, "a31e97fa3b6f4028a557b2d2e89d4829") /* the peer answers markers, or none */ \
    KIND(ABOUT_DATA, 0xc000, "c6168aa2020d442a8bc8c32f421bd6f9") /* what troubles the data of a port */ \
    KIND(ABOUT_RIGHTS, 0xd000, "9e14e381d96044edbfe2c030fd7290ff") /* the daemon keeps capabilities that it does not need */ \
    KIND(ABOUT_HANDOVER, 0xe000, "5d0c2f6be7a14b0f9c3e88d1a4f7b260") /* what one daemon leaves to the next one */
#define KIND_ITSELF(kind, value, id) kind = value,
enum { EACH_KIND(KIND_ITSELF) KINDS = 0xf000 };
_Noreturn void stop(int status, const char *what, const char *which);
void need(bool done, const char *what);
/* Whether the library did what it was called for. Where it refused, the core is broken, and a line says so: who calls this has no const part. */
bool is_done(struct core *core, uint32_t status, const char *call) MUST_USE;
bool is_told(struct core *core, struct niw_number answer, const char *call, uint64_t *number) MUST_USE;
bool say(struct printer *printer, int level, const char *format, ...) __attribute__((format(printf, 3, 4)));
/* Tells what is wrong with a file. */
#define complain(printer, ...) ((void)say(printer, LOG_WARNING | ABOUT_FILE, __VA_ARGS__))
size_t escape(char *text, size_t room, const char *from, size_t length, bool lines);

/* address.c */
void read_auto_system_mac_or_stop(struct settings *settings);

/* locks.c */
int lock_interface(struct store *store, const struct inherited *inherited, int index);
#define HOLDER_ROOM 64
const char *holder_of(const struct ports *ports, int index, char room[static HOLDER_ROOM]);

/* links.c */
bool take_up_interface(struct process *process, struct plane *plane, struct link *link, int index);
void withdraw_and_release_interface_or_end(struct plane *plane, struct store *store, struct link *link);
int open_in_sys(int index, const char *what, int flags);
bool read_text(int fd, char *text, size_t room);
bool read_carrier_changes(struct link *link);
void send_frame(struct core *core, bool *carrier_suspected, struct link *link, const uint8_t *frame);

/* frames.c */
struct arrival {
    const uint8_t *frame;
    size_t length;
    unsigned packet_type; /* PACKET_.. */
    int index;            /* of the interface that had it */
    bool tagged;          /* whether the kernel took a VLAN tag from it */
};
struct tpacket_auxdata;
struct tpacket_auxdata aux_of(const struct msghdr *message);
void accept_frame(struct protocol *protocol, struct link *link, const struct arrival *arrival);
void receive_frames(struct protocol *protocol, uint16_t port);
void accept_response(struct protocol *protocol, struct link *link, const struct arrival *arrival);
void forget_partner(const struct settings *settings, struct link *link);
bool may_be_partner(const struct link *link, const uint8_t *frame, struct system_id *actor);
void note_lacpdu_and_pin_partner(const struct settings *settings, struct link *link, const struct system_id *actor, const uint8_t *frame);
void tell_strangers(struct printer *printer, uint64_t ticks, struct link *link);

/* markers.c */
bool read_response(struct core *core, const struct arrival *arrival, struct niw_pdu *pdu);
bool is_partners_response(const struct settings *settings, const struct link *link, const struct arrival *arrival, const struct niw_pdu *response);
void note_odd_marker(struct link *link, const struct arrival *arrival, enum count count);
bool spend_answer(struct link *link, const struct arrival *arrival, unsigned most);
void tell_markers(struct printer *printer, uint64_t ticks, struct link *link);

#define MARKERS_AT_ONCE 16 /* how many come in the place of one, of a partner whose members have several queues, where ours have */

/* twins.c */
void note_twins_and_tell_new(struct printer *printer, struct ports *ports);

/* restore.c */
bool choose_aggregator_and_set_waiting(struct protocol *protocol, struct link *link);
void set_waiting(struct link *link, bool waits);
bool choose_aggregator_and_whether_waited(struct protocol *protocol, const struct link *link);
void note_carrier(const struct settings *settings, struct link *link);
bool note_whether_stays_up(const struct process *process, struct link *link, bool carrier, bool lost);

/* revert.c */
void pass_revert_second(struct protocol *protocol);
void limit_links(struct protocol *protocol, uint16_t most);

/* changes.c */
int open_and_follow_changes_or_stop(struct protocol *protocol);
void receive_changes_or_stop(struct protocol *protocol);
void follow_messages_or_stop(struct protocol *protocol, const void *messages, size_t length);
void ask_again_if_due(struct changes *own, struct ports *ports);
void lose_link_and_ask_again(struct protocol *protocol, struct link *link);
void ask_links(struct changes *own, const struct ports *ports);
void ask_now(struct changes *own, struct ports *ports);
void read_and_follow_carriers(struct protocol *protocol, bool tick);

/* keys.c */
void choose_slots(struct keys *own, struct ports *ports, const struct settings *settings);
uint16_t make_keys(struct keys *own, const struct ports *ports, uint16_t keys[static NIW_MOST_PORTS]);
bool has_aggregator(const struct keys *own, uint16_t given);
uint16_t free_key(const struct keys *own, const struct ports *ports, uint16_t behind, const struct link *but);
uint16_t choose_key(struct keys *own, const struct ports *ports, const struct settings *settings, const struct link *link);
bool call_driver(int index, void *value);
struct speed read_speed(int socket, int index);
bool write_speed(int socket, int index, uint32_t megabits);
bool note_speed_and_set_key(struct core *core, struct keys *own, const struct ports *ports, struct link *link);
bool read_whether_speed_differs(const struct settings *settings, const struct link *link);
const char *speed_text(const struct speed *speed, char room[static 40]);

/* system.c */
void make_ports_and_system_or_stop(struct protocol *protocol);
size_t resume_system(struct core *core, const struct protocol *protocol, struct niw_saved *saved, size_t count);
void set_link_send_and_tell(struct protocol *protocol, struct link *link, bool up);
bool apply_hold(struct core *core, const struct link *link, bool down) MUST_USE;
void apply_holds(struct core *core, const struct ports *ports, bool down);
void lose_and_release_link(struct protocol *protocol, struct link *link);
void send_due(struct protocol *protocol);
void send_due_and_read_views(struct protocol *protocol);
void send_again(struct core *core, bool *carrier_suspected, struct ports *ports);
bool pass_system_tick(struct core *core, struct ports *ports);
uint64_t seconds_since(uint64_t began);
uint64_t milliseconds_of(clockid_t clock);
uint64_t milliseconds(void);
void note_peer_to_tell(struct link *link);
void leave_aggregators_and_tell_peers(struct protocol *protocol);
bool end_is_told(const struct ports *ports);
bool end_bundle_and_system(struct core *core, struct bundle *own, const struct ports *ports, const struct control *control);

/* membership.c */
#define ORDER_ROOM 384
uint16_t count_links(const struct ports *ports);
bool place_ports(const struct process *process, const struct ports *ports, struct settings *settings);
void keep_left_ports(const struct inherited *inherited, struct ports *ports, struct settings *settings);
void leave_left_ports(struct protocol *protocol);
void begin_link(const struct settings *settings, struct link *link, uint16_t port);
void join_port_and_ask_now(struct protocol *protocol, struct link *link, const struct port_settings *settings);
void leave_port(struct protocol *protocol, struct link *link);
bool begin_emptying_or_apply_hold(struct protocol *protocol, struct link *link);
void stay_port(struct protocol *protocol, struct link *link);
void pass_leaving_tick(struct protocol *protocol);
struct interface;
bool may_put_in(const struct protocol *protocol, const struct link *link);
bool note_whether_outside(const struct protocol *protocol, struct link *link, int master);
void hold_once_to_tell_peer(struct protocol *protocol, const struct link *link);
void join_followed_port(struct protocol *protocol, const struct interface *interface);
bool take_and_tell_new_name(struct protocol *protocol, const struct link *link, const struct interface *interface);
void obey_order_and_answer(struct protocol *protocol, char *order, char answer[static ORDER_ROOM]);

/* halt.c */
void halt_or_go_on_with_device(struct protocol *protocol, bool up);
void note_halt_at_start(struct halt *own, bool down, bool resuming);
void halt_or_begin_lacp_at_start(struct protocol *protocol);
void pass_halt_tick(struct protocol *protocol);

/* ports.c */
void read_views_and_count(struct core *core, struct ports *ports);
void print_changes_strangers_and_markers(struct core *core, const struct protocol *protocol, struct ports *ports);
bool print_change(struct core *core, const struct protocol *protocol, struct link *link);
struct facts facts_of(const struct protocol *protocol, const struct link *link);
bool carries(const struct protocol *protocol, const struct link *link);
uint16_t count_away(const struct ports *ports);

/* select.c */
struct worth { /* of an aggregator, by the ports that carry there */
    uint16_t links;
    bool has_partner;
    uint64_t partner;  /* its system */
    uint64_t megabits; /* with select=bandwidth */
    uint64_t system;   /* the better one of both ends, */
    uint32_t port;     /* and its best port: priority and number */
};
struct worth worth_of(const struct protocol *protocol, uint16_t aggregator);
uint64_t patience_with(const struct protocol *protocol, uint16_t active, uint16_t other);
void follow_peer(struct core *core, struct choice *own, const struct protocol *protocol, uint16_t aggregator);
void choose_aggregator(struct core *core, struct choice *own, const struct protocol *protocol, struct bundle *now);
bool is_as_good_as_any(struct core *core, const struct protocol *protocol, uint16_t aggregator);

/* bundle.c */
void choose_and_tell_bundle(struct protocol *protocol);
void enter_down_state_run_hook_and_tell_all(struct core *core, struct bundle *own, const struct control *control);

/* reload.c */
bool change_port(struct protocol *protocol, struct link *link, const struct settings *wanted);
void reload(struct protocol *protocol, const char *file);

/* kept.c */
#define BOOT_ROOM 64
const char *boot_id(char room[static BOOT_ROOM]);
void forget_interface(int folder, const struct link *link);

/* folder.c */
int open_or_make_folder(const char *folder, const char **fault);
int open_or_make_status_folder_or_stop(const char *folder);
FILE *open_in(int folder, const char *name, int flags, const char *mode);
const char *fault_of_owner(int opened);
uint64_t namespace_cookie(void);

/* bpf.c: each int but `index` is a descriptor, or -errno */
void *make_map(uint32_t size, uint32_t count, int *map);
int attach_program(int program, int index, bool egress);
bool exchange_program(int attached, int program, int index);
void *map_again(uint32_t size, uint32_t count, int map);
void detach_program(int attached);
uint32_t program_keeper(int attached);

/* store.c */
#define READY "READY=1\n"
void notify(const char *what);
void notify_bundle(const struct bundle *bundle, const char *what);
void receive_stored_or_stop(struct process *process);
bool has_store(void);
void put_stored(const struct store *own, const char *kind, int number, int fd);
int claim_stored(struct store *own, const char *kind, int number);
void return_stored_or_close(struct store *own, const char *kind, int number, int fd);
void drop_stored_without_closing(struct store *own, const char *kind, int number);
void close_stored(struct store *own, const char *kind, int number, int fd);
void detach_and_drop_unclaimed(struct store *own);
bool is_bound(int fd, int index);
int packet_socket(struct store *store, const struct inherited *inherited, const char *kind, int of, int index, int type);
int attach_stored(struct store *own, const char *kind, int program, int index, bool egress);
void detach_stored(struct store *own, const char *kind, int index, int attached);

/* possible.c */
int try_to_attach_program_or_stop(const struct settings *settings);

/* main.c */
enum {
    SIGNALS = NIW_MOST_PORTS + 1,
    CLOCK,
    CHANGES,
    STATUS,
    CALLERS,
    HOST = CALLERS + MOST_CALLERS, /* the TAP device */
    MEMBERS,                       /* their data */
    RESPONSES = MEMBERS + NIW_MOST_PORTS, /* responses to markers, which waited */
    TAGS,
};
bool await_input(int epoll_file, int fd, uint32_t tag);
bool await_output(int epoll_file, int fd, uint32_t tag);
void await_no_more(int epoll_file, int fd);

/* options.c */
const char *add_port_by_words(struct words *words, char *text, struct settings *settings, const char **found);

/* status.c */
#define REFUSAL "refused: " /* begins the answer to who has no place */
void open_status_or_stop(struct process *process, const char *folder);
void accept_callers(struct status *own, int epoll_file);
void pass_tick_of_callers(struct status *own, int epoll_file);
void tell_watchers(struct status *own, const char *text, size_t length, bool json);
void write_report_and_tell_watchers(struct core *core, const struct control *control, const struct link *link);

/* state.c, resume.c */
uint64_t boottime(void);
uint32_t first_marker_left(const struct inherited *inherited);
bool was_away_briefly(const struct inherited *inherited);
bool lacpdu_holds(uint64_t now, uint64_t then, bool short_timeout);
bool has_carried_links(const struct inherited *inherited);
unsigned resume(struct core *core, const struct protocol *protocol, struct ports *ports);
void bring_up_others_and_send(struct protocol *protocol);
void resume_data(struct protocol *protocol, unsigned count);

/* carry.c */
void settle_carry_or_lose_member(struct plane *plane);

/* tap/host.c */
void end_carry(struct plane *plane);
void remove_all_members(struct plane *plane, const struct ports *ports);

/* tap/guard.c, tap/members.c */
void fit_queue(const struct plane *plane, const struct link *link);
bool read_discipline_and_renew_or_end(struct plane *plane, struct link *link);
void set_mac_and_move_kept(struct plane *plane, struct link *link, const uint8_t *mac);

#endif
