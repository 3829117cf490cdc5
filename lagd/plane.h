/* What carries the data, as tables of functions, each beside its functions. plane.c chooses them; nobody else asks which ones they are. */
#ifndef LAGD_PLANE_H
#define LAGD_PLANE_H

#include <stdbool.h>
#include <stddef.h>
#include <stdint.h>

struct arrival;
struct carry;
struct control;
struct device;
struct guard;
struct link;
struct msghdr;
struct options;
struct plane;
struct printer;
struct report;
struct queues;
struct settings;
struct tap_plane;
struct team_plane;

/* CALL calls a function of a table, or does nothing without one; ASK answers `usual` without one. run_programs, set, send_marker,
 * accept_response and answer of the last two tables are in each one; so is `nameless` of the first, and `leave` of each device. */
#define CALL(function, ...) do { if (function) (function)(__VA_ARGS__); } while (0)
#define ASK(function, usual, ...) ((function) ? (function)(__VA_ARGS__) : (usual))

/* How something is told to whoever asks. */
enum form { AS_TEXT, AS_JSON, AS_METRICS };

/* The device, what is done with an interface that is a port, and where conversations go: by nothing, a TAP device or a team device. */
struct carrying {
    void (*open)(struct plane *plane);                  /* makes the device, or takes that of the last daemon, and has what ends it called at the exit; a fault ends the program */
    void (*end)(struct plane *plane);                   /* nothing goes or comes from here on, and members are as they were */
    void (*lose_device)(struct plane *plane);           /* it was deleted, or moved to another namespace */
    void (*keep_device)(struct plane *plane, bool keeps); /* it outlives the daemon, or goes with it */
    void (*leave)(struct plane *plane, int index, bool owned); /* the last daemon had it by other settings: it is free, and goes if it `owned` it */
    bool (*give_carrier)(const struct plane *plane, bool on); /* whether the kernel does so */
    void (*settle_mtu)(struct device *device); /* the longest MTU that each member takes, or a lower one of an administrator */
    int (*add)(struct plane *plane, struct link *link); /* takes an interface up: 0, or -errno */
    void (*remove)(struct plane *plane, const struct link *link); /* it is a member no more, and has what it had before */
    bool (*renew)(struct plane *plane, struct link *link); /* it has another queueing discipline: whether it is still taken up */
    void (*move)(struct plane *plane, struct link *link, const uint8_t *mac); /* it has another MAC address */
    void (*follow_mtu)(struct plane *plane, const struct link *link, uint32_t mtu); /* it has this one; 0 of one that is a member no more */
    void (*follow_speed)(struct plane *plane, const struct link *link); /* its link is up, and may have another speed */
    bool (*can_empty)(const struct plane *plane, const struct link *link); /* whether its conversations can move behind markers */
    bool (*empty)(struct plane *plane, const struct link *link); /* moves them to other ports: whether none is left, or can leave so */
    void (*drain)(struct plane *plane, struct link *link); /* hands up what waits at a port that is to be held */
    void (*lose)(struct plane *plane, const struct link *link); /* its link goes down */
    void (*forget)(struct plane *plane, const struct link *link); /* another interface is to be this port: what is known of it begins anew */
    void (*send_marker)(struct plane *plane, struct link *link, const uint8_t *marker); /* one is due */
    void (*note_response)(struct plane *plane, const struct link *link); /* its partner answered a marker */
    bool (*see_port)(const struct plane *plane, const struct link *link, int master); /* whether one of this master is a port still */
    void (*settle)(struct plane *plane);                 /* calls may have changed something */
    void (*tick)(struct plane *plane);                   /* 100 ms passed */
    bool (*keeps_aggregator)(const struct plane *plane);       /* whether the active one stays where another one has as many ports */
    uint64_t (*frames_heard)(struct plane *plane, bool counts_now); /* how many of the peer came, as was counted last, or now */
    void (*tell_host)(struct plane *plane);              /* the active aggregator is chosen */
    void (*resume)(struct plane *plane, bool goes_on);   /* the ports were taken over, and data goes on where it was */
    void (*go_on)(struct plane *plane);                  /* in the aggregator of the last daemon */
    int (*member_of)(const struct plane *plane, uint16_t number); /* the interface by which the kernel has a conversation go, or 0 */
    void (*end_resuming)(struct plane *plane);           /* what were members of the last daemon, and are no more, have what they had before */
    unsigned (*frames_waiting)(struct plane *plane);     /* in the daemon, as far as that is known */
    int (*check)(struct printer *printer, struct plane *plane, const struct options *options); /* what this machine lacks: how the program ends */
    void (*show)(struct report *report, const struct control *control, enum form form);   /* the device and its counts */
    void (*show_member)(struct report *report, const struct control *control, const struct link *link, enum form form);
    void (*show_markers)(struct report *report, const struct control *control);           /* in a line of text */
    void (*show_waiting)(struct report *report, const struct control *control, enum form form); /* what waits to go, or to move */
    unsigned first_count, end_count, member_counts;    /* the counts that it has, and how many of a member */
    bool keeps_members; /* whether what the last daemon set of members may be of use */
    bool administers;   /* whether it changes interfaces as long as it runs, for which it keeps CAP_NET_ADMIN */
    const char *nameless; /* what stands for the name of the device in a state, where there is none */
};

/* Who passes frames on: the daemon alone, or the kernel, too (`fast`). */
struct passing {
    int (*check)(struct printer *printer, struct plane *plane, const struct options *options); /* as that of the device */
    void (*start)(struct tap_plane *tap);                         /* loads what the kernel is to run; a fault ends the program */
    void (*end)(struct tap_plane *tap);                           /* the kernel passes nothing on any more */
    void (*set_up_device)(int index);                         /* it is new */
    void (*run_programs)(struct tap_plane *tap, const struct link *link, struct guard *guard); /* at a member */
    void (*count)(struct tap_plane *tap);                         /* what the kernel did since the last time */
    void (*withdraw)(struct tap_plane *tap);                      /* what is not, or no longer, where the kernel passes it on */
    void (*withdraw_port_or_end)(struct tap_plane *tap, uint16_t port);  /* its link goes down */
    void (*pass_on)(struct tap_plane *tap);                       /* all that was put was sent */
    void (*note_read)(struct tap_plane *tap, unsigned packets, bool drained); /* of the device */
    void (*open_host)(struct tap_plane *tap, bool open);          /* frames of the host are taken for a while */
    void (*follow_discipline)(struct tap_plane *tap, const char *discipline); /* of the device */
    void (*set_collecting)(struct tap_plane *tap);                /* frames go up from the ports that collect now, and from no other one */
    void (*read_host)(struct tap_plane *tap);                     /* takes what waits in the device, each 100 ms: what is not there was lost */
    void (*tick)(struct tap_plane *tap);                          /* 100 ms passed */
    void (*resume)(struct tap_plane *tap);                        /* what the kernel passed on for the last daemon stays, where its port does */
    bool steers; /* whether one processor has to take what a member of one queue receives */
};

/* By how many queues of a member its data goes: one, or all. */
struct queueing {
    int (*check)(struct printer *printer, struct plane *plane, const struct options *options); /* as that of the device */
    void (*start)(struct tap_plane *tap); /* a fault ends the program */
    unsigned (*fifos_of)(int index); /* how many disciplines that keep the order a member gets */
    /* False where that is looked at again once it has queues; `again`: after its discipline changed. */
    bool (*set)(struct tap_plane *tap, struct link *link, struct guard *guard, bool again);
    bool (*follow)(struct tap_plane *tap, struct link *link); /* a discipline changed: whether the member is still taken up */
    void (*watch)(struct tap_plane *tap); /* 100 ms passed: a member whose queues others changed is taken up anew */
    void (*mark)(struct queues *queues, uint16_t number, struct msghdr *message); /* which queue a frame of a conversation goes by */
    bool (*send_marker)(struct tap_plane *tap, struct link *link, const uint8_t *marker, bool again); /* false where not all of it went */
    void (*accept_response)(struct tap_plane *tap, struct link *link, const struct arrival *arrival, uint32_t id);
    bool (*answer)(struct tap_plane *tap, struct link *link, const uint8_t *response); /* false where too many wait */
    void (*show)(struct report *report, const struct control *control, const struct link *link, enum form form);
    const char *text;         /* behind the way, in the status */
    unsigned markers_at_once; /* how many come in the place of one, of a peer whose members are like ours */
};

struct plane {
    const struct carrying *carrying;
    const struct passing *passing;
    const struct queueing *queueing;
    const char *way; /* what the status calls it, and a state, as its last word */
    bool segments;   /* whether frames of several segments are passed */
    bool wants_fifo; /* whether members get a queueing discipline that keeps the order */
    bool renews;     /* whether a member with another one is taken up anew */
    bool changed;    /* whether the library may answer otherwise now, so that conversations go or come */
    bool owns_device; /* whether a daemon made the device, or had it outlive itself, so that the next one takes it away at its end */
    bool is_new;      /* whether this start made the device, into which it puts the ports of the file */
    /* What the functions of the tables work with. Who calls one may hand it over. */
    struct device *device;
    struct carry *carry;
    struct tap_plane *tap;
    struct team_plane *team;
};

/* plane.c */
void choose_no_plane(struct plane *plane);
void choose_plane(struct plane *plane, const struct settings *settings);
void leave_device(struct plane *plane, const char *way, int index, bool owned);
void release_former_members(struct plane *plane);

#endif
