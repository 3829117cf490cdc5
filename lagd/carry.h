/* Data: what the files of lagd share that carry it. */
#ifndef LAGD_CARRY_H
#define LAGD_CARRY_H

#include "device.h"
#include "state.h"

/* A conversation is busy that had a frame within so many milliseconds. */
#define BUSY 5000

/* Whether the peer answers markers. */
enum answering { NOT_ASKED, ASKED, ANSWERS, MUTE };

/* What is known here of a conversation that the kernel may pass on. */
struct fast {
    uint16_t port;    /* the port whose member its row names, or 0 */
    bool touched;     /* whether it may be passed on now: frames of it came, or went */
    uint32_t taken;   /* segments that came to the daemon since the last flush */
    bool suspected;     /* whether its row was found with frames that do not come; it was so: */
    uint64_t suspected_word, suspected_opaque;
    uint64_t not_before; /* the time before which it does not go on, after its link went down */
};

/* A conversation of the host. */
struct conversation {
    uint16_t home;  /* the aggregator in which its last frame went, or 0 */
    uint16_t port;  /* the port on which it went */
    bool used;      /* whether a frame came from the host since the last tick */
    uint64_t last;  /* the time of the last tick before which one came, or 0 */
    uint64_t since; /* the time of the tick that saw it held, or 0 */
    bool asked;     /* whether it is asked to move */
    struct fast fast;
};
#define EACH_CONVERSATION(conversation, of) \
    for (struct conversation *conversation = (of)->conversations; conversation < (of)->conversations + CONVERSATIONS; conversation++)

struct probe {
    enum answering peer, reported;
    bool asking;       /* whether a marker waits for its response: a peer that answers none stays MUTE meanwhile */
    uint16_t asked_on; /* the port that had the last marker, or 0 */
    uint64_t asked_at, sent_at; /* the times when the marker went first, and last */
    struct system_id partner;   /* of the active aggregator */
    uint16_t partner_key;
};

/* The most interfaces above the device: VLANs, those with MAC addresses of their own, and bridges of which one of these is a port. */
#define MOST_ABOVE 64
struct announce {
    int sender; /* while it is announced */
    struct announced_place { /* an interface whose addresses are announced; the first one is the device */
        int index;
        int bridge; /* the one of which it is a port, or what else has it, or 0 */
        uint8_t mac[6];
        bool is_known, is_router; /* whether the kernel told what its IPv6 is, and that it is a router */
    } places[1 + MOST_ABOVE];
    unsigned place_count;
    unsigned announced;  /* how many frames this announcement has so far */
    unsigned times;      /* how often it is still announced */
    unsigned wait_ticks; /* until it is announced next */
};

/* Times are milliseconds of CLOCK_MONOTONIC. Ticks are made up after a stall, in which a frame may have been sent just before: they do not
 * tell for how long nothing was. */
struct carry {
    PARTS
    struct state *state;           /* its file gets a line as a conversation goes on by another interface */
    uint64_t time;                 /* of the last tick */
    uint16_t active;               /* the aggregator whose ports carry the data, or 0 */
    uint16_t active_ports[NIW_MOST_PORTS]; /* of it, those that distribute */
    uint16_t active_count;
    uint64_t to_collect_since[NIW_MOST_PORTS]; /* the time that saw each port distribute first whose partner does not say that it collects; or 0 */
    uint16_t port_of[CONVERSATIONS]; /* of each conversation in it, as ask_ports told last: 0 where it is free or held there */
    unsigned taken;                /* frames that came in this turn */
    bool more_waits;               /* whether a socket may have more */
    struct conversation conversations[CONVERSATIONS];
    bool to_balance; /* whether a tick passed since the last look at the loads */
    uint16_t previous; /* the aggregator that was active before nothing or another one was, or 0 */
    uint64_t heard_at; /* the time at which frames came in the active aggregator last, or 0 */
    uint64_t heard_before; /* how many had come in an active one then */
    uint64_t looked_at; /* of doubt_active_or_follow_peer */
    uint64_t elsewhere; /* 100 for each tick in which a frame came in another aggregator, since one came in the active one */
    unsigned on_defaults[NIW_MOST_PORTS]; /* ticks for which a port ran on defaults */
    unsigned wakes_after[NIW_MOST_PORTS]; /* how many of them it may */
    uint64_t counts[CARRY_COUNTS];
    struct announce announce;
    struct probe probe;
};

/* probe.c */
void note_response(struct plane *plane, const struct link *link);
void recall_answering(struct probe *own, const struct carry *carry, enum answering last);
void reset_if_other_partner(struct probe *own, const struct carry *carry);

/* resume.c */
void resume_conversations_or_end(struct plane *plane, bool goes_on);

/* carry.c */
void recall_active_aggregator(struct carry *carry, uint16_t aggregator);
bool ask_state(struct core *core, uint16_t aggregator, uint16_t number, struct niw_assignment *state) MUST_USE;
bool ask_ports(struct core *core, uint16_t aggregator, uint16_t *ports) MUST_USE;
bool is_held(const struct niw_assignment *state);
bool is_busy(const struct carry *carry, const struct conversation *conversation);
bool heard_peer_lately(const struct plane *plane);
void count_and_forget_heard(struct carry *carry);
bool awaits_collecting(const struct carry *carry, uint16_t port);
bool leave_previous(struct carry *carry);
void choose_ports_and_tell_host(struct plane *plane);
void begin_carry_tick_and_announce(struct printer *printer, uint64_t *time, unsigned *carrier_ticks, struct announce *announce,
    const struct device *device);
void note_heard(struct carry *carry);
void end_carry_tick_and_wake_ports(struct carry *carry);
void doubt_active_or_follow_peer(struct carry *carry, uint32_t aggregator);

/* flight.c */
bool is_told_distributing(struct core *core, uint16_t port, bool wanted);

/* moves.c */
void mark_busy_to_move(struct carry *carry);
bool can_empty(const struct plane *plane, const struct link *link);
bool empty_port_and_send(struct plane *plane, const struct link *link);
void balance_and_send(struct carry *carry);

/* announce.c */
void announce_soon(struct announce *own);
void pass_announcing_tick(struct printer *printer, struct announce *own, const struct device *device);

#endif
