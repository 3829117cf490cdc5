/* What a daemon leaves to the next one, beside what the manager of services keeps open. */
#ifndef LAGD_STATE_H
#define LAGD_STATE_H

#include "lagd.h"

#include <net/ethernet.h>
#include <sys/types.h>

/* Where an LACPDU has the state of its actor, and the one that this knows of the port that takes it (IEEE 802.1AX-2014, 6.4.2.3). */
#define ACTOR_STATE (ETH_HLEN + 18)
#define PARTNER_STATE (ETH_HLEN + 38)

/* Of a link. Times are milliseconds of CLOCK_BOOTTIME. */
struct inherited_link {
    int index;           /* of the interface */
    uint8_t mac[6];      /* of the interface */
    uint32_t losses;     /* how often its carrier had gone */
    uint16_t aggregator; /* that the port was in */
    bool carried;        /* whether the port distributed, and so has an LACPDU: */
    uint64_t heard;      /* when that came */
    uint64_t spoken;     /* when the last one went */
    uint8_t lacpdu[NIW_FRAME];
};

/* Of a port: its number, its interface, or 0 where that was missing, and its name. */
struct inherited_port {
    uint16_t number;
    int index;
    char name[NAME_ROOM];
};

struct inherited {
    bool others; /* whether it is of other settings, so that only the interfaces are told */
    unsigned link_count;
    struct inherited_link links[NIW_MOST_PORTS];
    unsigned port_count;
    struct inherited_port ports[NIW_MOST_PORTS];
    uint64_t space;               /* the namespace_cookie of its network namespace, or 0 */
    uint64_t written;             /* when it was written, in milliseconds of CLOCK_BOOTTIME, */
    uint64_t wall;                /* and since 1970 */
    uint64_t ahead;               /* so much is CLOCK_BOOTTIME of its boot ahead of that of this one; 0: it is of this one */
    uint32_t marker;              /* the identifier of the next one */
    struct bundle bundle;         /* its state, aggregator and time of the last change */
    bool follows;                 /* whether that aggregator is the one in which the peer sends, and not the one that is preferred */
    unsigned answering;           /* enum answering */
    int tap;                      /* the index of the TAP device, or 0 */
    int persists;                 /* whether the daemon made it outlive itself */
    uint32_t mtu;                 /* a lower one than its members take, which an administrator set, or 0 */
    int members[CONVERSATIONS];   /* of each conversation the interface that it was on, or 0 */
};

/* How the state is written. */
struct state {
    struct carry *carry; /* what is saved, as far as it concerns data */
    FILE *file; /* the state that was written last, or NULL */
    int copy_folder, lock; /* state-dir, or -1, and the file by which this bundle has its copy there */
    int copied; /* by which a process tells what became of the copy that it writes, or -1: none does */
    pid_t copier;
    uint64_t copied_at, copied_ports; /* when it began, and of which ports, a bit for each */
    bool has_copy; /* whether something may be there */
    bool copy_failed; /* whether the last one did, which has a line */
    uint64_t space; /* the namespace_cookie of this network namespace */
    int members[CONVERSATIONS]; /* the interface of each conversation that it has, or 0 */
    bool over; /* whether the peers are told of the end */
    bool failed; /* whether the last writing did, which has a line */
    char name[NAME_ROOM + 32], copy_name[NAME_ROOM + 32];
};

/* state.c */
void recall_state_and_leave_other_device(struct state *own);
bool save_state(struct state *own, bool leaves);
void write_port_of_conversation(struct state *own, uint16_t number, uint16_t port);
void remove_state(struct state *own);

#endif
