/* SPDX-License-Identifier: GPL-2.0-or-later */
/* LACP of a bond by the functions of lag.h: what bond_3ad.c and the files bond_lacp*.c share. */
#ifndef BOND_LACP_H
#define BOND_LACP_H

#include <linux/ethtool.h>
#include <linux/spinlock.h>
#include <net/bonding.h>
#include <net/bond_3ad.h>

#include "lag_end.h"

/*
 * How many frames of the slow protocols may wait on a port, and how much of each is kept: more
 * than NIW_FRAME is not looked at.
 */
#define LACP_WAITING 24
#define LACP_KEPT 128

struct lacp_frame {
	u16 length;
	u8 octets[LACP_KEPT];
};

/* A slave as a port of the system of its bond. */
struct lacp_port {
	struct slave *slave;
	struct lacp_bond *system;
	u16 number, key, priority;
	bool placed;		/* the system has it */
	bool up;		/* the link that the system knows */
	bool fell;		/* the link was down since the last turn */
	bool carried;		/* of lacp_remake: it goes on, */
	u16 was_in;		/* in this aggregator of the system before */
	struct lag_heard heard;
	struct lag_limit limit;
	struct lag_wake wake;
	struct niw_view view;
	struct niw_churn churn;
	spinlock_t lock;	/* of the frames that wait */
	u16 first, waiting;
	struct lacp_frame frames[LACP_WAITING];
};

/* What an aggregator has that could carry. */
struct lacp_group {
	u32 bandwidth;		/* in Mbit/s */
	u8 ports;
	bool partner, individual;
};

/* The lists that a system is made of. */
struct lacp_lists {
	struct lag_port ports[NIW_MOST_PORTS];
	struct niw_port known[NIW_MOST_PORTS];
	u16 keys[NIW_MOST_PORTS];
	struct niw_saved saved[NIW_MOST_PORTS];
};

/* The system of a bond. Only work of bond->wq, which runs one at a time, looks into it. */
struct lacp_bond {
	struct bonding *bond;
	struct lag_end end;
	u16 priority;
	u8 mac[ETH_ALEN];
	bool stale;		/* its ports, or what they are, changed: it has to be made anew */
	bool other;		/* it is another system: no port goes on */
	u8 count;
	struct lacp_port *ports[NIW_MOST_PORTS];	/* by their numbers */
	u8 placed;		/* how many ports the system has; */
	struct lacp_port *keys[NIW_MOST_PORTS];		/* keys[i] gave aggregator i + 1 its key */
	struct lacp_port *active;	/* whose aggregator carries the frames of the bond */
	struct niw_view views[NIW_MOST_PORTS];
	struct lacp_group groups[NIW_MOST_PORTS];
	struct lacp_lists lists;
};

/* Of bond_3ad.c. */
s64 lacp_now(void);
bool lacp_is_up(const struct slave *slave);
u16 lacp_key(const struct slave *slave, u16 was);
bool lacp_aggregates(u16 key);

/* Of bond_lacp_frames.c; the first three are malloc, realloc and free of lag.c. */
void *niw_host_malloc(size_t size);
void *niw_host_realloc(void *at, size_t size);
void niw_host_free(void *at);
void lacp_send_due(struct lacp_port *port, s64 now);
void lacp_send_all(struct lacp_bond *system);
void lacp_take_all(struct lacp_bond *system, s64 now);
void lacp_keep(struct lacp_port *port, const struct sk_buff *skb, u8 subtype);

/* Of bond_lacp.c. */
struct lacp_bond *lacp_system_of(struct bonding *bond, bool *waits);
void lacp_read_views(struct lacp_bond *system);
bool lacp_turn(struct lacp_bond *system);
unsigned long lacp_until_next(const struct lacp_bond *system);
void lacp_leave(struct lacp_port *port);

/* Of bond_lacp_shown.c. */
void lacp_choose(struct lacp_bond *system);
u16 lacp_active_number(const struct lacp_bond *system);
bool lacp_show(struct lacp_bond *system);

#endif
