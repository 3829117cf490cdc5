/* A team with LACP, and its ports: what the parts of the runner share. */
#ifndef LACP_TEAM_H
#define LACP_TEAM_H

#include <limits.h>
#include <string.h>
#include <sys/timerfd.h>

#include <linux/if_ether.h>
#include <private/misc.h>
#include <team.h>

#include "teamd.h"
#include "teamd_config.h"
#include "teamd_link_watch.h"
#include "teamd_state.h"

#include "lag_end.h"
#include "lag_state.h"

/* A function that teamd calls has what teamd hands over. */
#pragma GCC diagnostic ignored "-Wunused-parameter"

static const char *const policies[] = { "lacp_prio", "lacp_prio_stable", "bandwidth", "count", "port_config" };
enum policy { LACP_PRIO, LACP_PRIO_STABLE, BANDWIDTH, COUNT, PORT_CONFIG };

struct lacp {
	struct teamd_context *ctx;
	struct teamd_balancer *tb;
	struct lag_end end;	/* without a system while there is no port */
	struct lacp_port *carries;	/* the best port of the group that carries, or NULL */
	struct lag_state kept;	/* what the teamd before this one left */
	bool named[NIW_MOST_PORTS];	/* which of its ports the configuration names that teamd starts with */
	int clock;		/* a timerfd */
	int64_t try_at;		/* when a system that was refused is tried again, in ms */
	int64_t config_at;	/* when the configuration of the ports was read */
	int64_t silent_at;	/* when the links fall silent, of a device that is down; 0 of one that is up */
	bool carrier_up;
	bool to_remake;		/* the system has to be made anew */
	bool full;		/* the system has as many ports as it may, and there are more */
	bool changed;		/* the group that carries has to be chosen again */
	bool dirty;		/* the file is older than what it tells */
	bool stays;		/* teamd ends, and leaves the ports in the device */
	bool unsaved;		/* the last state was not written */
	struct {
		bool active;
		bool fast_rate;
		uint16_t sys_prio;
		uint16_t min_ports;
		bool hold_unselected;	/* ports outside of the group that carries are held */
		enum policy policy;
	} cfg;
};

struct lacp_port {
	struct teamd_context *ctx;
	struct teamd_port *tdport;
	struct lacp *lacp;
	int sock;
	uint16_t number;	/* 0: the port is left out */
	uint8_t mac[ETH_ALEN];	/* the source of its LACPDUs */
	uint64_t carrier_changes;
	struct niw_view view;	/* as niw_views last told it; .port is 0 before */
	struct lacp_port *lead;	/* the best port of its group; NULL without a partner */
	bool listed;		/* while a system is made: it is in it */
	bool selected;		/* it has a partner */
	bool chosen;		/* its group carries */
	bool resumes;		/* it distributed before teamd started */
	bool held;
	bool watched;		/* its link watch is obeyed */
	int64_t refused_until;	/* the kernel did not take it into use: the peer is told until then that it does not carry */
	struct lag_heard heard;
	struct lag_limit limit;
	struct lag_wake wake;
	struct {
		uint16_t prio;
		uint16_t key;
		bool sticky;
	} cfg;
};

static struct lacp_port *port_of(struct lacp *lacp, struct teamd_port *tdport)
{
	struct lacp_port *port = teamd_get_first_port_priv_by_creator(tdport, lacp);

	/* Before port_init, and after port_fini, it is none. */
	return port && port->tdport ? port : NULL;
}

static struct lacp_port *next_port(struct lacp *lacp, struct lacp_port *port)
{
	struct teamd_port *tdport = port ? port->tdport : NULL;

	do {
		tdport = teamd_get_next_tdport(lacp->ctx, tdport);
		port = tdport ? port_of(lacp, tdport) : NULL;
	} while (tdport && !port);
	return port;
}

#define for_each_port(port, lacp) for (struct lacp_port *port = next_port(lacp, NULL); port; port = next_port(lacp, port))

/* Has the next tick come at a time, in ms: soon, if that has passed. */
static void wake_at(const struct lacp *lacp, int64_t at)
{
	int64_t in = at - lag_now();
	struct itimerspec once = { .it_value.tv_nsec = 1000000 };

	if (in > 0)
		once.it_value = (struct timespec) { .tv_sec = in / 1000, .tv_nsec = in % 1000 * 1000000 + 1 };
	timerfd_settime(lacp->clock, 0, &once, NULL);
}

static bool distributes(const struct lacp_port *port)
{
	return (port->view.state & NIW_STATE_DISTRIBUTING) && !port->view.defaulted;
}

/* Whether frames may pass on the port. */
static bool may_carry(const struct lacp_port *port)
{
	return port->chosen && !port->lacp->silent_at && distributes(port);
}

static const char *const state_words[] = { "disabled", "current", "expired", "defaulted" };

static const char *state_name(const struct lacp_port *port)
{
	switch (port->view.port ? port->view.receive_state : NIW_RECEIVE_PORT_DISABLED) {
	case NIW_RECEIVE_CURRENT:
		return state_words[1];
	case NIW_RECEIVE_EXPIRED:
		return state_words[port->wake.woken ? 3 : 2];
	case NIW_RECEIVE_DEFAULTED:
		return state_words[3];
	default:
		return state_words[0];
	}
}

#endif
