/* Which ports carry: the groups of ports that have one partner, and the choice of one by the policy. */
#ifndef LACP_GROUPS_H
#define LACP_GROUPS_H

#include "lacp_team.h"

static int order(uint32_t a, uint32_t b)
{
	return a < b ? -1 : a > b;
}

/* Whether one port is better than another: by the end of each with the better system, as teamd has it. */
static bool is_better(struct lacp_port *one, struct lacp_port *two)
{
	struct lacp_port *ports[2] = { one, two };
	struct { uint32_t priority, port_priority, port; const uint8_t *mac; } ends[2] = { { 0 } };
	int by;

	if (one->lacp->cfg.policy == PORT_CONFIG) {
		by = teamd_port_prio(one->ctx, one->tdport) - teamd_port_prio(two->ctx, two->tdport);
		return by ? by > 0 : one->number < two->number;
	}
	for (int i = 0; i < 2; i++) {
		const struct lacp_port *port = ports[i];
		const uint8_t *own = (const uint8_t *) port->ctx->hwaddr;

		by = order(port->lacp->cfg.sys_prio, port->view.partner_priority);
		if (by < 0 || (!by && memcmp(own, port->view.partner_mac, ETH_ALEN) < 0)) {
			ends[i].priority = port->lacp->cfg.sys_prio;
			ends[i].mac = own;
			ends[i].port_priority = port->cfg.prio;
			ends[i].port = port->number;
		} else {
			ends[i].priority = port->view.partner_priority;
			ends[i].mac = port->view.partner_mac;
			ends[i].port_priority = port->view.partner_port_priority;
			ends[i].port = port->view.partner_port;
		}
	}
	if (!(by = order(ends[0].priority, ends[1].priority)) && !(by = memcmp(ends[0].mac, ends[1].mac, ETH_ALEN)) &&
	    !(by = order(ends[0].port_priority, ends[1].port_priority)))
		by = order(ends[0].port, ends[1].port);
	return by ? by < 0 : one->number < two->number;
}

static bool same_group(const struct lacp_port *one, const struct lacp_port *two)
{
	const struct niw_view *a = &one->view, *b = &two->view;

	return one == two ||
	       (one->cfg.key == two->cfg.key && a->partner_key == b->partner_key && a->partner_priority == b->partner_priority &&
		!memcmp(a->partner_mac, b->partner_mac, ETH_ALEN) && (a->partner_state & b->partner_state & NIW_STATE_AGGREGATION));
}

/* Finds the groups: the ports that have a partner, each with the best port of its group. */
static void find_groups(struct lacp *lacp)
{
	for_each_port(port, lacp) {
		port->lead = port->selected ? port : NULL;
		for_each_port(other, lacp)
			if (port->lead && other->selected && same_group(port, other) && is_better(other, port->lead))
				port->lead = other;
	}
}

/* How much a group is worth beside another by the policy: whether frames may pass there comes first. */
struct worth {
	bool carries;
	bool sticky;
	uint64_t most;
};

static struct worth worth(struct lacp *lacp, struct lacp_port *lead)
{
	struct worth it = { 0 };

	for_each_port(port, lacp) {
		if (port->lead != lead)
			continue;
		/* A held port has no aggregator, and one that stands by does not distribute. */
		it.carries |= lacp->cfg.hold_unselected || lag_is_ready(&port->view);
		it.sticky |= port->cfg.sticky;
		it.most += lacp->cfg.policy == BANDWIDTH ? team_get_port_speed(port->tdport->team_port) : 1;
	}
	return it;
}

static bool is_worth_more(struct lacp *lacp, struct lacp_port *one, struct lacp_port *two)
{
	struct worth a = worth(lacp, one), b = worth(lacp, two);

	if (a.carries != b.carries)
		return a.carries;
	if (lacp->cfg.policy == BANDWIDTH || lacp->cfg.policy == COUNT)
		return a.most > b.most;
	return is_better(one, two);
}

/* Has the group of this best port carry, or none. */
static void take_group(struct lacp *lacp, struct lacp_port *lead)
{
	lacp->carries = lead;
	for_each_port(port, lacp)
		port->chosen = lead && port->lead == lead;
}

/* Chooses the group that carries. */
static void choose(struct lacp *lacp)
{
	struct lacp_port *now = NULL, *best;
	struct worth it;

	if (!lacp->changed)
		return;
	lacp->changed = false;
	find_groups(lacp);
	/* The group of before: that of its best port, or else of any port of it. */
	if (lacp->carries && lacp->carries->selected)
		now = lacp->carries->lead;
	for_each_port(port, lacp)
		if (!now && port->chosen && port->selected)
			now = port->lead;
	best = now;
	it = now ? worth(lacp, now) : (struct worth) { 0 };
	if (!it.carries || !(lacp->cfg.policy == LACP_PRIO_STABLE || (lacp->cfg.policy == PORT_CONFIG && it.sticky))) {
		for_each_port(port, lacp)
			if (port->selected && port->lead == port && port != best && (!best || is_worth_more(lacp, port, best)))
				best = port;
	}
	take_group(lacp, best);
}

#endif
