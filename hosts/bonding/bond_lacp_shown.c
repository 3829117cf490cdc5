// SPDX-License-Identifier: GPL-2.0-or-later
/*
 * LACP of the bonding driver over lag.h: which aggregator carries the frames of a bond, and what
 * the rest of the driver reads of ports and aggregators.
 */

#include <linux/etherdevice.h>
#include <linux/netdevice.h>

#include "bond_lacp.h"

/* Whether `other` is the better one to carry, by the rules of ad_select. */
static bool lacp_is_better(const struct lacp_group *best, const struct lacp_group *other,
			   int select)
{
	if (best->individual != other->individual)
		return best->individual;
	if (best->partner != other->partner)
		return other->partner;
	if (select == BOND_AD_COUNT && other->ports != best->ports)
		return other->ports > best->ports;
	return other->bandwidth > best->bandwidth;
}

/* Whether a port carries once its aggregator is in use, with a partner or without one. */
static bool lacp_could_carry(const struct lacp_port *port)
{
	const struct niw_view *view = &port->view;

	return lag_is_ready(view) ||
	       (view->up && view->aggregator && view->receive_state == NIW_RECEIVE_DEFAULTED);
}

static void lacp_count_groups(struct lacp_bond *system)
{
	u8 i;

	memset(system->groups, 0, sizeof(system->groups));
	for (i = 0; i < system->placed; i++) {
		const struct lacp_port *port = system->keys[i];
		struct lacp_group *group;

		if (!lacp_could_carry(port))
			continue;
		group = &system->groups[port->view.aggregator - 1];
		group->ports++;
		if (port->slave->speed != SPEED_UNKNOWN)
			group->bandwidth += port->slave->speed;
		group->partner |= !port->view.defaulted &&
				  !is_zero_ether_addr(port->view.partner_mac);
		group->individual |= !lacp_aggregates(port->key);
	}
}

/* The place of the aggregator that is to carry, or -1. */
static int lacp_best_group(const struct lacp_bond *system)
{
	const struct lacp_group *groups = system->groups, *active;
	int select = system->bond->params.ad_select;
	int best = -1, now = -1;
	u8 i;

	for (i = 0; i < system->placed; i++) {
		if (system->active == system->keys[i])
			now = i;
		if (groups[i].ports &&
		    (best < 0 || lacp_is_better(&groups[best], &groups[i], select)))
			best = i;
	}
	if (now < 0 || !groups[now].ports)
		return best;
	active = &groups[now];
	if (select == BOND_AD_STABLE)
		return active->partner || !groups[best].partner ? now : best;
	return lacp_is_better(active, &groups[best], select) ? best : now;
}

/* The number of the aggregator that carries the frames of the bond, or 0. */
u16 lacp_active_number(const struct lacp_bond *system)
{
	u16 number = system->active ? system->placed : 0;

	while (number && system->keys[number - 1] != system->active)
		number--;
	return number;
}

/*
 * Chooses the aggregator that carries the frames of the bond. The ports of the others stand by, as
 * their partners are told, and attach at once when their turn comes.
 */
void lacp_choose(struct lacp_bond *system)
{
	struct lacp_port *chosen;
	int best;

	lacp_count_groups(system);
	best = lacp_best_group(system);
	chosen = best < 0 ? NULL : system->keys[best];
	if (chosen == system->active)
		return;
	system->active = chosen;
	if (lag_end_use(&system->end, best + 1))
		lacp_read_views(system);
	if (chosen && !system->groups[best].partner)
		net_warn_ratelimited("%s: Warning: No 802.3ad response from the link partner for any adapters in the bond\n",
				     system->bond->dev->name);
}

/* What the driver calls the states, by the numbers of lag.h. */
static const u8 lacp_receive_states[] = { AD_RX_INITIALIZE, AD_RX_PORT_DISABLED, AD_RX_EXPIRED,
					  AD_RX_DEFAULTED, AD_RX_CURRENT };
static const u8 lacp_mux_states[] = { AD_MUX_DETACHED, AD_MUX_WAITING, AD_MUX_ATTACHED,
				      AD_MUX_COLLECTING_DISTRIBUTING };
static const u8 lacp_churn_states[] = { AD_CHURN_MONITOR, AD_NO_CHURN, AD_CHURN };

static void lacp_show_partner(struct port_params *shown, const struct niw_view *view)
{
	shown->system_priority = view->partner_priority;
	ether_addr_copy(shown->system.mac_addr_value, view->partner_mac);
	shown->key = view->partner_key;
	shown->port_priority = view->partner_port_priority;
	shown->port_number = view->partner_port;
	shown->port_state = view->partner_state;
}

static void lacp_show_churn(struct port *shown, const struct niw_churn *churn)
{
	shown->sm_churn_actor_state = lacp_churn_states[churn->actor.state];
	shown->sm_churn_partner_state = lacp_churn_states[churn->partner.state];
	shown->churn_actor_count = churn->actor.churns;
	shown->churn_partner_count = churn->partner.churns;
}

/* What there is of a port, but its aggregator. */
static void lacp_show_port(const struct lacp_port *port)
{
	struct port *shown = &SLAVE_AD_INFO(port->slave)->port;
	const struct niw_view *view = &port->view;

	shown->actor_system_priority = port->system->priority;
	ether_addr_copy(shown->actor_system.mac_addr_value, port->system->mac);
	shown->actor_port_number = port->number;
	shown->actor_port_priority = port->priority;
	shown->actor_admin_port_key = port->key;
	shown->actor_oper_port_key = port->key;
	shown->actor_oper_port_state = port->placed ? view->state : 0;
	shown->is_enabled = port->up;
	shown->sm_rx_state = lacp_receive_states[view->receive_state];
	shown->sm_mux_state = lacp_mux_states[view->mux_state];
	lacp_show_partner(&shown->partner_oper, view);
	lacp_show_churn(shown, &port->churn);
}

/* The slave whose aggregator a port is in, or NULL. */
static struct lacp_port *lacp_aggregator_of(const struct lacp_port *port)
{
	return port->placed && port->view.aggregator ? port->system->keys[port->view.aggregator - 1]
						     : NULL;
}

/* Shows in which aggregator a port is, and whether it carries; returns whether that changed. */
static bool lacp_show_carries(const struct lacp_port *port)
{
	struct slave *slave = port->slave;
	struct port *shown = &SLAVE_AD_INFO(slave)->port;
	struct lacp_port *in = lacp_aggregator_of(port);
	struct aggregator *agg = in ? &SLAVE_AD_INFO(in->slave)->aggregator : NULL;
	bool carries = in && in == port->system->active &&
		       (port->view.state & NIW_STATE_DISTRIBUTING) && bond_slave_is_up(slave) &&
		       slave->link == BOND_LINK_UP;
	bool changed = rcu_access_pointer(shown->aggregator) != agg;

	shown->actor_port_aggregator_identifier = agg ? agg->aggregator_identifier : 0;
	rcu_assign_pointer(shown->aggregator, agg);
	if (carries == bond_is_active_slave(slave) && !(carries && slave->inactive))
		return changed;
	if (carries)
		bond_set_slave_active_flags(slave, BOND_SLAVE_NOTIFY_LATER);
	else
		bond_set_slave_inactive_flags(slave, BOND_SLAVE_NOTIFY_LATER);
	return true;
}

/* Shows what there is of an aggregator; returns whether another one carries the frames now. */
static bool lacp_show_aggregator(struct lacp_bond *system, struct lacp_port *key)
{
	struct aggregator *agg = &SLAVE_AD_INFO(key->slave)->aggregator;
	const struct lacp_port *first = NULL;
	bool changed = agg->is_active != (system->active == key);
	u16 ports = 0;
	u8 i;

	for (i = 0; i < system->placed; i++) {
		const struct lacp_port *port = system->keys[i];

		if (lacp_aggregator_of(port) != key)
			continue;
		if (!first)
			first = port;
		ports += !!(port->view.state & NIW_STATE_DISTRIBUTING);
	}
	agg->num_of_ports = ports;
	agg->is_individual = first && !lacp_aggregates(first->key);
	agg->actor_admin_aggregator_key = first ? first->key : 0;
	agg->actor_oper_aggregator_key = agg->actor_admin_aggregator_key;
	agg->partner_oper_aggregator_key = first ? first->view.partner_key : 0;
	agg->partner_system_priority = first ? first->view.partner_priority : 0;
	if (first && !first->view.defaulted)
		ether_addr_copy(agg->partner_system.mac_addr_value, first->view.partner_mac);
	else
		eth_zero_addr(agg->partner_system.mac_addr_value);
	agg->is_active = system->active == key;
	return changed;
}

/*
 * Writes what the rest of the driver reads; returns whether its list of the slaves that are sent on
 * has to be made anew.
 */
bool lacp_show(struct lacp_bond *system)
{
	bool changed = false;
	u8 i;

	spin_lock_bh(&system->bond->mode_lock);
	for (i = 0; i < system->count; i++) {
		lacp_show_port(system->ports[i]);
		changed |= lacp_show_carries(system->ports[i]);
	}
	/* also those of ports that have no place in a system: nothing carries by them */
	for (i = 0; i < system->count; i++)
		changed |= lacp_show_aggregator(system, system->ports[i]);
	spin_unlock_bh(&system->bond->mode_lock);
	bond_3ad_set_carrier(system->bond);
	return changed;
}
